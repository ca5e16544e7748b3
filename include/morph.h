/* morph.h - look-ups in projects of finite-state morphology, and in networks saved as AT&T text, for programs in C and C++.
 *
 * The library is crates/morph_c/out/libmorph_c.a, which `rt lib` makes in crates/morph_c. It prints nothing, stops at no input and
 * starts no thread. Each call answers with one of the numbers of `enum morph_status`, except morph_close. docs/EMBEDDING.md says how a
 * program is built with it; docs/FORMATS.md says what the files of a project say and what the lines of a reply are. The contract of
 * each call stands at its export in crates/morph_c/src; that a caller keeps what is asked of it here isn't checked.
 *
 * What a caller keeps, in every call:
 * - A pointer isn't null, also where its length is 0, and points to as many bytes as its length says.
 * - A `morph_project` begins as MORPH_PROJECT_NONE, and only these calls change or read what is in it.
 * - It isn't copied: the copy would own the same memory. morph_share makes another owner.
 * - A call has its `morph_project`s, its buffer and its `morph_reply` to itself: no two of these lie in the same memory, and no other thread uses
 *   them meanwhile.
 * - malloc, realloc and free are those of one allocator, which aligns as C asks for.
 * - No call is made from a signal handler, or in the child of a fork of a process with several threads.
 *
 * Threads: each thread has a `morph_project` of its own, which morph_share makes. They look up in one project at once and wait for none.
 */
#ifndef MORPH_H
#define MORPH_H

#include <stdbool.h>
#include <stddef.h>
#include <stdint.h>

#ifdef __cplusplus
extern "C" {
#endif

/* What a call answers. */
enum morph_status {
    MORPH_OK = 0,        /* all is told */
    MORPH_NO_ROOM = 1,   /* the buffer is too short: nothing was written, and reply->len says how much room is needed */
    MORPH_NO_MEMORY = 2, /* malloc refused; the project is as it was */
    MORPH_STATE = 3,     /* the project isn't in the state that the call is for */
    MORPH_NOT_UTF8 = 4,  /* a name, a word or a text is no UTF-8 */
    MORPH_LONG = 5,      /* a name, a word or a text has more than 4,096 bytes */
    MORPH_NEWLINE = 6,   /* a name, a word or a text has a newline */
    MORPH_REFUSED = 7,   /* the files have a fault, which morph_fault tells */
    MORPH_NO_SYMBOL = 8  /* no symbol begins at the character reply->place of the word */
};

/* A project. Its members are the library's. */
typedef struct morph_project {
    bool is_there;
    struct {
        void *at;
    } slot;
} morph_project;

/* A project that has nothing yet. It owns no memory. */
#define MORPH_PROJECT_NONE { false, { NULL } }

/* What is told of a reply. With a status other than MORPH_OK and MORPH_NO_ROOM its first three members are 0. */
typedef struct morph_reply {
    size_t len;     /* how many bytes the whole reply has */
    size_t at;      /* where its second line begins; len, if there is none */
    size_t count;   /* how many lines there are from there on */
    uint32_t place; /* with MORPH_NO_SYMBOL, the character at which no symbol begins, counted from 1; else 0 */
} morph_reply;

/* The name of a status. */
static inline const char *morph_status_name(uint32_t status)
{
    static const char *const names[] = { "ok", "no room", "no memory", "state", "not UTF-8", "long", "newline", "refused", "no symbol" };
    return status < sizeof names / sizeof names[0] ? names[status] : "unknown";
}

/* ---- A project is filled, opened, shared and closed. */

/* Puts a file into a project that isn't open yet, in the place of the one of this name if there is one. The bytes are copied.
 * MORPH_STATE: it has been opened. */
uint32_t morph_put(morph_project *project, const uint8_t *name, size_t name_len, const uint8_t *content, size_t content_len);

/* Opens the project that its files say, and builds a network for each of its names. That takes the time and the memory that the files
 * ask for. The file `project` says which of the others belong to it.
 * MORPH_REFUSED: the project has the first fault of its files then, which morph_fault tells. MORPH_STATE: no file was put, or it has been opened. */
uint32_t morph_open(morph_project *project);

/* Opens the one of the files that has this name as an AT&T text, a network that is saved, in place of what morph_open does. The project is asked by
 * morph_att_up alone then, and no other file is read. The text's symbols are those that its arcs name.
 * MORPH_REFUSED: there is no such file, or it has a fault, which morph_fault tells. MORPH_STATE: no file was put, or the project has been opened. */
uint32_t morph_open_att(morph_project *project, const uint8_t *name, size_t name_len);

/* Makes `other` an owner of the same open project or AT&T text. Nothing is copied. What `other` had is let go.
 * MORPH_STATE: the project isn't open. */
uint32_t morph_share(morph_project *project, morph_project *other);

/* Lets go of all that the project has. It is as MORPH_PROJECT_NONE then, so that a second call does nothing. */
void morph_close(morph_project *project);

/* ---- A project is asked. Each call writes a reply of lines to the front of `out`, with a newline behind each and no zero byte,
 *      and leaves the rest of `out` as it was. */

/* The upper words of a word in a name, which are its analyses: "1 N WORD" and N lines; "1 more WORD" where there are more than 4,096; "1 loop WORD"
 * and three lines where they have no end; "1 symbol AT WORD"; or "1 net NAME", where there is no such name.
 * MORPH_STATE: the project isn't open. */
uint32_t morph_up(morph_project *project, const uint8_t *net, size_t net_len, const uint8_t *word, size_t word_len, uint8_t *out, size_t out_len, morph_reply *reply);

/* The lower words of a word in a name, which are its forms, in the same way. */
uint32_t morph_down(morph_project *project, const uint8_t *net, size_t net_len, const uint8_t *word, size_t word_len, uint8_t *out, size_t out_len, morph_reply *reply);

/* The upper words of a word in the AT&T text that is open, in the same way; a text has no names.
 * MORPH_STATE: no AT&T text is open. */
uint32_t morph_att_up(morph_project *project, const uint8_t *word, size_t word_len, uint8_t *out, size_t out_len, morph_reply *reply);

/* The words of a line of text in columns, above their analyses and glosses: "1 gloss N" and three lines; or "1 net NAME".
 * MORPH_STATE: the project isn't open. */
uint32_t morph_gloss(morph_project *project, const uint8_t *net, size_t net_len, const uint8_t *text, size_t text_len, uint8_t *out, size_t out_len, morph_reply *reply);

/* The symbols into which the project's alphabet cuts a word: "N", and each on a line.
 * MORPH_NO_SYMBOL: it stops at the character reply->place. MORPH_STATE: the project isn't open. */
uint32_t morph_cut(morph_project *project, const uint8_t *word, size_t word_len, uint8_t *out, size_t out_len, morph_reply *reply);

/* The names of the project in the order of their bytes: "N", and each on a line.
 * MORPH_STATE: the project isn't open. */
uint32_t morph_names(morph_project *project, uint8_t *out, size_t out_len, morph_reply *reply);

/* The first fault of the files, or of the file that was to be an AT&T text: the line "refused FILE LINE REASON".
 * MORPH_STATE: neither morph_open nor morph_open_att answered MORPH_REFUSED. */
uint32_t morph_fault(morph_project *project, uint8_t *out, size_t out_len, morph_reply *reply);

#ifdef __cplusplus
}
#endif

#endif
