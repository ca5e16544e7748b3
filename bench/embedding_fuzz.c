/* Random calls of the library in lawful order: projects and AT&T texts that are filled, opened, shared, asked and closed, with good and bad bytes, unknown names, and buffers
 * that are too short. It tests what a caller can see: that no byte behind a reply is written, that a reply which found no room comes whole when it has the
 * room that was asked for, and that a status is one of those of the header. An address sanitizer or valgrind tests the rest.
 *
 *     gcc -g -O1 -fsanitize=address,undefined -Iinclude -o out/fuzz bench/embedding_fuzz.c out/libmorph.a && out/fuzz 100000 1
 */
#include <stdio.h>
#include <stdlib.h>
#include <string.h>
#include "morph.h"

enum { PROJECTS = 4, ROOM = 3000 };

static uint64_t state;

static uint32_t pick(uint32_t below)
{
    state = state * 6364136223846793005u + 1442695040888963407u;
    return (uint32_t)((state >> 33) % below);
}

static const char *const manifests[] = {
    "xfst a.xfst\nrequire Noun\n", "xfst a.xfst\nlexc Lexicon b.lexc\n", "xfst a.xfst\nxfst missing.xfst\n", "nonsense\n", "", "xfst a.xfst\ngloss c.gloss\nrequire Noun\n",
};
static const char *const sources[] = {
    "define Noun [{cat} | {dog}] \"+N\":0 [\"+Sg\":0 | \"+Pl\":s] ;\n",
    "define Noun [{a} | {b}]* ;\n",
    "define Noun {a}:0 [{b}:0]* {c} ;\n",
    "define Noun [{ab} | a] [b | 0] .x. [x|y] ;\n",
    "define Noun a -> b || _ c ;\n",
    "define Noun {a\n",
    "define Noun Unknown ;\n",
    "define Noun [{\xC3\xA9t\xC3\xA9}] ;\n",
    "\xFF\xFE",
};
static const char *const lexicons[] = { "LEXICON Root\ncat # ;\ndog Number ;\nLEXICON Number\ns # ;\n", "LEXICON Root\ncat Missing ;\n" };
static const char *const glosses[] = { "cat\tKatze\n+N\t\n", "cat Katze\n" };
static const char *const saved[] = {
    "0\t1\tc\tc\n1\t2\ta\ta\n2\t3\tt\tt\n3\t4\t+N\t@0@\n4\t5\t+Pl\ts\n4\t5\t+Sg\t@0@\n5\n",
    "0\t0\ta\n0\t0\tb\n0\n",
    "0\t1\tc\n1\t1\tx\t@0@\n1\n",
    "0\t1\t\xC3\xA9\n1\t2\tt\n2\t3\te\xCC\x81\n3\n",
    "",
    "0\t1\ta\n1\tb\n",
    "\xFF\n",
};
static const char *const names[] = { "project", "a.xfst", "b.lexc", "c.gloss", "missing.xfst", "", "\xC0", "a\nb", "d.att" };
static const char *const nets[] = { "Noun", "Lexicon", "Verb", "", "\xFF", "No\nun", "N\xC3\xB6un" };
static const char *const words[] = { "cat", "cats", "dogs", "c", "ab", "aab", "", "x", "\xC3\xA9t\xC3\xA9", "e\xCC\x81t", "\xE2\x82", "cat\n", "cat+N+Pl", "cat dogs, cat", "\xF0\x9F\x90\x88" };

static size_t word_of(uint8_t *out)
{
    if (pick(4) == 0) {
        size_t len = pick(40) == 0 ? 4090 + pick(20) : pick(24);
        for (size_t i = 0; i < len; i++)
            out[i] = (uint8_t)(pick(3) ? (uint32_t)"abcdogts+N"[pick(10)] : pick(256));
        return len;
    }
    const char *word = words[pick(sizeof words / sizeof *words)];
    memcpy(out, word, strlen(word));
    return strlen(word);
}

static void fail(const char *what, uint32_t status)
{
    fprintf(stderr, "%s: status %u\n", what, status);
    abort();
}

#define BYTES(text) (const uint8_t *)(text), strlen(text)

static uint32_t ask(uint32_t which, morph_project *p, const uint8_t *net, size_t net_len, const uint8_t *word, size_t word_len, uint8_t *out, size_t room, morph_reply *reply)
{
    switch (which) {
    case 0: return morph_up(p, net, net_len, word, word_len, out, room, reply);
    case 1: return morph_down(p, net, net_len, word, word_len, out, room, reply);
    case 2: return morph_gloss(p, net, net_len, word, word_len, out, room, reply);
    case 3: return morph_cut(p, word, word_len, out, room, reply);
    case 4: return morph_names(p, out, room, reply);
    case 5: return morph_att_up(p, word, word_len, out, room, reply);
    default: return morph_fault(p, out, room, reply);
    }
}

int main(int argc, char **argv)
{
    unsigned long calls = argc > 1 ? strtoul(argv[1], NULL, 10) : 100000, seen[16] = { 0 };
    morph_project projects[PROJECTS] = { MORPH_PROJECT_NONE, MORPH_PROJECT_NONE, MORPH_PROJECT_NONE, MORPH_PROJECT_NONE };
    static uint8_t word[5000];
    state = argc > 2 ? strtoul(argv[2], NULL, 10) : 1;
    for (unsigned long call = 0; call < calls; call++) {
        morph_project *p = &projects[pick(PROJECTS)];
        uint32_t kind = pick(100), status;
        if (kind < 4) {
            static const struct { const char *name; const char *const *all; uint32_t count; } files[] = {
                { "project", manifests, 6 }, { "a.xfst", sources, 9 }, { "b.lexc", lexicons, 2 }, { "c.gloss", glosses, 2 }, { "d.att", saved, 7 },
            };
            uint32_t f = pick(5);
            const char *content = files[f].all[pick(files[f].count)];
            const char *name = pick(8) ? files[f].name : names[pick(9)];
            status = morph_put(p, BYTES(name), BYTES(content));
        } else if (kind < 6) {
            status = morph_open(p);
        } else if (kind < 7) {
            const char *name = names[pick(4) ? 8 : pick(9)];
            status = morph_open_att(p, BYTES(name));
        } else if (kind < 8) {
            morph_project *other = p;
            while (other == p)
                other = &projects[pick(PROJECTS)];
            status = morph_share(p, other);
        } else if (kind < 9) {
            morph_close(p);
            status = MORPH_OK;
            if (pick(2))
                morph_close(p);
        } else {
            const char *net = nets[pick(3) ? 0 : pick(7)];
            size_t len = word_of(word), room = pick(3) ? ROOM : pick(64);
            uint8_t *in = malloc(len ? len : 1), *out = malloc(room ? room : 1);
            morph_reply reply = { 7, 7, 7, 7 };
            uint32_t which = pick(7);
            memcpy(in, word, len);
            memset(out, 0xA5, room ? room : 1);
            status = ask(which, p, BYTES(net), in, len, out, room, &reply);
            for (size_t i = status == MORPH_OK ? reply.len : 0; i < room; i++)
                if (out[i] != 0xA5)
                    fail("a byte behind the reply was written", status);
            if (status == MORPH_OK || status == MORPH_NO_ROOM) {
                if (reply.at > reply.len || reply.place != 0 || (status == MORPH_OK) != (reply.len <= room))
                    fail("a reply that can't be", status);
            }
            if (status == MORPH_NO_ROOM) {
                uint8_t *whole = malloc(reply.len);
                morph_reply again;
                status = ask(which, p, BYTES(net), in, len, whole, reply.len, &again);
                if (status != MORPH_OK || again.len != reply.len || whole[again.len - 1] != '\n')
                    fail("the second call", status);
                seen[MORPH_NO_ROOM]++;
                free(whole);
            }
            free(in);
            free(out);
        }
        if (status > MORPH_NO_SYMBOL)
            fail("an unknown status", status);
        seen[status]++;
    }
    for (int i = 0; i < PROJECTS; i++)
        morph_close(&projects[i]);
    for (uint32_t s = 0; s <= MORPH_NO_SYMBOL; s++)
        printf("%s %lu\n", morph_status_name(s), seen[s]);
    return 0;
}
