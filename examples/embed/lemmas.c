/* An extension of SQLite: lemmas(FOLDER, NET, TEXT) has, for each word of a text, the lemma of its first analysis, which is what stands before
 * the first '+', or else the word itself. A full-text table of lemmas finds "mouse" in a text with "mice".
 *
 *     gcc -fPIC -shared -Iinclude -o out/lemmas.so examples/embed/lemmas.c -Lout -lmorph -Wl,-rpath,"$PWD/out"
 *     sqlite3 :memory: '.load out/lemmas' "select lemmas('examples/english', 'Noun', 'cats, dogs and mice')"
 */
#include <sqlite3ext.h>
SQLITE_EXTENSION_INIT1
#include "folder.h"

/* The project that was opened last, kept for the next row. */
struct kept {
    char folder[1024];
    morph_project project;
    uint8_t *out;
    size_t room;
};

static void let_go(void *kept)
{
    morph_close(&((struct kept *)kept)->project);
    sqlite3_free(((struct kept *)kept)->out);
    sqlite3_free(kept);
}

static uint32_t open_in(struct kept *kept, const char *folder)
{
    if (!strcmp(kept->folder, folder))
        return MORPH_OK;
    morph_close(&kept->project);
    kept->folder[0] = 0;
    uint32_t status = morph_put_folder(&kept->project, folder);
    if (status == MORPH_OK)
        status = morph_open(&kept->project);
    if (status == MORPH_OK)
        snprintf(kept->folder, sizeof kept->folder, "%s", folder);
    return status;
}

/* Appends the lemma of a word. */
static void add_lemma(struct kept *kept, const char *net, const unsigned char *word, size_t len, sqlite3_str *all)
{
    morph_reply reply;
    uint32_t status;
    const char *found = (const char *)word;
    while ((status = morph_up(&kept->project, (const uint8_t *)net, strlen(net), word, len, kept->out, kept->room, &reply)) == MORPH_NO_ROOM) {
        uint8_t *more = sqlite3_realloc64(kept->out, reply.len);
        if (!more)
            break;
        kept->out = more;
        kept->room = reply.len;
    }
    if (status == MORPH_OK && reply.count > 0 && kept->out[2] >= '1' && kept->out[2] <= '9') {
        found = (const char *)kept->out + reply.at;
        for (len = 0; found[len] != '+' && found[len] != '\n';)
            len++;
    }
    if (sqlite3_str_length(all))
        sqlite3_str_appendchar(all, 1, ' ');
    sqlite3_str_append(all, found, (int)len);
}

static int in_word(unsigned char c)
{
    return c >= 0x80 || (c >= '0' && c <= '9') || (c >= 'A' && c <= 'Z') || (c >= 'a' && c <= 'z') || c == '-' || c == '\'';
}

static void lemmas(sqlite3_context *context, int count, sqlite3_value **values)
{
    struct kept *kept = sqlite3_user_data(context);
    const char *folder = (const char *)sqlite3_value_text(values[0]), *net = (const char *)sqlite3_value_text(values[1]);
    const unsigned char *text = sqlite3_value_text(values[2]);
    (void)count;
    if (!folder || !net || !text)
        return;
    uint32_t status = open_in(kept, folder);
    if (status != MORPH_OK) {
        sqlite3_result_error(context, morph_status_name(status), -1);
        return;
    }
    sqlite3_str *all = sqlite3_str_new(sqlite3_context_db_handle(context));
    while (*text) {
        size_t len = 0;
        while (in_word(text[len]))
            len++;
        if (len)
            add_lemma(kept, net, text, len, all);
        text += len ? len : 1;
    }
    char *result = sqlite3_str_finish(all);
    sqlite3_result_text(context, result ? result : "", -1, result ? sqlite3_free : SQLITE_STATIC);
}

int sqlite3_lemmas_init(sqlite3 *db, char **error, const sqlite3_api_routines *api)
{
    SQLITE_EXTENSION_INIT2(api);
    (void)error;
    struct kept *kept = sqlite3_malloc(sizeof *kept);
    if (!kept)
        return SQLITE_NOMEM;
    memset(kept, 0, sizeof *kept);
    kept->room = 4096;
    kept->out = sqlite3_malloc64(kept->room);
    if (!kept->out) {
        sqlite3_free(kept);
        return SQLITE_NOMEM;
    }
    return sqlite3_create_function_v2(db, "lemmas", 3, SQLITE_UTF8, kept, lemmas, NULL, NULL, let_go);
}
