/* Opens the project of examples/definitions, which it has in memory, and analyses the words of its command line. */
#include <stdio.h>
#include <string.h>
#include "morph.h"

#define BYTES(text) (const uint8_t *)(text), strlen(text)

static const char *const files[][2] = {
    { "project", "xfst noun.xfst\nrequire Noun\n" },
    { "noun.xfst", "define Noun [{cat} | {dog}] \"+N\":0 [\"+Sg\":0 | \"+Pl\":s] ;\n" },
};

int main(int argc, char **argv)
{
    morph_project project = MORPH_PROJECT_NONE;
    morph_reply reply;
    uint8_t out[65536];
    uint32_t status = MORPH_OK;
    for (size_t i = 0; i < 2 && status == MORPH_OK; i++)
        status = morph_put(&project, BYTES(files[i][0]), BYTES(files[i][1]));
    if (status == MORPH_OK)
        status = morph_open(&project);
    if (status == MORPH_REFUSED && morph_fault(&project, out, sizeof out, &reply) == MORPH_OK)
        printf("%.*s", (int)reply.len, (const char *)out);
    for (int i = 1; i < argc && status == MORPH_OK; i++) {
        status = morph_up(&project, BYTES("Noun"), BYTES(argv[i]), out, sizeof out, &reply);
        if (status == MORPH_OK)
            printf("%s: %zu\n%.*s", argv[i], reply.count, (int)(reply.len - reply.at), (const char *)out + reply.at);
    }
    morph_close(&project);
    if (status != MORPH_OK)
        fprintf(stderr, "%s\n", morph_status_name(status));
    return status == MORPH_OK ? 0 : 1;
}
