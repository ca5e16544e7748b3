/* Puts the files of a folder into a project: its manifest, and those that it names. */
#ifndef MORPH_FOLDER_H
#define MORPH_FOLDER_H

#include <stdio.h>
#include <stdlib.h>
#include <string.h>
#include "morph.h"

/* The content of a file, which the caller frees, or NULL. One more byte, a zero, stands behind it. */
static char *morph_read_file(const char *folder, const char *name, size_t *len)
{
    char path[4096];
    FILE *file = NULL;
    char *bytes = NULL;
    *len = 0;
    if (snprintf(path, sizeof path, "%s/%s", folder, name) >= (int)sizeof path || !(file = fopen(path, "rb")))
        return NULL;
    for (size_t room = 4096;; room *= 2) {
        char *more = (char *)realloc(bytes, room + 1);
        if (!more)
            break;
        bytes = more;
        *len += fread(bytes + *len, 1, room - *len, file);
        if (*len < room) {
            bytes[*len] = 0;
            fclose(file);
            return bytes;
        }
    }
    free(bytes);
    fclose(file);
    return NULL;
}

/* Puts the file of this name, if the folder has it. Where it hasn't, morph_open tells. */
static uint32_t morph_put_file(morph_project *project, const char *folder, const char *name)
{
    size_t len;
    char *bytes = morph_read_file(folder, name, &len);
    uint32_t status = bytes ? morph_put(project, (const uint8_t *)name, strlen(name), (const uint8_t *)bytes, len) : MORPH_OK;
    free(bytes);
    return status;
}

/* Puts the files of a folder. A line of the manifest names a file by its last word. */
static uint32_t morph_put_folder(morph_project *project, const char *folder)
{
    size_t len;
    char *manifest = morph_read_file(folder, "project", &len), *next = manifest;
    uint32_t status = morph_put_file(project, folder, "project");
    for (char *line; status == MORPH_OK && next && (line = next);) {
        next = strchr(line, '\n');
        if (next)
            *next++ = 0;
        char *space = strrchr(line, ' ');
        if (space && (!strncmp(line, "xfst ", 5) || !strncmp(line, "lexc ", 5) || !strncmp(line, "twolc ", 6) || !strncmp(line, "gloss ", 6)))
            status = morph_put_file(project, folder, space + 1);
    }
    free(manifest);
    return status;
}

#endif
