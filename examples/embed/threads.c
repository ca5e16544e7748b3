/* Looks words up in one project by several threads, each with an owner of its own: threads FOLDER NET WORD.. */
#include <pthread.h>
#include "folder.h"

enum { THREADS = 4, ROUNDS = 1000 };

struct job {
    morph_project project;
    const char *net;
    char **words;
    size_t count;
};

static void *run(void *argument)
{
    struct job *job = argument;
    uint8_t out[65536];
    morph_reply reply;
    job->count = 0;
    for (int round = 0; round < ROUNDS; round++)
        for (char **word = job->words; *word; word++)
            if (morph_up(&job->project, (const uint8_t *)job->net, strlen(job->net), (const uint8_t *)*word, strlen(*word), out, sizeof out, &reply) == MORPH_OK)
                job->count += reply.count;
    return NULL;
}

int main(int argc, char **argv)
{
    morph_project project = MORPH_PROJECT_NONE;
    struct job jobs[THREADS];
    pthread_t threads[THREADS];
    if (argc < 3)
        return 2;
    uint32_t status = morph_put_folder(&project, argv[1]);
    if (status == MORPH_OK)
        status = morph_open(&project);
    for (int i = 0; i < THREADS; i++) {
        jobs[i] = (struct job) { MORPH_PROJECT_NONE, argv[2], argv + 3, 0 };
        if (status == MORPH_OK)
            status = morph_share(&project, &jobs[i].project);
    }
    for (int i = 0; status == MORPH_OK && i < THREADS; i++)
        if (pthread_create(&threads[i], NULL, run, &jobs[i]))
            return 3;
    for (int i = 0; status == MORPH_OK && i < THREADS; i++) {
        pthread_join(threads[i], NULL);
        printf("%zu\n", jobs[i].count);
    }
    for (int i = 0; i < THREADS; i++)
        morph_close(&jobs[i].project);
    morph_close(&project);
    if (status != MORPH_OK)
        fprintf(stderr, "%s\n", morph_status_name(status));
    return status == MORPH_OK ? 0 : 1;
}
