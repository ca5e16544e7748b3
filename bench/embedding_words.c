/* Looks up each line of a file in a name, so many times over in each of so many threads: FOLDER NET WORDS ROUNDS THREADS. Prints how many words and answers there
 * were, and the seconds by the clock that look-ups took. embedding.py calls it. */
#include <pthread.h>
#include <time.h>
#include "folder.h"

enum { MOST_THREADS = 16 };

struct job {
    morph_project project;
    const char *net, *text;
    size_t len, words, answers;
    long rounds;
};

static double now(void)
{
    struct timespec time;
    clock_gettime(CLOCK_MONOTONIC, &time);
    return (double)time.tv_sec + (double)time.tv_nsec / 1e9;
}

static void *run(void *argument)
{
    struct job *job = argument;
    static _Thread_local uint8_t out[1 << 16];
    morph_reply reply;
    for (long round = job->rounds; round > 0; round--)
        for (const char *word = job->text, *end; (end = memchr(word, '\n', (size_t)(job->text + job->len - word))); word = end + 1) {
            if (morph_up(&job->project, (const uint8_t *)job->net, strlen(job->net), (const uint8_t *)word, (size_t)(end - word), out, sizeof out, &reply) == MORPH_OK)
                job->answers += reply.count;
            job->words++;
        }
    return NULL;
}

int main(int argc, char **argv)
{
    morph_project project = MORPH_PROJECT_NONE;
    struct job jobs[MOST_THREADS];
    pthread_t threads[MOST_THREADS];
    size_t len, words = 0, answers = 0;
    if (argc < 6 || morph_put_folder(&project, argv[1]) != MORPH_OK || morph_open(&project) != MORPH_OK)
        return 2;
    int count = atoi(argv[5]);
    char *text = morph_read_file(argv[3], "words", &len);
    if (!text || count < 1 || count > MOST_THREADS)
        return 2;
    for (int i = 0; i < count; i++) {
        jobs[i] = (struct job) { MORPH_PROJECT_NONE, argv[2], text, len, 0, 0, strtol(argv[4], NULL, 10) };
        if (morph_share(&project, &jobs[i].project) != MORPH_OK)
            return 2;
    }
    double before = now();
    for (int i = 0; i < count; i++)
        if (pthread_create(&threads[i], NULL, run, &jobs[i]))
            return 3;
    for (int i = 0; i < count; i++)
        pthread_join(threads[i], NULL);
    double seconds = now() - before;
    for (int i = 0; i < count; i++) {
        words += jobs[i].words;
        answers += jobs[i].answers;
        morph_close(&jobs[i].project);
    }
    printf("%zu %zu %.3f\n", words, answers, seconds);
    free(text);
    morph_close(&project);
    return 0;
}
