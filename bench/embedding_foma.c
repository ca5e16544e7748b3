/* The same by libfoma, in a network that it saved, with a handle of its own for each thread: FILE FOLDER ROUNDS THREADS. */
#include <fomalib.h>
#include <pthread.h>
#include <stdio.h>
#include <stdlib.h>
#include <string.h>
#include <time.h>

enum { MOST_THREADS = 16 };

struct job {
    struct apply_handle *handle;
    char path[4096];
    size_t words, answers;
    long rounds;
};

static double now(void)
{
    struct timespec time;
    clock_gettime(CLOCK_MONOTONIC, &time);
    return (double)time.tv_sec + (double)time.tv_nsec / 1e9;
}

static void *run(void *argument)
{
    struct job *job = argument;
    char line[4096];
    for (long round = job->rounds; round > 0; round--) {
        FILE *file = fopen(job->path, "r");
        while (file && fgets(line, sizeof line, file)) {
            line[strcspn(line, "\n")] = 0;
            for (char *found = apply_up(job->handle, line); found; found = apply_up(job->handle, NULL))
                job->answers++;
            job->words++;
        }
        if (file)
            fclose(file);
    }
    return NULL;
}

int main(int argc, char **argv)
{
    static struct job jobs[MOST_THREADS];
    pthread_t threads[MOST_THREADS];
    size_t words = 0, answers = 0;
    if (argc < 5)
        return 2;
    struct fsm *net = fsm_read_binary_file(argv[1]);
    int count = atoi(argv[4]);
    if (!net || count < 1 || count > MOST_THREADS)
        return 2;
    for (int i = 0; i < count; i++) {
        jobs[i].handle = apply_init(net);
        jobs[i].rounds = strtol(argv[3], NULL, 10);
        snprintf(jobs[i].path, sizeof jobs[i].path, "%s/words", argv[2]);
    }
    double before = now();
    for (int i = 0; i < count; i++)
        if (pthread_create(&threads[i], NULL, run, &jobs[i]))
            return 3;
    for (int i = 0; i < count; i++)
        pthread_join(threads[i], NULL);
    double seconds = now() - before;
    for (int i = 0; i < count; i++) {
        words += jobs[i].words;
        answers += jobs[i].answers;
        apply_clear(jobs[i].handle);
    }
    printf("%zu %zu %.3f\n", words, answers, seconds);
    fsm_destroy(net);
    return 0;
}
