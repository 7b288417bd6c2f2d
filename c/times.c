/* times JOB BUNDLE CALLS [THREADS]: the time of a call, what memory is in use before and after the calls, and how many answers differ
 * from the first. Without THREADS the calling thread makes the calls; else each of so many threads makes all of them. */
#define _GNU_SOURCE
#include "jobs.h"
#include <malloc.h>
#include <pthread.h>
#include <time.h>

static ringplan_job *job;
static uint8_t *input, *wanted, wanted_status;
static size_t input_length, wanted_length;
static long calls;

static double now(void) {
    struct timespec moment;
    clock_gettime(CLOCK_MONOTONIC, &moment);
    return 1e6 * moment.tv_sec + 1e-3 * moment.tv_nsec;
}

static long resident(void) {
    long all = 0, pages = 0;
    FILE *file = fopen("/proc/self/statm", "r");
    if (file && fscanf(file, "%ld %ld", &all, &pages) != 2) pages = 0;
    if (file) fclose(file);
    return pages * 4;
}

/* Makes the calls, and counts the answers that differ. */
static void *make_calls(void *other) {
    uint8_t *output = malloc(wanted_length + 1);
    for (long number = 0; output && number < calls; number++) {
        size_t length;
        uint8_t status = job(input, input_length, output, wanted_length, &length);
        if (status != wanted_status || length != wanted_length || memcmp(output, wanted, length)) ++*(long *)other;
    }
    free(output);
    return output ? NULL : other;
}

int main(int count, char **words) {
    job = count >= 4 ? job_of(words[1]) : NULL;
    FILE *file = job ? fopen(words[2], "rb") : NULL;
    int threads = count > 4 ? atoi(words[4]) : 0;
    if (!file || threads > 64) return 64;
    input = read_whole(file, &input_length);
    fclose(file);
    job(input, input_length, NULL, 0, &wanted_length);
    wanted = malloc(wanted_length + 1);
    wanted_status = job(input, input_length, wanted, wanted_length, &wanted_length);
    long other[64] = {0}, others = 0, resident_before = resident();
    calls = atol(words[3]);
    size_t used_before = mallinfo2().uordblks;
    double started = now();
    pthread_t made[64];
    for (int thread = 0; thread < threads; thread++)
        if (pthread_create(&made[thread], NULL, make_calls, &other[thread])) return 64;
    for (int thread = 0; thread < threads; thread++) pthread_join(made[thread], NULL), others += other[thread];
    if (!threads) make_calls(&others);
    double each = (now() - started) / calls / (threads ? threads : 1);
    printf("%s: status %d, %zu bytes; %.2f us a call, %ld calls by %d threads, %ld other answers; in use %zu bytes before and %zu behind, resident %ld and %ld kB\n",
        words[1], wanted_status, wanted_length, each, calls, threads ? threads : 1, others, used_before, (size_t)mallinfo2().uordblks, resident_before, resident());
    return others != 0;
}
