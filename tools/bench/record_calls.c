/* Threads that record stores without making them, for tools/bench/record.sh.
 *
 *     record_calls FILE THREADS CALLS
 *
 * The output is the processor time of a recorded call, in nanoseconds.
 */
#include <pthread.h>
#include <stdlib.h>
#include <time.h>

#include "../../examples/mesh_record.h"

static struct recorder recorder;
static unsigned long calls;

static void *work(void *own)
{
    uint64_t data = 7;
    for (unsigned long i = 0; i < calls && record_begin_put(own, 0, 0, &data, sizeof data); i++)
        record_end(own);
    return NULL;
}

static double seconds(void)
{
    struct timespec now;
    clock_gettime(CLOCK_PROCESS_CPUTIME_ID, &now);
    return (double)now.tv_sec + (double)now.tv_nsec / 1e9;
}

int main(int count, char **words)
{
    unsigned threads = count == 4 ? (unsigned)atoi(words[2]) : 0;
    calls = count == 4 ? strtoul(words[3], NULL, 10) : 0;
    if (!record_open(&recorder, count == 4 ? words[1] : "", threads, calls)) {
        perror("record_calls FILE THREADS CALLS");
        return 1;
    }
    pthread_t running[RECORD_MOST_WORKERS];
    double begin = seconds();
    for (unsigned w = 0; w < threads; w++)
        if (pthread_create(&running[w], NULL, work, &recorder.workers[w]) != 0)
            return 1;
    for (unsigned w = 0; w < threads; w++)
        pthread_join(running[w], NULL);
    printf("%.0f\n", (seconds() - begin) * 1e9 / threads / (double)calls);
    return remove(words[1]) == 0 ? 0 : 1;
}
