/* A program that examples/record_malloc.c records, for tools/test/cli/record.py.
 *
 *     recorded threads     four threads allocate, reallocate and free, and hand objects on to one another
 *     recorded forks       while they do, it forks 20 times; each child does so too
 *     recorded forever     four threads, until it is killed
 *     recorded signals     a signal handler allocates and frees, in the middle of other calls
 *     recorded descriptor  writes `mine` to descriptor 1000, a file that it has opened itself (user.txt)
 */
#define _GNU_SOURCE
#include <fcntl.h>
#include <pthread.h>
#include <signal.h>
#include <stdio.h>
#include <stdlib.h>
#include <string.h>
#include <sys/wait.h>
#include <unistd.h>

enum { THREADS = 4, SHARED = 16, CHILDREN = 20 };
static void *shared[SHARED];
static long calls = 10000;

static void *work(void *number)
{
    unsigned seed = (unsigned)(size_t)number;
    for (long i = 0; i < calls; i++) {
        void *object = malloc((size_t)rand_r(&seed) % 300);
        if (rand_r(&seed) % 4 == 0)
            object = realloc(object, 1 + (size_t)rand_r(&seed) % 500);
        free(__atomic_exchange_n(&shared[rand_r(&seed) % SHARED], object, __ATOMIC_SEQ_CST));
    }
    return NULL;
}

static int fork_children(void)
{
    int failed = 0, status;
    for (size_t i = 0; i < CHILDREN; i++) {
        pid_t child = fork();
        if (child == 0) {
            calls = 100;
            work((void *)i);
            _exit(0);
        }
        failed |= waitpid(child, &status, 0) != child || status != 0;
    }
    return failed;
}

static int run_threads(int has_children)
{
    pthread_t threads[THREADS];
    for (size_t i = 0; i < THREADS; i++)
        if (pthread_create(&threads[i], NULL, work, (void *)i) != 0)
            return 1;
    int failed = has_children ? fork_children() : 0;
    for (size_t i = 0; i < THREADS; i++)
        pthread_join(threads[i], NULL);
    return failed;
}

static void handle(int number)
{
    static void *kept;
    (void)number;
    free(malloc(100));
    free(kept);
    kept = malloc(200);
}

static int allocate_in_signals(void)
{
    signal(SIGALRM, handle);
    ualarm(500, 500);
    for (size_t i = 0; i < 200000; i++)
        free(malloc(i % 100));
    return 0;
}

static int use_descriptor(void)
{
    int file = open("user.txt", O_CREAT | O_TRUNC | O_WRONLY, 0644);
    if (file < 0 || dup2(file, 1000) != 1000)
        return 1;
    for (size_t i = 0; i < 100; i++)
        free(malloc(i));
    return write(1000, "mine\n", 5) != 5;
}

int main(int count, char **words)
{
    const char *what = count == 2 ? words[1] : "";
    if (strcmp(what, "threads") == 0)
        return run_threads(0);
    if (strcmp(what, "forks") == 0)
        return run_threads(1);
    if (strcmp(what, "forever") == 0)
        return calls = 1L << 40, run_threads(0);
    if (strcmp(what, "signals") == 0)
        return allocate_in_signals();
    if (strcmp(what, "descriptor") == 0)
        return use_descriptor();
    return 2;
}
