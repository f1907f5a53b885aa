/* Makes one allocation of a program fail, and counts what the program allocates and frees.
 *
 *     cc -O1 -Wall -shared -fPIC -o refuse.so refuse.c
 *     [HOLD=1] REFUSE=N REFUSE_FILE=FILE LD_PRELOAD=./refuse.so PROGRAM WORD..
 *
 * REFUSE       the allocation that fails, counted from 1; by default none
 * REFUSE_FILE  the file that the counts are written to at the end; by default they aren't written
 * HOLD         if it is set, only the first thread's allocations are counted and can fail, and each of the program's
 *              own frees on another thread is delayed by two milliseconds; so a thread that frees a block after the
 *              program's end is noticed
 *
 * The file gets one line, of eight names and numbers:
 *
 *     refused %lu own %lu allocations %lu bytes %lu freed %lu stretches %lu within %lu threads %lu
 *
 * - refused: failed allocations, 0 or 1; own: those of them that the program itself requested.
 * - allocations: all allocations of the process. Each is counted and can fail, also one that the C library makes to
 *   start a thread.
 * - bytes, freed: what the program itself allocates and frees. The C library isn't counted here, because it keeps the
 *   stacks of ended threads for later ones.
 * - stretches, within: the stretches of the run, and the allocations in them. A stretch begins with a write of the
 *   program that contains `stretch begins`, and ends with one that contains `stretch ends`.
 * - threads: the threads that the program starts.
 *
 * The exit status is the program's own. It needs glibc. */
#define _GNU_SOURCE
#include <dlfcn.h>
#include <errno.h>
#include <fcntl.h>
#include <link.h>
#include <malloc.h>
#include <pthread.h>
#include <stdatomic.h>
#include <stdio.h>
#include <stdlib.h>
#include <string.h>
#include <sys/syscall.h>
#include <unistd.h>

extern void *__libc_malloc(size_t), *__libc_calloc(size_t, size_t);
extern void *__libc_realloc(void *, size_t), *__libc_memalign(size_t, size_t);
extern void __libc_free(void *);
extern ssize_t __write(int, const void *, size_t);

static atomic_ulong refused, own, allocations, allocated, freed, stretches, within, threads;
static atomic_bool in_stretch;
static unsigned long budget;
static int holds;
static char *first, *last;

/* Sets `first` and `last` to the addresses of the program's code. */
static int see(struct dl_phdr_info *info, size_t size, void *data) {
    for (int k = 0; k < info->dlpi_phnum; k++)
        if (info->dlpi_phdr[k].p_type == PT_LOAD && info->dlpi_phdr[k].p_flags & PF_X) {
            first = (char *)info->dlpi_addr + info->dlpi_phdr[k].p_vaddr;
            last = first + info->dlpi_phdr[k].p_memsz;
        }
    return 1; /* the program comes first, so no other object is visited */
}

__attribute__((constructor)) static void begin(void) {
    dl_iterate_phdr(see, NULL);
    const char *number = getenv("REFUSE");
    budget = number ? strtoul(number, NULL, 10) : 0;
    holds = getenv("HOLD") != NULL;
    atomic_store(&allocations, 0);
}

/* Writes the counts to REFUSE_FILE. */
static void write_counts(void) {
    char line[200];
    const char *name = getenv("REFUSE_FILE");
    int file = name ? open(name, O_WRONLY | O_CREAT | O_TRUNC, 0600) : -1;
    if (file < 0) return;
    int bytes = snprintf(line, sizeof line,
                         "refused %lu own %lu allocations %lu bytes %lu freed %lu "
                         "stretches %lu within %lu threads %lu\n",
                         refused, own, allocations, allocated, freed, stretches, within, threads);
    __write(file, line, bytes);
    close(file);
}

/* A program of the toolchain ends here if `main` returned a status. */
void _exit(int status) {
    write_counts();
    for (;;) syscall(SYS_exit_group, status);
}

__attribute__((destructor)) static void end(void) { write_counts(); }

/* Whether the program itself makes the call, and not the C library. */
static int is_ours(void *caller) { return first <= (char *)caller && (char *)caller < last; }

static int is_first_thread(void) { return gettid() == getpid(); }

/* Whether this allocation must fail. Counts the allocation, and the failure. */
static int is_refused(void *caller) {
    if (holds && !is_first_thread()) return 0;
    if (atomic_load(&in_stretch)) atomic_fetch_add(&within, 1);
    if (atomic_fetch_add(&allocations, 1) + 1 != budget) return 0;
    atomic_fetch_add(&refused, 1);
    if (is_ours(caller)) atomic_fetch_add(&own, 1);
    errno = ENOMEM;
    return 1;
}

/* Counts the bytes of a new block. Returns the block. */
static void *got(void *block, void *caller) {
    if (block && is_ours(caller)) atomic_fetch_add(&allocated, malloc_usable_size(block));
    return block;
}

/* Counts the bytes of a block that will be freed. */
static void gone(void *block, void *caller) {
    if (block && is_ours(caller)) atomic_fetch_add(&freed, malloc_usable_size(block));
}

#define CALLER __builtin_return_address(0)

void *malloc(size_t n) { return is_refused(CALLER) ? NULL : got(__libc_malloc(n), CALLER); }
void *calloc(size_t k, size_t n) { return is_refused(CALLER) ? NULL : got(__libc_calloc(k, n), CALLER); }
void *aligned_alloc(size_t a, size_t n) { return is_refused(CALLER) ? NULL : got(__libc_memalign(a, n), CALLER); }
void *memalign(size_t a, size_t n) { return is_refused(CALLER) ? NULL : got(__libc_memalign(a, n), CALLER); }

int posix_memalign(void **block, size_t a, size_t n) {
    void *made = is_refused(CALLER) ? NULL : got(__libc_memalign(a, n), CALLER);
    if (!made) return ENOMEM;
    *block = made;
    return 0;
}

void *realloc(void *block, size_t n) {
    if (is_refused(CALLER)) return NULL;
    size_t before = block ? malloc_usable_size(block) : 0;
    void *made = __libc_realloc(block, n);
    if (made && is_ours(CALLER)) {
        atomic_fetch_add(&freed, before);
        atomic_fetch_add(&allocated, malloc_usable_size(made));
    }
    return made;
}

void free(void *block) {
    if (holds && block && is_ours(CALLER) && !is_first_thread()) usleep(2000);
    gone(block, CALLER);
    __libc_free(block);
}

int pthread_create(pthread_t *thread, const pthread_attr_t *how, void *(*start)(void *), void *with) {
    int (*create)(pthread_t *, const pthread_attr_t *, void *(*)(void *), void *) = dlsym(RTLD_NEXT, "pthread_create");
    atomic_fetch_add(&threads, 1);
    return create(thread, how, start, with);
}

ssize_t write(int file, const void *bytes, size_t n) {
    if (memmem(bytes, n, "stretch begins", 14)) {
        atomic_fetch_add(&stretches, 1);
        atomic_store(&in_stretch, 1);
    }
    if (memmem(bytes, n, "stretch ends", 12)) atomic_store(&in_stretch, 0);
    return __write(file, bytes, n);
}
