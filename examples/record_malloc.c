/* A library for LD_PRELOAD that records what a program allocates and frees, and the tool `record_merge` for its files.
 * The library works with any dynamically linked program and with any allocator.
 *
 *     gcc -std=c99 -O2 -Wall -Wextra -fPIC -shared -o record_malloc.so examples/record_malloc.c
 *     gcc -std=c99 -O2 -Wall -Wextra -DMERGE -o record_merge examples/record_malloc.c
 *
 *     LD_PRELOAD=$PWD/record_malloc.so RECORD=h.history python3 -c 'print(sorted(map(str, range(1000)))[7])'
 *     meshrun check h.history
 *
 *     LD_PRELOAD=$PWD/record_malloc.so RECORD=h.raw RECORD_STAMPS=1 xz --threads=4 -k FILE
 *     record_merge h.raw >h.history
 *     meshrun check h.history
 *
 * RECORD=FILE        The file of the first process. Each other process has FILE.PID. But %p in FILE is replaced by the
 *                    process id, in each process. A file of an earlier run is left alone. A process that calls exec
 *                    begins its own file again.
 * RECORD_STAMPS=1    Calls aren't serialized. Each is recorded with stamps of its begin and its end, for record_merge.
 * RECORD_CLOCK=tsc   These stamps are read from the time stamp counter of x86-64, instead of one atomic counter.
 * RECORD_ONLY=NAME   Only programs of this name are recorded.
 * RECORD_QUIET=1     No messages.
 *
 *     record_merge -join FILE    Completes FILE from FILE.tail, if the program was killed.
 *     record_merge FILE          Prints a file of stamps as a history of version 2.
 *     record_merge -1 FILE       Prints it as a history of version 1.
 *
 * It needs 64-bit Linux, 4.14 or later, and glibc (before 2.34 add -ldl -lpthread). docs/TESTING_AN_ALLOCATOR.md lists
 * what is recorded and what isn't; docs/FORMAT.md has the lines.
 */
#define _GNU_SOURCE
#include <errno.h>
#include <fcntl.h>
#include <inttypes.h>
#include <stdbool.h>
#include <stdint.h>
#include <stdio.h>
#include <stdlib.h>
#include <string.h>
#include <sys/mman.h>
#include <sys/stat.h>
#include <unistd.h>

/* ---- The two files that the library writes and the tool reads. ---- */

/* FILE.tail: the length that FILE had when the text began, in 20 digits and a line feed; the text; zeros to the end. */
enum { TAIL_BYTES = 65536, LENGTH_DIGITS = 20, TEXT_BEGIN = LENGTH_DIGITS + 1 };

/* A file of stamps: blocks of records. Each block belongs to one thread at a time. Its first record is a head, which
 * has the thread's number as its address. */
enum { BLOCK_RECORDS = 2048 };
enum kind { NO_CALL, HEAD, NEW, REFUSED, FREE, FREE_OF_REALLOC, FREE_WITHIN_CALL };
struct record { uint64_t begin, end, address, bytes : 56, kind : 8; };
static const uint64_t head_mark = UINT64_C(0x6d6573682d726177);

#ifdef MERGE
/* ==== The tool. ==== */

/* Ends the tool. */
static void fail(const char *name)
{
    fprintf(stderr, "record_merge: %s: %s\n", name, strerror(errno));
    exit(1);
}

/* ---- Completing a history. ---- */

/* The length of the text of a tail up to its last whole line. A line that was being written has zeros in it. */
static size_t whole_lines(const char *text)
{
    const char *last = strrchr(text, '\n');
    return last == NULL ? 0 : (size_t)(last + 1 - text);
}

/* The library appends the text to FILE, then clears the text, then writes the new length. So at each moment the longer
 * of FILE and of FILE's first bytes with the text has every line. */
static void join(const char *name)
{
    static char tail[TAIL_BYTES + 1], tail_name[4200];
    snprintf(tail_name, sizeof tail_name, "%s.tail", name);
    FILE *tail_file = fopen(tail_name, "rb"), *file = fopen(name, "r+b");
    if (tail_file == NULL || file == NULL)
        fail(tail_file == NULL ? tail_name : name);
    size_t read = fread(tail, 1, TAIL_BYTES, tail_file);
    uint64_t length = strtoull(tail, NULL, 10), bytes = read < TEXT_BEGIN ? 0 : whole_lines(tail + TEXT_BEGIN);
    fseeko(file, 0, SEEK_END);
    uint64_t longest = (uint64_t)ftello(file);
    if (bytes != 0 && longest < length) {
        fprintf(stderr, "record_merge: %s is shorter than it was: nothing is changed\n", name);
        exit(1);
    }
    if (longest < length + bytes) {
        fseeko(file, (off_t)length, SEEK_SET);
        fwrite(tail + TEXT_BEGIN, 1, bytes, file);
    }
    if (fclose(file) != 0 || unlink(tail_name) != 0)
        fail(name);
    fclose(tail_file);
}

/* ---- Merging the records of threads. ---- */

static const uint32_t no_object = UINT32_MAX;
struct event { struct record call; uint32_t worker, object; };
static struct { struct event *all; size_t count, room; } events;

static bool is_free(const struct event *event)
{
    return event->call.kind >= FREE;
}

/* An object has its addresses at least from the end of its `new` to the begin of its `free`. */
static uint64_t effect_of(const struct event *event)
{
    return is_free(event) ? event->call.begin : event->call.end;
}

static int compare(uint64_t a, uint64_t b)
{
    return (a > b) - (a < b);
}

static int by_begin(const void *x, const void *y)
{
    const struct event *a = x, *b = y;
    int order = compare(a->call.begin, b->call.begin);
    return order != 0 ? order : compare(a->call.end, b->call.end);
}

/* At equal moments a free comes before a new. */
static int by_effect(const void *x, const void *y)
{
    const struct event *a = x, *b = y;
    int order = compare(effect_of(a), effect_of(b));
    return order != 0 ? order : is_free(b) - is_free(a);
}

static int by_address(const void *x, const void *y)
{
    const struct event *a = x, *b = y;
    int order = compare(a->call.address, b->call.address);
    return order != 0 ? order : by_effect(x, y);
}

static void sort(int (*order)(const void *, const void *))
{
    if (events.count > 0)
        qsort(events.all, events.count, sizeof *events.all, order);
}

/* A worker of a history makes one call at a time. So each thread has four: for its calls; for the frees of realloc,
 * which have the stamps of their new; for the frees within a call; and for the free in which the program was killed. */
static uint32_t worker_of(uint64_t thread, const struct record *call)
{
    unsigned own = call->end == UINT64_MAX ? 3 : 0;
    unsigned which = call->kind == FREE_OF_REALLOC ? 1 : call->kind == FREE_WITHIN_CALL ? 2 : own;
    return (uint32_t)(4 * thread + which);
}

/* Adds a call. One that hasn't ended is left out, unless it is a free: another thread may have the addresses. */
static void add_event(uint64_t thread, struct record call)
{
    bool has_ended = call.end != 0, is_free = call.kind == FREE || call.kind == FREE_OF_REALLOC;
    if (call.kind == NO_CALL || call.begin == 0 || (!has_ended && !is_free))
        return;
    if (!has_ended)
        call.end = UINT64_MAX;
    if (events.count == events.room) {
        events.room = events.room == 0 ? 65536 : 2 * events.room;
        events.all = realloc(events.all, events.room * sizeof *events.all);
        if (events.all == NULL)
            fail("the calls");
    }
    events.all[events.count++] = (struct event){ call, worker_of(thread, &call), no_object };
}

static void read_events(const char *name)
{
    static struct record block[BLOCK_RECORDS];
    FILE *file = fopen(name, "rb");
    if (file == NULL)
        fail(name);
    for (size_t count; (count = fread(block, sizeof *block, BLOCK_RECORDS, file)) > 0;) {
        bool is_begun = block[0].begin == head_mark && block[0].kind == HEAD;
        uint64_t thread = block[0].address;
        if (is_begun && thread >= 65536 / 4) {
            errno = ERANGE;
            fail("more than 16384 threads at a time");
        }
        for (size_t i = 1; is_begun && i < count; i++)
            add_event(thread, block[i]);
    }
    fclose(file);
}

/* Gives each object its number, and each free its object: that of the new before it at its address. */
static void match(void)
{
    uint32_t objects = 0;
    size_t unknown = 0, unseen = 0;
    struct event *live = NULL;
    sort(by_address);
    for (struct event *event = events.all; event < events.all + events.count; event++) {
        if (live != NULL && live->call.address != event->call.address)
            live = NULL;
        if (!is_free(event)) {
            unseen += live != NULL;
            event->object = objects++;
            live = event->call.kind == NEW ? event : NULL;
        } else if (live != NULL) {
            event->object = live->object;
            live = NULL;
        } else {
            unknown++;
        }
    }
    if (unknown + unseen > 0)
        fprintf(stderr, "record_merge: %zu frees of objects that weren't recorded, %zu objects at a live address\n",
                unknown, unseen);
}

/* A free that was pending when the program was killed has `-` for its end, and no answer. */
static bool is_pending(const struct event *event)
{
    return event->call.end == UINT64_MAX;
}

static void print_stamps(const struct event *event)
{
    printf(" %" PRIu64, event->call.begin);
    if (is_pending(event))
        printf(" -");
    else
        printf(" %" PRIu64, event->call.end);
}

static void print_event(const struct event *event, int version)
{
    if (event->object == no_object)
        return;
    printf("%" PRIu32, event->worker);
    if (version == 2)
        print_stamps(event);
    if (is_free(event))
        printf(" free %" PRIu32 "%s\n", event->object, version == 2 && is_pending(event) ? "" : " -> done");
    else if (event->call.kind == REFUSED)
        printf(" new %" PRIu32 " %" PRIu64 " 0 -> refused 3 NO_PAGES\n", event->object, (uint64_t)event->call.bytes);
    else
        printf(" new %" PRIu32 " %" PRIu64 " 0 -> object %" PRIu32 " at %" PRIx64 "\n", event->object,
               (uint64_t)event->call.bytes, event->object, event->call.address);
}

static void merge(const char *name, int version)
{
    read_events(name);
    match();
    sort(version == 1 ? by_effect : by_begin);
    printf("history %d\n", version);
    for (size_t i = 0; i < events.count; i++)
        print_event(&events.all[i], version);
    if (fflush(stdout) != 0 || ferror(stdout))
        fail("standard output");
}

int main(int count, char **words)
{
    if (count == 3 && strcmp(words[1], "-join") == 0)
        join(words[2]);
    else if (count == 3 && strcmp(words[1], "-1") == 0)
        merge(words[2], 1);
    else if (count == 2 && words[1][0] != '-')
        merge(words[1], 2);
    else
        return fprintf(stderr, "record_merge FILE, record_merge -1 FILE, or record_merge -join FILE\n"), 2;
    return 0;
}

#else
/* ==== The library. ==== */

#include <dlfcn.h>
#include <limits.h>
#include <link.h>
#include <malloc.h>
#include <pthread.h>
#include <signal.h>
#include <stdarg.h>
#include <sys/resource.h>
#include <sys/syscall.h>
#include <time.h>

/* What is recorded. Once something is, `mode` points to a page that the kernel clears in a copy of the memory. So a
 * child of fork or clone is silent until it begins a file of its own. A child of vfork has no copy: its calls change
 * the heap of its parent, and are recorded. */
enum { OFF, LINES, STAMPS };
static volatile int not_started = OFF, *mode = &not_started;
static int mode_before_fork = OFF; /* not OFF in a child of fork that has no file yet */
static bool is_begun;              /* A recording has begun, and hasn't ended: of this process, or of the one copied. */

/* With lines, it is held around each call and its line: the order of the lines is the order of effect. With stamps, it
 * is held while a thread takes or leaves a block. */
static pthread_mutex_t lock = PTHREAD_MUTEX_INITIALIZER;

/* Where a thread is. A call of an allocator within a call isn't the program's. Nor is a call of this library. */
enum place { IN_PROGRAM, IN_RECORDER, IN_ALLOCATOR };
enum { MOST_DEFERRED = 30 };

/* Of each thread. With this model an access never allocates. */
static __thread struct {
    volatile enum place place;
    bool has_forks_lock; /* It is in fork, and has taken the lock. */
    unsigned number;     /* From 1 on; 0 before its first record. */
    volatile bool has_deferred;
    void *deferred[MOST_DEFERRED]; /* Objects that are freed, by a signal handler say, while it is in this library. */
    const void *in_hand;           /* With stamps: the object that the thread's call frees. */
    struct record *block, *open;   /* With stamps: the thread's block, and the record of a free that has begun. */
    unsigned used;                 /* The records of the block. */
    uint64_t last_stamp;
} thread __attribute__((tls_model("initial-exec")));

/* A signal handler of this thread sees the place before and after. */
static void set_place(enum place place)
{
    __atomic_signal_fence(__ATOMIC_SEQ_CST);
    thread.place = place;
    __atomic_signal_fence(__ATOMIC_SEQ_CST);
}

static bool is_quiet;

/* Prints a line on standard error. It isn't `write` that is called, since a thread may be cancelled in it. */
static void __attribute__((format(printf, 1, 2))) report(const char *format, ...)
{
    static const char head[] = "record_malloc: ";
    char text[PATH_MAX + 256];
    int error = errno;
    va_list values;
    memcpy(text, head, sizeof head);
    va_start(values, format);
    vsnprintf(text + sizeof head - 1, sizeof text - sizeof head - 1, format, values);
    va_end(values);
    strcat(text, "\n");
    if (!is_quiet)
        syscall(SYS_write, STDERR_FILENO, text, strlen(text));
    errno = error;
}

/* ---- The recorded allocator: of each function, the next definition behind this library. ---- */

/* Memory for dlsym, which may allocate before malloc is found. It isn't taken back. */
static struct { unsigned char bytes[1 << 16] __attribute__((aligned(16))); size_t used; } boot;

static bool is_boot(const void *address)
{
    return (uintptr_t)address - (uintptr_t)boot.bytes < sizeof boot.bytes;
}

static void *boot_malloc(size_t bytes)
{
    if (bytes > sizeof boot.bytes - boot.used)
        return NULL;
    void *address = &boot.bytes[boot.used];
    boot.used += (bytes + 15) / 16 * 16;
    return address;
}

static void *boot_calloc(size_t count, size_t bytes)
{
    return boot_malloc(count * bytes);
}

static struct {
    void *(*malloc)(size_t), *(*calloc)(size_t, size_t), *(*realloc)(void *, size_t);
    void *(*memalign)(size_t, size_t), *(*aligned_alloc)(size_t, size_t), *(*valloc)(size_t), *(*pvalloc)(size_t);
    int (*posix_memalign)(void **, size_t, size_t);
    void (*free)(void *), (*_exit)(int);
} real = { .malloc = boot_malloc, .calloc = boot_calloc };

#define FIND(name) real.name = dlsym(RTLD_NEXT, #name)

/* Finds them all at the first call. The loader makes it, before there is a second thread. */
static void find_real(void)
{
    set_place(IN_RECORDER);
    FIND(free), FIND(malloc), FIND(calloc), FIND(realloc), FIND(_exit);
    FIND(memalign), FIND(aligned_alloc), FIND(valloc), FIND(pvalloc), FIND(posix_memalign);
    set_place(IN_PROGRAM);
}

/* ---- The file. It is opened for each access, so that no descriptor of the program is in the way. The functions are
 * called with the lock held, and with cancelling disabled. ---- */

static struct {
    char path[PATH_MAX], tail_path[PATH_MAX];
    dev_t device;
    ino_t inode;
    pid_t owner;
    uint64_t bytes; /* with stamps, the end of the last block */
    int pipe;       /* the descriptor of a pipe or a device, or -1 */
} file = { .pipe = -1 };

/* Ends the recording. */
static void stop(const char *why)
{
    if (*mode != OFF)
        report("%s: %s: the recording ends here", file.path, why);
    *mode = OFF;
    is_begun = false;
}

/* Whether a descriptor is that of the file. */
static bool is_file(int descriptor)
{
    struct stat now;
    return fstat(descriptor, &now) == 0 && now.st_dev == file.device && now.st_ino == file.inode;
}

static void remember_file(int descriptor)
{
    struct stat now;
    fstat(descriptor, &now);
    file.device = now.st_dev, file.inode = now.st_ino;
}

/* Opens the file, or returns -1: where its path leads to another file, with ESTALE. */
static int open_file(int access)
{
    int descriptor = open(file.path, access | O_CLOEXEC | O_NOFOLLOW);
    if (descriptor < 0 || is_file(descriptor))
        return descriptor;
    close(descriptor);
    errno = ESTALE;
    return -1;
}

/* Whether a file of this length is too long for the process. To write it would raise SIGXFSZ. */
static bool is_above_limit(uint64_t bytes)
{
    struct rlimit limit;
    return getrlimit(RLIMIT_FSIZE, &limit) == 0 && limit.rlim_cur != RLIM_INFINITY && bytes > limit.rlim_cur;
}

/* Returns how many of the bytes were written: all, or fewer and errno. */
static size_t write_bytes(int descriptor, const char *bytes, size_t count)
{
    size_t done = 0;
    while (done < count) {
        long written = syscall(SYS_write, descriptor, bytes + done, count - done);
        if (written > 0)
            done += (size_t)written;
        else if (written == 0 || errno != EINTR)
            break;
    }
    return done;
}

/* Appends lines to the file, and returns NULL, or why it can't. Of a line that doesn't fit nothing is left. */
static const char *append_to_file(const char *text, size_t bytes)
{
    if (is_above_limit(file.bytes + bytes))
        return "the limit of a file's size";
    int descriptor = open_file(O_WRONLY | O_APPEND);
    if (descriptor < 0)
        return errno == ESTALE ? "the path leads to another file" : strerror(errno);
    size_t written = write_bytes(descriptor, text, bytes);
    const char *fault = written == bytes ? NULL : strerror(errno);
    while (written < bytes && written > 0 && text[written - 1] != '\n')
        written--;
    if (fault != NULL && ftruncate(descriptor, (off_t)(file.bytes + written)) != 0)
        fault = "part of a line is left";
    close(descriptor);
    file.bytes += written;
    return fault;
}

/* Writes lines to the pipe. Where nobody reads it, the signal of that is taken back: it would end the program. */
static const char *write_to_pipe(const char *text, size_t bytes)
{
    if (!is_file(file.pipe))
        return "the program has closed the pipe";
    sigset_t signals, before, pending;
    sigemptyset(&signals), sigaddset(&signals, SIGPIPE);
    sigpending(&pending);
    pthread_sigmask(SIG_BLOCK, &signals, &before);
    const char *fault = write_bytes(file.pipe, text, bytes) == bytes ? NULL : strerror(errno);
    if (fault != NULL && errno == EPIPE && !sigismember(&pending, SIGPIPE))
        sigtimedwait(&signals, NULL, &(struct timespec){ 0, 0 });
    pthread_sigmask(SIG_SETMASK, &before, NULL);
    return fault;
}

/* ---- The tail: the lines that aren't in the file yet. The kernel keeps its pages if the process is killed. ---- */

static struct {
    char *text, *end; /* the mapped text, and where its next line goes */
    bool is_removed;  /* after the program's end: each line is appended at once */
} tail;

static void write_length(uint64_t length)
{
    char digits[LENGTH_DIGITS + 2];
    snprintf(digits, sizeof digits, "%0*" PRIu64 "\n", LENGTH_DIGITS, length);
    memcpy(tail.text - TEXT_BEGIN, digits, TEXT_BEGIN);
}

/* Moves the lines from the tail to the file. In this order: if the process is killed between two of these steps,
 * record_merge -join finds each line in one of the two. */
static void flush(void)
{
    int state;
    size_t bytes = (size_t)(tail.end - tail.text);
    if (bytes == 0 || *mode != LINES)
        return;
    pthread_setcancelstate(PTHREAD_CANCEL_DISABLE, &state);
    const char *fault = (file.pipe < 0 ? append_to_file : write_to_pipe)(tail.text, bytes);
    pthread_setcancelstate(state, NULL);
    if (fault != NULL) {
        stop(fault);
        return;
    }
    __atomic_signal_fence(__ATOMIC_SEQ_CST);
    memset(tail.text, 0, bytes);
    __atomic_signal_fence(__ATOMIC_SEQ_CST);
    write_length(file.bytes);
    tail.end = tail.text;
}

enum { LONGEST_LINE = 128 };

static void put_line(const char *line, size_t bytes)
{
    memcpy(tail.end, line, bytes);
    tail.end += bytes;
    if (tail.is_removed || tail.end > tail.text + TAIL_BYTES - TEXT_BEGIN - LONGEST_LINE)
        flush();
}

/* Creates the file of the tail, or returns -1. Its blocks are allotted, so that a full disk is found here. */
static int create_tail(void)
{
    if (is_above_limit(TAIL_BYTES)) {
        errno = EFBIG;
        return -1;
    }
    unlink(file.tail_path);
    int descriptor = open(file.tail_path, O_RDWR | O_CREAT | O_EXCL | O_CLOEXEC, 0666);
    int error = descriptor < 0 ? errno : posix_fallocate(descriptor, 0, TAIL_BYTES);
    if (error != 0 && descriptor >= 0) {
        unlink(file.tail_path);
        close(descriptor);
        descriptor = -1;
    }
    errno = error;
    return descriptor;
}

/* Maps a tail. That of a pipe is memory. A child of fork doesn't have it. */
static bool map_tail(void)
{
    int descriptor = file.pipe < 0 ? create_tail() : -1;
    if (file.pipe < 0 && descriptor < 0)
        return false;
    int kind = file.pipe < 0 ? MAP_SHARED : MAP_PRIVATE | MAP_ANONYMOUS;
    char *pages = mmap(NULL, TAIL_BYTES, PROT_READ | PROT_WRITE, kind, descriptor, 0);
    int error = errno;
    if (descriptor >= 0)
        close(descriptor);
    errno = error;
    if (pages == MAP_FAILED)
        return false;
    madvise(pages, TAIL_BYTES, MADV_DONTFORK);
    tail.text = tail.end = pages + TEXT_BEGIN;
    tail.is_removed = false;
    write_length(file.bytes);
    return true;
}

/* ---- The live objects: a hash table with linear probing, in pages of its own. ---- */

enum { FEWEST_BITS = 16 };

/* Address 0 is an empty slot. One whose object was freed has 0 bytes, and serves the next object at the address. */
struct slot { uintptr_t address; uint64_t bytes; uint32_t serial; };
static struct { struct slot *slots; unsigned bits; size_t used, live; } table;

/* The slot of an address, or the empty one where it would be. */
static struct slot *slot_of(const void *object)
{
    uintptr_t address = (uintptr_t)object;
    size_t i = (size_t)(address * UINT64_C(0x9e3779b97f4a7c15) >> (64 - table.bits));
    while (table.slots[i].address != 0 && table.slots[i].address != address)
        i = (i + 1) & (((size_t)1 << table.bits) - 1);
    return &table.slots[i];
}

static void add_object(struct slot object)
{
    struct slot *slot = slot_of((void *)object.address);
    table.used += slot->address == 0;
    table.live++;
    *slot = object;
}

static void remove_object(struct slot *slot)
{
    table.live--;
    slot->bytes = 0;
}

/* Moves the live objects to a new table, of which they fill a quarter at most. False where there is no memory. */
static bool renew_table(void)
{
    struct slot *old = table.slots;
    size_t old_slots = old == NULL ? 0 : (size_t)1 << table.bits;
    unsigned bits = FEWEST_BITS;
    while ((size_t)1 << bits < 4 * table.live)
        bits++;
    void *pages = mmap(NULL, sizeof *old << bits, PROT_READ | PROT_WRITE, MAP_PRIVATE | MAP_ANONYMOUS, -1, 0);
    if (pages == MAP_FAILED)
        return false;
    table.slots = pages, table.bits = bits, table.used = table.live = 0;
    for (size_t i = 0; i < old_slots; i++)
        if (old[i].bytes != 0)
            add_object(old[i]);
    if (old != NULL)
        munmap(old, old_slots * sizeof *old);
    return true;
}

/* ---- The lines. The functions are called with the lock held. ---- */

static struct { unsigned threads; uint32_t lines, next_serial; } history;

/* The number of this thread, within the range of the format. */
static unsigned thread_number(void)
{
    if (thread.number == 0)
        thread.number = ++history.threads;
    return (thread.number - 1) % 65536;
}

/* A line that is being written, and its words. They are written by hand, since printf takes half the time of a call. */
struct line { char text[LONGEST_LINE]; size_t bytes; };

static void add_text(struct line *line, const char *text, size_t bytes)
{
    memcpy(line->text + line->bytes, text, bytes);
    line->bytes += bytes;
}

#define ADD(line, text) add_text(line, text, sizeof text - 1)

static void add_number(struct line *line, uint64_t number, unsigned base)
{
    char digits[20], *first = digits + sizeof digits;
    do
        *--first = "0123456789abcdef"[number % base];
    while ((number /= base) != 0);
    add_text(line, first, (size_t)(digits + sizeof digits - first));
}

static void end_line(struct line *line)
{
    ADD(line, "\n");
    put_line(line->text, line->bytes);
    if (++history.lines == UINT32_MAX)
        stop("4294967295 lines");
}

static void begin_history(void)
{
    struct line line = { .bytes = 0 };
    history.threads = history.lines = history.next_serial = 0;
    ADD(&line, "history 1");
    end_line(&line);
}

/* Of an object, or of a refusal where the address is NULL. */
static void write_new(const void *address, uint64_t bytes, uint32_t serial)
{
    struct line line = { .bytes = 0 };
    add_number(&line, thread_number(), 10), ADD(&line, " new ");
    add_number(&line, serial, 10), ADD(&line, " ");
    add_number(&line, bytes, 10);
    if (address == NULL) {
        ADD(&line, " 0 -> refused 3 NO_PAGES");
    } else {
        ADD(&line, " 0 -> object "), add_number(&line, serial, 10);
        ADD(&line, " at "), add_number(&line, (uintptr_t)address, 16);
    }
    end_line(&line);
}

static void write_free(uint32_t serial)
{
    struct line line = { .bytes = 0 };
    add_number(&line, thread_number(), 10), ADD(&line, " free ");
    add_number(&line, serial, 10), ADD(&line, " -> done");
    end_line(&line);
}

/* The length that is recorded: the one asked for, but at least 1, and at most the greatest of the format. */
static uint64_t length_of(size_t bytes)
{
    const uint64_t greatest = UINT64_C(1) << 47;
    return bytes == 0 ? 1 : bytes > greatest ? greatest : bytes;
}

/* Records that an object is freed, if it is known. Objects from before the recording aren't. */
static void record_free(const void *address)
{
    struct slot *slot = slot_of(address);
    if (*mode != LINES || slot->bytes == 0)
        return;
    write_free(slot->serial);
    remove_object(slot);
}

/* Reports, once, that the next line is a free which wasn't seen: an object is returned where there already is one. That
 * was freed by a function that isn't seen, or the allocator has a fault. */
static void report_unseen_free(void)
{
    static bool is_reported;
    if (!is_reported)
        report("line %" PRIu32 ": this free was not seen", history.lines + 1);
    is_reported = true;
}

/* Records an object, or a refusal. Where there is an object at the address already, its free is recorded first. */
static void record_new(const void *address, size_t bytes)
{
    uint64_t length = length_of(bytes);
    if (slot_of(address)->bytes != 0)
        report_unseen_free();
    record_free(address);
    if (*mode != LINES)
        return;
    write_new(address, length, history.next_serial);
    if (address == NULL)
        return;
    add_object((struct slot){ (uintptr_t)address, length, history.next_serial++ });
    if (table.used > (size_t)1 << (table.bits - 1) && !renew_table())
        stop("no memory for the live objects");
}

/* Records what a call returned for an old object, or for none, which is NULL. */
static void record_realloc(const void *old, const void *address, size_t bytes)
{
    uintptr_t from = (uintptr_t)old, to = (uintptr_t)address;
    if (address == NULL && bytes == 0 && old != NULL) { /* freed */
        record_free(old);
    } else if (address == NULL || old == NULL) { /* refused, so the old object stays; or there is none */
        record_new(address, bytes);
    } else if (to - from < slot_of(old)->bytes || from - to < length_of(bytes)) { /* in place, or over the old one */
        record_free(old);
        record_new(address, bytes);
    } else { /* moved: for a while there are both */
        record_new(address, bytes);
        record_free(old);
    }
}

/* ---- The stamps. ---- */

static uint64_t *counter; /* in a page of its own: all threads write to it */
static bool has_tsc;

/* A moment. No load or store of the program or of the allocator crosses it. */
static uint64_t stamp(void)
{
#ifdef __x86_64__
    if (has_tsc) { /* mfence waits for the stores before, lfence for the loads */
        uint32_t low, high;
        __asm__ volatile("mfence\n\tlfence\n\trdtsc\n\tlfence" : "=a"(low), "=d"(high) : : "memory");
        uint64_t now = (uint64_t)high << 32 | low;
        return thread.last_stamp = now > thread.last_stamp ? now : thread.last_stamp + 1;
    }
#endif
    return __atomic_add_fetch(counter, 1, __ATOMIC_SEQ_CST);
}

enum { BLOCK_BYTES = BLOCK_RECORDS * sizeof(struct record), MOST_LEFT = 1024 };

/* The blocks of threads that have ended, each with the number of these threads. */
struct left_block { struct record *block; unsigned number, used; uint64_t last_stamp; };
static struct { struct left_block all[MOST_LEFT]; size_t count; } left;
static pthread_key_t end_of_thread;

/* Leaves the block of a thread that ends to the next thread. Otherwise each short thread would take 64 KB. */
static void leave_block(void *ignored)
{
    (void)ignored;
    enum place place = thread.place;
    set_place(IN_RECORDER);
    pthread_mutex_lock(&lock);
    if (thread.block != NULL && left.count < MOST_LEFT) {
        left.all[left.count++] = (struct left_block){ thread.block, thread.number, thread.used, thread.last_stamp };
        thread.block = NULL, thread.number = 0;
    }
    pthread_mutex_unlock(&lock);
    set_place(place);
}

/* Maps the next block of the file, or returns NULL. */
static struct record *map_block(void)
{
    int descriptor = is_above_limit(file.bytes + BLOCK_BYTES) ? -1 : open_file(O_RDWR);
    void *pages = MAP_FAILED;
    if (descriptor >= 0 && posix_fallocate(descriptor, (off_t)file.bytes, BLOCK_BYTES) == 0)
        pages = mmap(NULL, BLOCK_BYTES, PROT_READ | PROT_WRITE, MAP_SHARED, descriptor, (off_t)file.bytes);
    if (descriptor >= 0)
        close(descriptor);
    if (pages == MAP_FAILED) {
        stop("there is no room for a block");
        return NULL;
    }
    file.bytes += BLOCK_BYTES;
    madvise(pages, BLOCK_BYTES, MADV_DONTFORK);
#ifdef MADV_POPULATE_WRITE
    madvise(pages, BLOCK_BYTES, MADV_POPULATE_WRITE); /* one call instead of a fault for each page */
#endif
    return pages;
}

/* Takes a block that a thread has left, or else a new one. The lock is held. */
static void take_block(void)
{
    if (thread.number == 0 && left.count > 0) {
        struct left_block last = left.all[--left.count];
        thread.block = last.block, thread.number = last.number, thread.used = last.used;
        thread.last_stamp = thread.last_stamp > last.last_stamp ? thread.last_stamp : last.last_stamp;
        return;
    }
    thread.block = map_block();
    if (thread.block == NULL)
        return;
    if (thread.number == 0)
        thread.number = ++history.threads;
    thread.block[0] = (struct record){ head_mark, 1, thread.number - 1, 0, HEAD };
    thread.used = 1;
}

/* Ensures room for this many records in the thread's block. Returns false if there is none. */
static bool has_room(unsigned records)
{
    int state;
    while (thread.block == NULL || thread.used + records > BLOCK_RECORDS) {
        bool is_first = thread.block == NULL;
        if (*mode != STAMPS)
            return false;
        if (!is_first)
            munmap(thread.block, BLOCK_BYTES);
        thread.block = thread.open = NULL;
        pthread_setcancelstate(PTHREAD_CANCEL_DISABLE, &state);
        pthread_mutex_lock(&lock);
        take_block();
        pthread_mutex_unlock(&lock);
        if (is_first)
            pthread_setspecific(end_of_thread, &thread);
        pthread_setcancelstate(state, NULL);
    }
    return true;
}

/* A record counts once its end is written. Where another thread has ended the recording none is kept: the address may
 * be that of an object whose free wasn't recorded any more. */
static void keep(struct record call)
{
    if (*mode != STAMPS || !has_room(1))
        return;
    struct record *record = &thread.block[thread.used++];
    record->begin = call.begin, record->address = call.address, record->bytes = call.bytes, record->kind = call.kind;
    __atomic_store_n(&record->end, call.end, __ATOMIC_RELEASE);
}

/* Begins the record of a free, before the call: if the process is killed in the call, another thread may have the
 * addresses already. Frees within the call need room in the same block. */
static void open_free(uint64_t begin, const void *address, enum kind kind)
{
    enum { FREES_WITHIN = 64 };
    thread.in_hand = address;
    if (address == NULL || !has_room(1 + FREES_WITHIN))
        return;
    thread.open = &thread.block[thread.used++];
    thread.open->address = (uintptr_t)address, thread.open->kind = kind;
    __atomic_store_n(&thread.open->begin, begin, __ATOMIC_RELEASE);
}

/* Ends it. Where realloc failed nothing was freed. */
static void close_free(uint64_t end, bool is_freed)
{
    thread.in_hand = NULL;
    if (thread.open != NULL && is_freed)
        __atomic_store_n(&thread.open->end, end, __ATOMIC_RELEASE);
    else if (thread.open != NULL)
        thread.open->kind = NO_CALL;
    thread.open = NULL;
}

/* The end of a call that returned an object, or NULL, for an old object or for none. */
static void keep_realloc(uint64_t begin, uint64_t end, const void *old, const void *address, size_t bytes)
{
    bool is_freed = address != NULL || (bytes == 0 && old != NULL);
    close_free(end, is_freed);
    if (address != NULL || !is_freed)
        keep((struct record){ begin, end, (uintptr_t)address, length_of(bytes), address == NULL ? REFUSED : NEW });
}

/* A free within another call, unless it is of the object that the call frees itself. */
static void keep_free_within(const void *address)
{
    if (address == NULL || address == thread.in_hand)
        return;
    uint64_t now = stamp();
    keep((struct record){ now, now, (uintptr_t)address, 0, FREE_WITHIN_CALL });
}

/* ---- A file for a process. ---- */

static char record[PATH_MAX]; /* RECORD, as an absolute path */

/* Names the file of this process: at attempt 0 as RECORD, then by the process id, then by further numbers too. */
static bool name_file(int attempt)
{
    const char *mark = strstr(record, "%p");
    char own[32] = "";
    int before = mark == NULL ? (int)strlen(record) : (int)(mark - record), length;
    if (attempt == 1)
        snprintf(own, sizeof own, "%d", (int)getpid());
    else if (attempt > 1)
        snprintf(own, sizeof own, "%d-%d", (int)getpid(), attempt);
    length = snprintf(file.path, sizeof file.path, "%.*s%s%s%s", before, record, mark == NULL && attempt > 0 ? "." : "",
                      own, mark == NULL ? "" : mark + 2);
    return length < PATH_MAX - 8 && snprintf(file.tail_path, sizeof file.tail_path, "%s.tail", file.path) < PATH_MAX;
}

/* When this process began, in seconds of the epoch, or 0 if that isn't known. It stays the same over exec. */
static double time_of_begin(void)
{
    enum { FIELDS_TO_START_TIME = 20 };
    char text[1024], *field = NULL;
    int stat_file = open("/proc/self/stat", O_RDONLY | O_CLOEXEC);
    ssize_t bytes = stat_file < 0 ? 0 : read(stat_file, text, sizeof text - 1);
    if (stat_file >= 0)
        close(stat_file);
    if (bytes > 0)
        text[bytes] = 0, field = strrchr(text, ')');
    for (int i = 0; i < FIELDS_TO_START_TIME && field != NULL; i++)
        field = strchr(field + 1, ' ');
    if (field == NULL)
        return 0;
    struct timespec uptime, now;
    clock_gettime(CLOCK_BOOTTIME, &uptime), clock_gettime(CLOCK_REALTIME, &now);
    double boot_time = (double)(now.tv_sec - uptime.tv_sec) + (double)(now.tv_nsec - uptime.tv_nsec) * 1e-9;
    return boot_time + strtod(field + 1, NULL) / (double)sysconf(_SC_CLK_TCK);
}

/* Whether the file is this process's own, from before exec: it is named by the process id, or RECORD_PROCESS has the
 * id, and it was written since this process began. Otherwise it is of an earlier process with the same id. */
static bool is_from_before_exec(int attempt)
{
    const double slack = 0.02; /* for the coarse clocks of files and of processes */
    const char *maker = getenv("RECORD_PROCESS");
    struct stat now;
    if (attempt == 0 && (maker == NULL || atoi(maker) != (int)getpid()))
        return false;
    double begin = time_of_begin();
    return begin != 0 && stat(file.path, &now) == 0 &&
           (double)now.st_mtim.tv_sec + (double)now.st_mtim.tv_nsec * 1e-9 >= begin - slack;
}

/* Creates the file of this process, or returns -1. A file from before exec is removed, not emptied. */
static int create_file(bool is_child)
{
    bool is_named_by_process = is_child || strstr(record, "%p") != NULL;
    for (int attempt = is_named_by_process; attempt < 1000; attempt++) {
        if (!name_file(attempt)) {
            errno = ENAMETOOLONG;
            return -1;
        }
        int descriptor = open(file.path, O_RDWR | O_CREAT | O_EXCL | O_CLOEXEC, 0666);
        if (descriptor >= 0 || errno != EEXIST)
            return descriptor;
        if (!is_child && is_from_before_exec(attempt) && unlink(file.path) == 0)
            attempt--;
        else if (attempt == 0 && getenv("RECORD_PROCESS") == NULL)
            report("%s exists: the history of %s is %s.%d", file.path, program_invocation_short_name, file.path,
                   (int)getpid());
    }
    return -1;
}

static bool report_not_recorded(const char *why)
{
    report("%s: %s: %s (process %d) is not recorded", file.path, why, program_invocation_short_name, (int)getpid());
    return false;
}

static bool open_history(int wanted, bool is_child)
{
    file.bytes = 0;
    int descriptor = create_file(is_child);
    if (descriptor < 0)
        return report_not_recorded(strerror(errno));
    remember_file(descriptor);
    close(descriptor);
    if (wanted == STAMPS || map_tail())
        return true;
    report_not_recorded(strerror(errno));
    unlink(file.path);
    return false;
}

/* Opens a pipe or a device, at a high number, out of the program's way. It has one history. */
static bool open_pipe(int wanted)
{
    struct rlimit limit;
    if (!name_file(0) || wanted == STAMPS)
        return report_not_recorded("stamps need a file");
    if (getenv("RECORD_PROCESS") != NULL)
        return report_not_recorded("the pipe has the history of another program");
    file.pipe = open(file.path, O_WRONLY | O_CLOEXEC);
    if (file.pipe < 0)
        return report_not_recorded(strerror(errno));
    remember_file(file.pipe);
    if (getrlimit(RLIMIT_NOFILE, &limit) != 0)
        limit.rlim_cur = 256;
    for (int least = limit.rlim_cur < 65536 ? (int)limit.rlim_cur : 65536; least > 64; least -= least / 4) {
        int high = fcntl(file.pipe, F_DUPFD_CLOEXEC, least - 16);
        if (high >= 0) {
            close(file.pipe);
            file.pipe = high;
            break;
        }
    }
    return map_tail() || report_not_recorded(strerror(errno));
}

/* Begins the file of a child of fork, at its first call: the table of objects is a copy of its parent's. */
static bool begin_copy(void)
{
    uint32_t serial = 0;
    thread.number = 0;
    if (!open_history(LINES, true))
        return false;
    *mode = LINES;
    file.owner = getpid();
    begin_history();
    for (size_t i = 0; i < (size_t)1 << table.bits && *mode == LINES; i++) {
        struct slot *slot = &table.slots[i];
        if (slot->bytes == 0)
            continue;
        slot->serial = serial++;
        write_new((void *)slot->address, slot->bytes, slot->serial);
    }
    history.next_serial = serial;
    return *mode == LINES;
}

static void begin_child_of_fork(void)
{
    int state;
    pthread_setcancelstate(PTHREAD_CANCEL_DISABLE, &state);
    pthread_mutex_lock(&lock);
    if (mode_before_fork == STAMPS)
        is_begun = report_not_recorded("a child of fork has no stamps");
    else if (mode_before_fork == LINES && file.pipe >= 0)
        is_begun = report_not_recorded("the pipe has the history of another process");
    else if (mode_before_fork == LINES)
        is_begun = begin_copy();
    mode_before_fork = OFF;
    pthread_mutex_unlock(&lock);
    pthread_setcancelstate(state, NULL);
}

/* The first call in a copy of the process. In a child of clone no handler ran, and the lock may be taken for ever. */
static void begin_child(void)
{
    set_place(IN_RECORDER);
    if (mode_before_fork != OFF)
        begin_child_of_fork();
    else if (*mode == OFF && is_begun)
        is_begun = report_not_recorded("a child of clone has no history");
    set_place(IN_PROGRAM);
}

/* The handlers of fork. In a signal handler that interrupts this library they can't take the lock. */
static void prepare_fork(void)
{
    thread.has_forks_lock = thread.place == IN_PROGRAM;
    if (!thread.has_forks_lock)
        return;
    set_place(IN_RECORDER);
    pthread_mutex_lock(&lock);
    mode_before_fork = *mode;
}

static void end_fork(void)
{
    if (!thread.has_forks_lock)
        return;
    thread.has_forks_lock = false;
    pthread_mutex_unlock(&lock);
    set_place(IN_PROGRAM);
}

static void end_fork_in_parent(void)
{
    if (thread.has_forks_lock)
        mode_before_fork = OFF;
    end_fork();
}

/* ---- A call. ---- */

/* How a call is recorded, and with stamps its begin. */
struct call { enum { UNRECORDED, BY_LINES, BY_STAMPS, DEFERRED } how; uint64_t begin; };

static void unlock(void)
{
    pthread_mutex_unlock(&lock);
    set_place(IN_PROGRAM);
}

/* Takes the lock, if lines are recorded. The thread is marked before it asks for it: otherwise a signal handler that
 * allocates between the two would wait for its own thread. */
static bool take_lock(void)
{
    set_place(IN_RECORDER);
    pthread_mutex_lock(&lock);
    if (*mode == LINES)
        return true;
    unlock();
    return false;
}

static struct call begin_call(void)
{
    struct call call = { UNRECORDED, 0 };
    if (real.free == NULL && thread.place == IN_PROGRAM)
        find_real();
    if (*mode == OFF && is_begun && thread.place == IN_PROGRAM)
        begin_child();
    if (*mode == OFF || thread.place != IN_PROGRAM)
        return call;
    set_place(IN_RECORDER);
    if (*mode == STAMPS) /* the block first: a thread that left one has made its last call before this one begins */
        call = (struct call){ BY_STAMPS, has_room(1) ? stamp() : 0 };
    else if (take_lock())
        call.how = BY_LINES;
    set_place(call.how == UNRECORDED ? IN_PROGRAM : IN_ALLOCATOR);
    return call;
}

/* Defers a free. A signal handler may come in between: so a place is taken, and emptied, in one step. */
static bool defer_free(void *address)
{
    for (int i = 0; i < MOST_DEFERRED; i++) {
        if (__sync_bool_compare_and_swap(&thread.deferred[i], NULL, address))
            return thread.has_deferred = true;
    }
    return false;
}

/* Makes the frees that were deferred, as calls of their own. */
static void free_deferred(void)
{
    thread.has_deferred = false;
    for (int i = 0; i < MOST_DEFERRED; i++)
        free(__atomic_exchange_n(&thread.deferred[i], NULL, __ATOMIC_SEQ_CST));
}

static void end_call(struct call call)
{
    if (call.how == BY_LINES)
        unlock();
    else if (call.how == BY_STAMPS)
        set_place(IN_PROGRAM);
    if (thread.has_deferred && thread.place == IN_PROGRAM)
        free_deferred();
}

/* Records a free before it is made, in the call of this thread. */
static void record_begin_of_free(struct call call, const void *address)
{
    int error = errno;
    set_place(IN_RECORDER);
    if (*mode == LINES)
        record_free(address);
    else if (call.how == BY_STAMPS)
        open_free(call.begin, address, FREE);
    else
        keep_free_within(address);
    set_place(IN_ALLOCATOR);
    errno = error;
}

/* Begins a call that frees. Within another call it is recorded too, if the object is known. For realloc may be made of
 * malloc and free, operator new may call a handler that frees, and a signal handler may free. Where a signal handler
 * interrupts this library the call is deferred. */
static struct call begin_free(void *address)
{
    struct call call = begin_call();
    if (*mode == OFF)
        return call;
    if (thread.place == IN_ALLOCATOR)
        record_begin_of_free(call, address);
    else if (defer_free(address))
        call.how = DEFERRED;
    else
        stop("too many frees in a signal handler");
    return call;
}

static void end_free(struct call call)
{
    int error = errno;
    if (call.how == BY_STAMPS) {
        uint64_t end = stamp();
        set_place(IN_RECORDER);
        close_free(end, true);
    }
    end_call(call);
    errno = error;
}

/* Within another call only the old object is recorded: as freed, since it may move. */
static struct call begin_realloc(void *old)
{
    struct call call = begin_call();
    bool is_within = call.how == UNRECORDED && *mode != OFF && old != NULL;
    if (call.how == BY_STAMPS) {
        set_place(IN_RECORDER);
        open_free(call.begin, old, FREE_OF_REALLOC);
        set_place(IN_ALLOCATOR);
    } else if (is_within && thread.place == IN_ALLOCATOR) {
        record_begin_of_free(call, old);
    } else if (is_within) {
        stop("realloc in a signal handler");
    }
    return call;
}

/* Ends a call that returned an object, or NULL, for an old object or for none. */
static void *end_realloc(struct call call, void *old, void *address, size_t bytes)
{
    if (call.how == UNRECORDED)
        return address;
    uint64_t end = call.how == BY_STAMPS ? stamp() : 0;
    int error = errno;
    set_place(IN_RECORDER);
    if (call.how == BY_LINES)
        record_realloc(old, address, bytes);
    else
        keep_realloc(call.begin, end, old, address, bytes);
    end_call(call);
    errno = error;
    return address;
}

static void *end_new(struct call call, void *address, size_t bytes)
{
    return end_realloc(call, NULL, address, bytes);
}

/* The length of an array, or the greatest length where the array's is greater. */
static size_t product(size_t count, size_t bytes)
{
    return bytes != 0 && count > SIZE_MAX / bytes ? SIZE_MAX : count * bytes;
}

/* Defines a function that returns an object of this length, or NULL. */
#define NEW_BY(name, parameters, length, expression) \
    void *name parameters \
    { \
        struct call call = begin_call(); \
        void *address = expression; \
        return end_new(call, address, length); \
    }

NEW_BY(malloc, (size_t bytes), bytes, real.malloc(bytes))
NEW_BY(calloc, (size_t count, size_t bytes), product(count, bytes), real.calloc(count, bytes))
NEW_BY(memalign, (size_t alignment, size_t bytes), bytes, real.memalign(alignment, bytes))
NEW_BY(aligned_alloc, (size_t alignment, size_t bytes), bytes, real.aligned_alloc(alignment, bytes))
NEW_BY(valloc, (size_t bytes), bytes, real.valloc(bytes))
NEW_BY(pvalloc, (size_t bytes), bytes, real.pvalloc(bytes))

int posix_memalign(void **address, size_t alignment, size_t bytes)
{
    struct call call = begin_call();
    int error = real.posix_memalign(address, alignment, bytes);
    end_new(call, error == 0 ? *address : NULL, bytes);
    return error;
}

void free(void *address)
{
    if (address == NULL || is_boot(address))
        return;
    struct call call = begin_free(address);
    if (call.how != DEFERRED)
        real.free(address);
    end_free(call);
}

/* Memory of dlsym moves to the heap, with all that is behind it, since its length isn't known. */
void *realloc(void *old, size_t bytes)
{
    if (is_boot(old)) {
        size_t most = sizeof boot.bytes - (size_t)((unsigned char *)old - boot.bytes);
        void *address = malloc(bytes);
        return address == NULL ? NULL : memmove(address, old, bytes < most ? bytes : most);
    }
    struct call call = begin_realloc(old);
    return end_realloc(call, old, real.realloc(old, bytes), bytes);
}

/* An array that is too long has to be refused. So is the greatest length, by any realloc. */
void *reallocarray(void *old, size_t count, size_t bytes)
{
    return realloc(old, product(count, bytes));
}

/* ---- operator new and delete of C++, by their names in the ABI, in which m is size_t. ---- */

/* The next definition, or else that of any library, or NULL: one that was loaded with a module (of Python, say) isn't
 * among the next. */
static void *look_up(const char *name, const void *own)
{
    void *found = dlsym(RTLD_NEXT, name);
    for (struct link_map *map = _r_debug.r_map; found == NULL && map != NULL; map = map->l_next) {
        void *library = dlopen(map->l_name, RTLD_LAZY | RTLD_NOLOAD);
        if (library == NULL)
            continue;
        found = dlsym(library, name);
        if (found == own)
            found = NULL;
        if (found == NULL)
            dlclose(library);
    }
    return found;
}

/* The operator that would be called without this library, or `own` if there is none. The lock is given back meanwhile,
 * since a thread that loads a library has the loader's lock, and waits for this one where it allocates. */
static void *find_operator(const char *name, void *own)
{
    enum place place = thread.place;
    bool has_lock = *mode == LINES && place == IN_ALLOCATOR;
    set_place(IN_RECORDER);
    if (has_lock)
        pthread_mutex_unlock(&lock);
    void *found = look_up(name, own);
    if (has_lock)
        pthread_mutex_lock(&lock);
    set_place(place);
    return found == NULL ? own : found;
}

/* Defines a pointer to an operator. FIND_REAL finds it at the first call. */
#define REAL(type, name, parameters) static type (*real_##name) parameters
#define FIND_REAL(name) \
    if (real_##name == NULL) \
        real_##name = find_operator(#name, (void *)name)

/* A form of operator new that returns NULL where there is no memory. */
#define NEW_OR_NULL(name, parameters, arguments) \
    REAL(void *, name, parameters); \
    void *name parameters \
    { \
        FIND_REAL(name); \
        struct call call = begin_call(); \
        return end_new(call, real_##name arguments, bytes); \
    }

/* A form that throws an exception then, which would leave the call without an end. So the form that returns NULL is
 * called first, and where it does, this one outside of the call. */
#define NEW_OR_THROW(name, parameters, arguments, or_null, or_null_arguments) \
    REAL(void *, name, parameters); \
    void *name parameters \
    { \
        FIND_REAL(name); \
        FIND_REAL(or_null); \
        struct call call = real_##or_null != or_null ? begin_call() : (struct call){ UNRECORDED, 0 }; \
        void *address = call.how != UNRECORDED ? real_##or_null or_null_arguments : NULL; \
        if (address != NULL) \
            return end_new(call, address, bytes); \
        end_call(call); \
        return real_##name arguments; \
    }

#define DELETE(name, parameters, arguments) \
    REAL(void, name, parameters); \
    void name parameters \
    { \
        FIND_REAL(name); \
        struct call call = begin_free(address); \
        if (call.how != DEFERRED) \
            real_##name arguments; \
        end_free(call); \
    }

/* std::nothrow, an object without content. */
static const char nothrow;

NEW_OR_NULL(_ZnwmRKSt9nothrow_t, (size_t bytes, const void *tag), (bytes, tag))
NEW_OR_NULL(_ZnamRKSt9nothrow_t, (size_t bytes, const void *tag), (bytes, tag))
NEW_OR_NULL(_ZnwmSt11align_val_tRKSt9nothrow_t, (size_t bytes, size_t align, const void *tag), (bytes, align, tag))
NEW_OR_NULL(_ZnamSt11align_val_tRKSt9nothrow_t, (size_t bytes, size_t align, const void *tag), (bytes, align, tag))
NEW_OR_THROW(_Znwm, (size_t bytes), (bytes), _ZnwmRKSt9nothrow_t, (bytes, &nothrow))
NEW_OR_THROW(_Znam, (size_t bytes), (bytes), _ZnamRKSt9nothrow_t, (bytes, &nothrow))
NEW_OR_THROW(_ZnwmSt11align_val_t, (size_t bytes, size_t align), (bytes, align),
             _ZnwmSt11align_val_tRKSt9nothrow_t, (bytes, align, &nothrow))
NEW_OR_THROW(_ZnamSt11align_val_t, (size_t bytes, size_t align), (bytes, align),
             _ZnamSt11align_val_tRKSt9nothrow_t, (bytes, align, &nothrow))
DELETE(_ZdlPv, (void *address), (address))
DELETE(_ZdaPv, (void *address), (address))
DELETE(_ZdlPvm, (void *address, size_t bytes), (address, bytes))
DELETE(_ZdaPvm, (void *address, size_t bytes), (address, bytes))
DELETE(_ZdlPvRKSt9nothrow_t, (void *address, const void *tag), (address, tag))
DELETE(_ZdaPvRKSt9nothrow_t, (void *address, const void *tag), (address, tag))
DELETE(_ZdlPvSt11align_val_t, (void *address, size_t align), (address, align))
DELETE(_ZdaPvSt11align_val_t, (void *address, size_t align), (address, align))
DELETE(_ZdlPvmSt11align_val_t, (void *address, size_t bytes, size_t align), (address, bytes, align))
DELETE(_ZdaPvmSt11align_val_t, (void *address, size_t bytes, size_t align), (address, bytes, align))
DELETE(_ZdlPvSt11align_val_tRKSt9nothrow_t, (void *address, size_t align, const void *tag), (address, align, tag))
DELETE(_ZdaPvSt11align_val_tRKSt9nothrow_t, (void *address, size_t align, const void *tag), (address, align, tag))

/* ---- The beginning and the end. ---- */

/* Sets a variable for the programs that this process starts. A shell may have a setenv of its own, so the one of libc
 * is called. */
static void set_variable(const char *name, const char *value)
{
    int (*set)(const char *, const char *, int) = dlsym(RTLD_NEXT, "setenv");
    set(name, value, 1);
}

/* Keeps RECORD as an absolute path, for the processes that are started in other directories too. */
static bool keep_path(const char *name)
{
    char here[PATH_MAX];
    bool is_relative = *name != '/' && getcwd(here, sizeof here) != NULL;
    int length = snprintf(record, sizeof record, "%s%s%s", is_relative ? here : "", is_relative ? "/" : "", name);
    if (length >= PATH_MAX - 64)
        return false;
    set_variable("RECORD", record);
    return true;
}

/* Tells later processes, by RECORD_PROCESS, which process made RECORD: 0 if it was made by an earlier run. */
static void name_process(void)
{
    char process[16];
    snprintf(process, sizeof process, "%d", strcmp(file.path, record) == 0 ? (int)getpid() : 0);
    if (strcmp(process, "0") != 0 || getenv("RECORD_PROCESS") == NULL)
        set_variable("RECORD_PROCESS", process);
}

static void *map_page(void)
{
    return mmap(NULL, (size_t)sysconf(_SC_PAGESIZE), PROT_READ | PROT_WRITE, MAP_PRIVATE | MAP_ANONYMOUS, -1, 0);
}

static bool is_on(const char *variable)
{
    const char *value = getenv(variable);
    return value != NULL && *value != 0 && strcmp(value, "0") != 0;
}

/* Maps what a recording needs in memory. */
static bool prepare_memory(int wanted)
{
    void *page = map_page();
    counter = map_page();
    if (page == MAP_FAILED || (void *)counter == MAP_FAILED || madvise(page, 1, MADV_WIPEONFORK) != 0)
        return false;
    mode = page;
    return wanted == STAMPS ? pthread_key_create(&end_of_thread, leave_block) == 0 : renew_table();
}

static void begin_recording(int wanted)
{
    struct stat now;
    bool is_pipe = stat(record, &now) == 0 && !S_ISREG(now.st_mode);
    if (!prepare_memory(wanted)) {
        report("%s: %s is not recorded", strerror(errno), program_invocation_short_name);
        return;
    }
    if (!(is_pipe ? open_pipe(wanted) : open_history(wanted, false)))
        return;
    name_process();
    real.free(real.malloc(1)); /* an allocator that has fork handlers of its own registers them before ours */
    pthread_atfork(prepare_fork, end_fork_in_parent, end_fork);
    file.owner = getpid();
    *mode = wanted;
    is_begun = true;
    if (wanted == LINES)
        begin_history();
}

__attribute__((constructor)) static void start(void)
{
    const char *name = getenv("RECORD"), *only = getenv("RECORD_ONLY"), *clock = getenv("RECORD_CLOCK");
    is_quiet = is_on("RECORD_QUIET");
    has_tsc = clock != NULL && strcmp(clock, "tsc") == 0;
    if (real.free == NULL)
        find_real();
    set_place(IN_RECORDER);
    if (name == NULL)
        report("RECORD is not set: %s is not recorded", program_invocation_short_name);
    else if (!keep_path(name))
        report("RECORD is too long: %s is not recorded", program_invocation_short_name);
    else if (only == NULL || strcmp(only, program_invocation_short_name) == 0)
        begin_recording(is_on("RECORD_STAMPS") ? STAMPS : LINES);
    set_place(IN_PROGRAM);
}

/* Completes the file. Lines that come after this are appended one by one. */
static void complete(void)
{
    if (thread.place != IN_PROGRAM || *mode != LINES || getpid() != file.owner || !take_lock())
        return;
    flush();
    if (*mode == LINES && file.pipe < 0 && !tail.is_removed)
        unlink(file.tail_path);
    tail.is_removed = true;
    unlock();
}

__attribute__((destructor)) static void end(void)
{
    complete();
}

/* A child of vfork, which has the memory of its parent, doesn't end the recording. */
void _exit(int status)
{
    complete();
    real._exit(status);
    __builtin_unreachable();
}

void _Exit(int status)
{
    _exit(status);
}
#endif
