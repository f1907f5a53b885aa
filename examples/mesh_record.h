/* A recorder for threads that race: it records each call of an allocator with two stamps, when the call began and when
 * it ended, and merges the calls of all threads into a history that `meshrun check` judges. C11 and POSIX.
 *
 *     static struct recorder recorder;
 *     record_open(&recorder, "run.record", 4, 1000000);           4 threads, room for a million slots of each
 *
 *     struct record_worker *self = &recorder.workers[number];     in thread `number`, 0 to 3
 *     uint32_t cell;                                              the number of the object
 *     if (record_begin_new(self, 64, &cell))
 *         record_end_new(self, object = my_calloc(64));
 *     if (record_begin_put(self, cell, 8, data, 4))
 *         memcpy(object + 8, data, 4), record_end(self);
 *     if (record_begin_get(self, cell, 8, 4))
 *         memcpy(data, object + 8, 4), record_end_get(self, data);
 *     if (record_begin_free(self, cell))
 *         my_free(object), record_end(self);
 *
 *     record_merge("run.record", stdout, &counts);                when the threads have ended
 *
 * Compile with -std=gnu11 -pthread, or with -std=c11 -D_POSIX_C_SOURCE=200809L -pthread, and with -DMESH_RECORD_TSC for
 * the other clock (see below). docs/TESTING_AN_ALLOCATOR.md has the rules for a driver, docs/FORMAT.md the lines.
 * `racing_real.c`, next to this file, is a user; `merge_record.c` merges after a crash.
 *
 * Recording. Each thread writes to a part of its own of one mapped file. A call takes a slot of 64 bytes, and an access
 * of more than 32 bytes one more slot for each 64 bytes, so one of 4,096 bytes takes 65 slots. While a call is recorded
 * no lock is held, nothing is allocated and the system isn't called, so the allocator may be `malloc` itself. The file
 * is sparse: room that isn't used takes no space. On a file system in memory, such as /dev/shm, nothing is written to a
 * disk. If the disk is full, a call ends by SIGBUS. A child of `fork` shares the file, so it must not record.
 *
 * Data. An access has 1 to 4,096 bytes. A call has one effect: it loads or stores all of its bytes at one moment. A
 * `memcpy` doesn't. So record it as one call only if no other thread can touch these bytes meanwhile, except that loads
 * don't disturb each other. Otherwise make the access in parts, each of at most 8 aligned bytes and by one atomic load
 * or store, and record each part as a call of its own: begin, 8 bytes, end, begin, the next 8 bytes, end. Parts can't
 * have the same stamps, because a worker makes one call at a time.
 *
 * Stamps. BEGIN must be taken before the first load or store of the call, END after the last one can be seen by all
 * threads. The order of the instructions isn't enough: a processor delays stores in a buffer and makes loads early. If
 * END is read while the store is still in the buffer, a load that begins later may return the old bytes, and `check`
 * blames a correct allocator. Without fences this happened in 9 of 12 runs of `racing_real`. There are two clocks:
 *
 * - One counter, which each stamp increments atomically (sequentially consistent). If a stamp is greater than another
 *   one, what came before the lower one happens before what comes after the greater one, by the rules of C on any
 *   processor. But all threads write to the counter's cache line.
 * - With -DMESH_RECORD_TSC the time stamp counter of x86-64, between fences: `mfence` waits until the stores before it
 *   can be seen, the first `lfence` until the loads before it are made, the second one keeps later loads behind the
 *   stamp. It needs a counter that is invariant (it runs at one rate in all states of the processor: `constant_tsc` and
 *   `nonstop_tsc` in /proc/cpuinfo) and that is synchronized among the processors. Linux tests this when it starts: the
 *   counter is fit if /sys/devices/system/clocksource/clocksource0/available_clocksource names `tsc`.
 *
 * No two stamps of one thread are equal: the clock is read again until it has advanced. A stamp that is read again is
 * still before the call or after it. To add 1 instead would move BEGIN into the call.
 */
#ifndef MESH_RECORD_H
#define MESH_RECORD_H

#include <errno.h>
#include <fcntl.h>
#include <inttypes.h>
#include <stdatomic.h>
#include <stdbool.h>
#include <stddef.h>
#include <stdint.h>
#include <stdio.h>
#include <string.h>
#include <sys/mman.h>
#include <sys/stat.h>
#include <unistd.h>

#if defined MESH_RECORD_TSC && !defined __x86_64__
#error "MESH_RECORD_TSC needs x86-64: the counter that is the default runs on any processor"
#endif

enum { RECORD_MOST_WORKERS = 64, RECORD_MOST_SLOTS = 1 << 26, RECORD_MOST_BYTES = 4096 };
enum { RECORD_LINE_BYTES = 64, RECORD_OWN_BYTES = 32 }; /* Of a cache line, and of data in the slot of its call. */

/* The greatest length and offset of a history, and the greatest address. */
#define RECORD_MOST_LENGTH (UINT64_C(1) << 47)
#define RECORD_MOST_ADDRESS ((UINT64_C(1) << 48) - 1)

/* ---- The file: a head, and for each worker an array of slots, which has its calls in their order. ---- */

struct record_head {
    char magic[16];
    uint64_t workers, slots; /* So many slots of each worker. */
    char unused[RECORD_LINE_BYTES - 32];
};

static const char record_magic[16] = "mesh record 2\n";

enum record_kind { RECORD_NEW = 1, RECORD_PUT, RECORD_GET, RECORD_FREE };

/* A call, the content of its first slot. BEGIN is 0 until the call begins, and END is 0 while it is pending. The other
 * fields are written before BEGIN, and what the call returned before END, so they are whole after a crash. */
struct record_call {
    _Atomic uint64_t begin, end;
    uint64_t number; /* Of `new` the length, of an access the offset. */
    uint32_t cell;
    unsigned char kind, unused;
    uint16_t count; /* How many bytes an access has. */
    union {
        unsigned char bytes[RECORD_OWN_BYTES]; /* The first bytes of an access. The others are in the slots behind. */
        uint64_t address;                      /* Of `new`, 0 if it was refused. */
    };
};

_Static_assert(sizeof(struct record_head) == RECORD_LINE_BYTES, "the head fills a cache line");
_Static_assert(sizeof(struct record_call) == RECORD_LINE_BYTES, "a slot fills a cache line");
enum { RECORD_BYTES_AT = offsetof(struct record_call, bytes) };
_Static_assert(RECORD_BYTES_AT + RECORD_OWN_BYTES == RECORD_LINE_BYTES, "the bytes go on in the next slot");

/* How many slots a call with so many bytes takes. */
static inline size_t record_slots(size_t count)
{
    return count <= RECORD_OWN_BYTES ? 1 : 1 + (count - RECORD_OWN_BYTES + RECORD_LINE_BYTES - 1) / RECORD_LINE_BYTES;
}

/* ---- Recording. ---- */

/* A worker is used by one thread at a time. `last` is its last stamp. */
struct record_worker {
    _Alignas(RECORD_LINE_BYTES) struct recorder *recorder;
    struct record_call *next, *end;
    uint64_t last;
};

struct recorder {
    _Alignas(RECORD_LINE_BYTES) _Atomic uint64_t clock;
    _Alignas(RECORD_LINE_BYTES) _Atomic uint32_t cells;
    struct record_worker workers[RECORD_MOST_WORKERS];
};

/* Makes the file, with so many slots of each worker. Returns false if it can't, with the reason in `errno`: EEXIST if
 * there is such a file, which may be the record of a crash or of another run. The file stays mapped until the program
 * ends. */
static inline bool record_open(struct recorder *recorder, const char *path, unsigned workers, size_t slots)
{
    if (workers < 1 || workers > RECORD_MOST_WORKERS || slots < 1 || slots > RECORD_MOST_SLOTS) {
        errno = EINVAL;
        return false;
    }
    size_t bytes = sizeof(struct record_head) + workers * slots * sizeof(struct record_call);
    int file = open(path, O_RDWR | O_CREAT | O_EXCL, 0666);
    if (file < 0)
        return false;
    void *memory = MAP_FAILED;
    if (ftruncate(file, (off_t)bytes) == 0)
        memory = mmap(NULL, bytes, PROT_READ | PROT_WRITE, MAP_SHARED, file, 0);
    int reason = errno;
    close(file);
    errno = reason;
    if (memory == MAP_FAILED)
        return false;

    struct record_head *head = memory;
    struct record_call *first = (struct record_call *)(head + 1);
    head->workers = workers, head->slots = slots;
    memcpy(head->magic, record_magic, sizeof head->magic);
    memset(recorder, 0, sizeof *recorder);
    for (unsigned w = 0; w < workers; w++, first += slots)
        recorder->workers[w] = (struct record_worker){ recorder, first, first + slots, 0 };
    return true;
}

static inline uint64_t record_clock(struct recorder *recorder)
{
#ifdef MESH_RECORD_TSC
    uint32_t low, high;
    (void)recorder;
    __asm__ __volatile__("mfence\n\tlfence\n\trdtsc\n\tlfence" : "=a"(low), "=d"(high) : : "memory");
    return (uint64_t)high << 32 | low;
#else
    return atomic_fetch_add(&recorder->clock, 1) + 1;
#endif
}

static inline uint64_t record_stamp(struct record_worker *worker)
{
    uint64_t stamp;
    do
        stamp = record_clock(worker->recorder);
    while (stamp <= worker->last);
    return worker->last = stamp;
}

/* Begins a call. */
static inline bool record_begin(struct record_worker *worker, enum record_kind kind, uint32_t cell, uint64_t number,
                                const void *data, size_t count)
{
    struct record_call *call = worker->next;
    bool is_access = kind == RECORD_PUT || kind == RECORD_GET;
    if (number > RECORD_MOST_LENGTH || count > RECORD_MOST_BYTES || (is_access && count == 0)) {
        errno = EINVAL;
        return false;
    }
    bool has_room = (size_t)(worker->end - call) >= record_slots(count);
    if (!has_room || call->begin != 0) {
        errno = has_room ? EBUSY : ENOSPC;
        return false;
    }
    call->number = number, call->cell = cell;
    call->kind = (unsigned char)kind, call->count = (uint16_t)count;
    if (data != NULL)
        memcpy((unsigned char *)call + RECORD_BYTES_AT, data, count);
    atomic_store_explicit(&call->begin, record_stamp(worker), memory_order_relaxed);
    /* The compiler must not move this store behind the call, which may crash. */
    atomic_signal_fence(memory_order_seq_cst);
    return true;
}

/* The driver calls one of these four right before its own call, which it then makes. If one returns false, nothing was
 * recorded and the driver must not make the call: `errno` is EINVAL for a length, an offset or a number of bytes that a
 * history can't have, ENOSPC if this worker has too few slots left, and EBUSY if its last call hasn't ended. */

/* Begins to make an object of so many bytes, all 0, and gives it a number that no other object has. A length of 0 is
 * recorded as 1, because `malloc(0)` may return an object. */
static inline bool record_begin_new(struct record_worker *worker, size_t length, uint32_t *cell)
{
    *cell = atomic_fetch_add_explicit(&worker->recorder->cells, 1, memory_order_relaxed);
    return record_begin(worker, RECORD_NEW, *cell, length == 0 ? 1 : length, NULL, 0);
}

/* Begins to store 1 to 4,096 bytes, from this offset of the object on. */
static inline bool record_begin_put(struct record_worker *worker, uint32_t cell, size_t offset, const void *data,
                                    size_t count)
{
    return record_begin(worker, RECORD_PUT, cell, offset, data, count);
}

/* Begins to load 1 to 4,096 bytes, from this offset of the object on. */
static inline bool record_begin_get(struct record_worker *worker, uint32_t cell, size_t offset, size_t count)
{
    return record_begin(worker, RECORD_GET, cell, offset, NULL, count);
}

static inline bool record_begin_free(struct record_worker *worker, uint32_t cell)
{
    return record_begin(worker, RECORD_FREE, cell, 0, NULL, 0);
}

/* Ends a store or a `free`. */
static inline void record_end(struct record_worker *worker)
{
    atomic_store_explicit(&worker->next->end, record_stamp(worker), memory_order_release);
    worker->next += record_slots(worker->next->count);
}

/* Ends a load, which returned these bytes. */
static inline void record_end_get(struct record_worker *worker, const void *data)
{
    memcpy((unsigned char *)worker->next + RECORD_BYTES_AT, data, worker->next->count);
    record_end(worker);
}

/* Ends a `new`, which returned this address, or NULL if there was no memory. */
static inline void record_end_new(struct record_worker *worker, const volatile void *address)
{
    worker->next->address = (uintptr_t)address;
    record_end(worker);
}

/* ---- Merging, when the threads have ended or the program has crashed. It allocates nothing. ---- */

/* How many calls were written, how many pairs of calls on one object overlapped in time, and how many calls were
 * pending. */
struct record_counts {
    uint64_t calls, overlaps, pending;
};

/* The calls of a worker that are still to be written, and the last one that was. */
struct record_cursor {
    const struct record_call *next, *end, *last;
};

/* When a call ended. For a call that was pending at a crash this is the greatest number. */
static inline uint64_t record_end_of(const struct record_call *call)
{
    return call->end != 0 ? call->end : UINT64_MAX;
}

/* Writes the END of a call, or `-` if the call was pending at a crash: it may have taken effect, or not. */
static inline void record_write_end(FILE *out, const struct record_call *call)
{
    if (call->end != 0)
        fprintf(out, "%" PRIu64, (uint64_t)call->end);
    else
        fputc('-', out);
}

static inline void record_write_bytes(FILE *out, const struct record_call *call)
{
    static const char digits[] = "0123456789abcdef";
    const unsigned char *bytes = (const unsigned char *)call + RECORD_BYTES_AT;
    for (unsigned i = 0; i < call->count; i++) {
        fputc(digits[bytes[i] / 16], out);
        fputc(digits[bytes[i] % 16], out);
    }
}

static inline void record_write_command(FILE *out, const struct record_call *call)
{
    switch (call->kind) {
    case RECORD_NEW:
        fprintf(out, " new %" PRIu32 " %" PRIu64 " 0", call->cell, call->number);
        break;
    case RECORD_PUT:
        fprintf(out, " put %" PRIu32 " %" PRIu64 " ", call->cell, call->number);
        record_write_bytes(out, call);
        break;
    case RECORD_GET:
        fprintf(out, " get %" PRIu32 " %" PRIu64 " %u", call->cell, call->number, call->count);
        break;
    default:
        fprintf(out, " free %" PRIu32, call->cell);
    }
}

static inline void record_write_answer(FILE *out, const struct record_call *call)
{
    if (call->kind == RECORD_NEW && call->address != 0) {
        fprintf(out, " -> object %" PRIu32 " at %" PRIx64, call->cell, call->address);
    } else if (call->kind == RECORD_NEW) {
        fprintf(out, " -> refused 3 NO_PAGES");
    } else if (call->kind == RECORD_GET) {
        fprintf(out, " -> bytes ");
        record_write_bytes(out, call);
    } else {
        fprintf(out, " -> done");
    }
}

/* Writes the line of a call. A call that was pending has no answer. */
static inline void record_write_call(FILE *out, unsigned worker, const struct record_call *call)
{
    fprintf(out, "%u %" PRIu64 " ", worker, (uint64_t)call->begin);
    record_write_end(out, call);
    record_write_command(out, call);
    if (call->end != 0)
        record_write_answer(out, call);
    fputc('\n', out);
}

/* Whether the next call of a worker can have been written by this header, behind its last one. The recorded program may
 * have stored to any memory. */
static inline bool record_is_whole(const struct record_cursor *cursor)
{
    const struct record_call *call = cursor->next, *last = cursor->last;
    bool is_access = call->kind == RECORD_PUT || call->kind == RECORD_GET;
    return call->kind >= RECORD_NEW && call->kind <= RECORD_FREE && call->number <= RECORD_MOST_LENGTH &&
           call->count <= RECORD_MOST_BYTES && is_access == (call->count > 0) &&
           (size_t)(cursor->end - call) >= record_slots(call->count) &&
           (call->kind != RECORD_NEW || call->end == 0 || call->address <= RECORD_MOST_ADDRESS) &&
           record_end_of(call) > call->begin && (last == NULL || record_end_of(last) < call->begin);
}

/* The worker whose next call has the least BEGIN, or `workers` if there is no further call. */
static inline unsigned record_earliest(const struct record_cursor *cursors, unsigned workers)
{
    unsigned earliest = workers;
    for (unsigned w = 0; w < workers; w++) {
        if (cursors[w].next == cursors[w].end || cursors[w].next->begin == 0)
            continue;
        if (earliest == workers || cursors[w].next->begin < cursors[earliest].next->begin)
            earliest = w;
    }
    return earliest;
}

/* With how many earlier calls on the same object a call overlaps. Of each worker only the last call can. */
static inline uint64_t record_overlaps(const struct record_cursor *cursors, unsigned workers,
                                       const struct record_call *call)
{
    uint64_t overlaps = 0;
    for (unsigned w = 0; w < workers; w++) {
        const struct record_call *last = cursors[w].last;
        overlaps += last != NULL && last->cell == call->cell && record_end_of(last) > call->begin;
    }
    return overlaps;
}

/* The mapped file, or NULL with a line on standard error. */
static inline const struct record_head *record_map(const char *path, size_t *bytes)
{
    struct stat status;
    int file = open(path, O_RDONLY);
    if (file < 0 || fstat(file, &status) != 0) {
        perror(path);
        if (file >= 0)
            close(file);
        return NULL;
    }
    *bytes = (size_t)status.st_size;
    void *memory = MAP_FAILED;
    if (*bytes >= sizeof(struct record_head))
        memory = mmap(NULL, *bytes, PROT_READ, MAP_SHARED, file, 0);
    close(file);
    const struct record_head *head = memory;
    if (memory != MAP_FAILED && memcmp(head->magic, record_magic, sizeof head->magic) == 0 && head->workers >= 1 &&
        head->workers <= RECORD_MOST_WORKERS && head->slots <= RECORD_MOST_SLOTS &&
        *bytes == sizeof *head + head->workers * head->slots * sizeof(struct record_call))
        return head;
    if (memory != MAP_FAILED)
        munmap(memory, *bytes);
    fprintf(stderr, "%s: not a file of this recorder\n", path);
    return NULL;
}

/* Writes the calls of all workers, in the order of BEGIN, and counts them. False if the file can't be read or isn't
 * whole, or if the text can't be written. */
static inline bool record_write_calls(FILE *out, const struct record_head *head, struct record_counts *counts)
{
    struct record_cursor cursors[RECORD_MOST_WORKERS];
    unsigned workers = (unsigned)head->workers, w;
    for (w = 0; w < workers; w++) {
        const struct record_call *first = (const struct record_call *)(head + 1) + w * head->slots;
        cursors[w] = (struct record_cursor){ first, first + head->slots, NULL };
    }
    fprintf(out, "history 2\n");
    while ((w = record_earliest(cursors, workers)) < workers) {
        const struct record_call *call = cursors[w].next;
        if (!record_is_whole(&cursors[w])) {
            fprintf(stderr, "a call of worker %u was overwritten, after %" PRIu64 " calls of all\n", w, counts->calls);
            return false;
        }
        counts->pending += call->end == 0;
        counts->calls++;
        counts->overlaps += record_overlaps(cursors, workers, call);
        record_write_call(out, w, call);
        cursors[w].last = call;
        cursors[w].next += record_slots(call->count);
    }
    if (fflush(out) == 0 && !ferror(out))
        return true;
    perror("the history");
    return false;
}

/* Merges the calls of a file into a history, which is written to `out`. If calls were pending, a line on standard error
 * counts them. Returns false, with a line on standard error, if the file can't be read or was overwritten by the
 * recorded program, and if the history can't be written. */
static inline bool record_merge(const char *path, FILE *out, struct record_counts *counts)
{
    size_t bytes;
    const struct record_head *head = record_map(path, &bytes);
    memset(counts, 0, sizeof *counts);
    if (head == NULL)
        return false;
    bool is_written = record_write_calls(out, head, counts);
    munmap((void *)head, bytes);
    if (counts->pending > 0)
        fprintf(stderr, "calls that were pending: %" PRIu64 "\n", counts->pending);
    return is_written;
}

#endif
