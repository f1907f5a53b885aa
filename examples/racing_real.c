/* Threads that race on objects of the real `malloc`, recorded by mesh_record.h.
 *
 *     gcc -std=gnu11 -O2 -Wall -Wextra -pthread -o racing_real examples/racing_real.c
 *     ./racing_real [--threads T] [--calls N] [--objects O] [--seed S] [--bug NAME] >real.history
 *     meshrun check real.history
 *
 * T threads (1 to 16, 4 by default) make N calls each (20,000 by default). They make, store to, load from and free O
 * objects that they share (1 to 64, 4 by default). To test another allocator than that of the C library, link or
 * preload it:
 *
 *     LD_PRELOAD=libjemalloc.so.2 ./racing_real >real.history
 *
 * Several threads access the same words at once. Each access is one relaxed atomic load or store of a word, so the
 * program has no data race and takes no order for granted. A lock of each object is held shared for an access, and
 * alone for `new` and `free`. So a call on an object begins after its `new` ended, and ends before its `free` begins.
 *
 * --bug NAME adds a fault of a kind that allocators have, which strikes now and then:
 *
 *     lost-store      a word is moved away and back, and stores between the two are lost
 *     stale-load      a load returns what the thread loaded from the word before
 *     torn-store      a store is made in two halves
 *     uncleared       a new object isn't cleared
 *     double          a block is handed out, and stays on the free list
 *     use-after-free  a block that was freed is linked to the next one that is, though it may be live again
 *     aba             a block is taken from a lock-free list, whose head was changed and changed back meanwhile
 *
 * The last three have a pool of blocks instead of `malloc`. With --pool the pool is used without a bug.
 *
 * With --copies each thread also copies 4,096 bytes to and from an object of its own. No other thread touches this
 * object, so each `memcpy` is one call of the history.
 *
 * The calls are recorded in the file racing_real.record (--record FILE), which is removed when it was merged. With
 * --crash-after N the first thread aborts within its first store after N calls, when others may have loaded what it
 * stored. With --copies, it aborts within a store of 4,096 bytes. Then the file is left, and merge_record makes a
 * history of it.
 *
 * A line on standard error has the number of calls, of pairs of calls on one object that overlapped, and how often the
 * bug struck. The status is 1 if it never did, or if the calls can't be recorded, and 2 for a wrong command line.
 */
#include <pthread.h>
#include <sched.h>
#include <signal.h>
#include <stddef.h>
#include <stdlib.h>

#include "mesh_record.h"

enum { MOST_THREADS = 16, MOST_OBJECTS = 64, WORD_BYTES = 8, MOST_WORDS = 16 };
enum { COPIED_BYTES = RECORD_MOST_BYTES, OWN_BYTES = 3 * COPIED_BYTES };

/* Objects consist of words, and each access is of one word. */
typedef _Atomic uint64_t word;

enum bug { NO_BUG, LOST_STORE, STALE_LOAD, TORN_STORE, UNCLEARED, DOUBLE, USE_AFTER_FREE, ABA, BUGS };
static const char *const bug_names[BUGS] = { "", "lost-store", "stale-load", "torn-store", "uncleared", "double",
                                             "use-after-free", "aba" };
static enum bug bug;
static bool has_pool, has_copies;
static atomic_ulong strikes; /* of the bug */

/* An object, and its number in the history. */
struct object {
    uint32_t cell;
    unsigned words;
    word *address; /* NULL: there is none. */
};

/* A thread that makes calls, and its random numbers. */
struct worker {
    struct record_worker *record;
    pthread_t thread;
    uint64_t random;
    unsigned long calls;
    const word *loaded; /* For `stale-load`: the word of the last load, its object, and its value. */
    uint32_t loaded_cell;
    uint64_t loaded_value;
    struct block *freed; /* For `use-after-free`: the block that was freed last. */
    char *own;           /* For --copies: the object of this thread, or NULL, and its number. */
    uint32_t own_cell;
};
static struct worker workers[MOST_THREADS];

static unsigned random_below(struct worker *worker, unsigned n)
{
    worker->random ^= worker->random << 13;
    worker->random ^= worker->random >> 7;
    worker->random ^= worker->random << 17;
    return (unsigned)((worker->random >> 32) % n);
}

/* Whether a bug strikes now. */
static bool strikes_now(struct worker *worker, enum bug kind)
{
    return bug == kind && random_below(worker, 32) == 0;
}

static void let_others_run(unsigned times)
{
    while (times-- > 0)
        sched_yield();
}

static uint64_t load_relaxed(const word *at)
{
    return atomic_load_explicit(at, memory_order_relaxed);
}

static void store_relaxed(word *at, uint64_t value)
{
    atomic_store_explicit(at, value, memory_order_relaxed);
}

/* ---- A pool of blocks, which are never given back to `malloc`. The free ones are a list without a lock. ---- */

struct block {
    struct block *_Atomic next;
    atomic_bool is_live;
    word words[MOST_WORDS];
};

/* The first free block and a tag, which changes with each change of the list. So a list that has the old head again
 * isn't taken for the old list, except with the bug `aba`. */
static _Atomic uint64_t list;
enum { TAG_SHIFT = 48 };

static struct block *block_of(uint64_t link)
{
    return (struct block *)(uintptr_t)(link & RECORD_MOST_ADDRESS);
}

static uint64_t link_after(uint64_t old, const struct block *block)
{
    uint64_t tag = bug == ABA ? 0 : (old >> TAG_SHIFT) + 1;
    return tag << TAG_SHIFT | (uintptr_t)block;
}

/* Takes the first block from the list, or returns NULL. */
static struct block *pop(struct worker *worker)
{
    uint64_t old = list;
    struct block *block, *next;
    do {
        block = block_of(old);
        if (block == NULL)
            return NULL;
        next = block->next;
        if (bug != DOUBLE && bug != USE_AFTER_FREE && random_below(worker, 8) == 0)
            let_others_run(32);
        if (strikes_now(worker, DOUBLE))
            next = block;
    } while (!atomic_compare_exchange_strong(&list, &old, link_after(old, next)));
    return block;
}

static void push(struct block *block)
{
    uint64_t old = list;
    do
        block->next = block_of(old);
    while (!atomic_compare_exchange_strong(&list, &old, link_after(old, block)));
}

static word *pool_new(struct worker *worker)
{
    struct block *block = pop(worker);
    if (block == NULL)
        block = calloc(1, sizeof *block);
    if (block == NULL)
        return NULL;
    if (atomic_exchange(&block->is_live, true))
        strikes++;
    for (unsigned i = 0; i < MOST_WORDS; i++)
        store_relaxed(&block->words[i], 0);
    return block->words;
}

static void pool_free(struct worker *worker, word *address)
{
    struct block *block = (struct block *)((char *)address - offsetof(struct block, words)), *before = worker->freed;
    if (bug == USE_AFTER_FREE && before != NULL && before != block) {
        store_relaxed(&before->words[0], (uintptr_t)block);
        if (before->is_live)
            strikes++;
    }
    worker->freed = block;
    block->is_live = false;
    push(block);
}

/* ---- The allocator under test, and accesses to its objects. The functions have the bugs. ---- */

static word *real_new(struct worker *worker, unsigned words)
{
    if (has_pool)
        return pool_new(worker);
    if (bug != UNCLEARED)
        return calloc(words, WORD_BYTES);
    word *address = malloc(words * WORD_BYTES);
    uint64_t old = 0;
    for (unsigned i = 0; address != NULL && i < words; i++)
        old |= load_relaxed(&address[i]);
    if (old != 0)
        strikes++;
    return address;
}

static void real_free(struct worker *worker, word *address)
{
    if (has_pool)
        pool_free(worker, address);
    else
        free(address);
}

/* Moves a word away and back, as if the object were moved. */
static void move_word(word *at)
{
    uint64_t kept = load_relaxed(at);
    let_others_run(4);
    if (atomic_exchange_explicit(at, kept, memory_order_relaxed) != kept)
        strikes++;
}

static uint64_t real_get(struct worker *worker, const struct object *object, word *at)
{
    if (strikes_now(worker, LOST_STORE))
        move_word(at);
    uint64_t value = load_relaxed(at);
    if (at == worker->loaded && object->cell == worker->loaded_cell && strikes_now(worker, STALE_LOAD)) {
        if (value != worker->loaded_value)
            strikes++;
        return worker->loaded_value;
    }
    worker->loaded = at, worker->loaded_cell = object->cell, worker->loaded_value = value;
    return value;
}

static void real_put(struct worker *worker, word *at, uint64_t value)
{
    if (strikes_now(worker, TORN_STORE)) {
        store_relaxed(at, (load_relaxed(at) & UINT32_MAX) | (value & ~(uint64_t)UINT32_MAX));
        let_others_run(1);
        strikes++;
    }
    store_relaxed(at, value);
}

/* ---- The driver: each call is made between its two stamps. ---- */

/* What all threads share. The lock of a place is held for each call on its object. */
static struct place {
    pthread_rwlock_t lock;
    struct object object;
} places[MOST_OBJECTS];

static struct recorder recorder;
static struct { unsigned long threads, calls, objects, seed, crash_after; } given = { 4, 20000, 4, 1, 0 };
static atomic_bool has_begun;

/* Ends the program if a call can't be recorded, else counts it. Sometimes it lets other threads run before the call is
 * made, so that calls overlap even with few processors. */
static void begun(struct worker *worker, bool is_recorded)
{
    if (!is_recorded) {
        perror("racing_real");
        exit(1);
    }
    worker->calls++;
    let_others_run(random_below(worker, 64) == 0);
}

static void make(struct worker *worker, struct object *object)
{
    object->words = 2 + random_below(worker, MOST_WORDS - 1);
    begun(worker, record_begin_new(worker->record, object->words * WORD_BYTES, &object->cell));
    object->address = real_new(worker, object->words);
    record_end_new(worker->record, object->address);
}

static void release(struct worker *worker, struct object *object)
{
    begun(worker, record_begin_free(worker->record, object->cell));
    real_free(worker, object->address);
    record_end(worker->record);
    object->address = NULL;
}

static void load(struct worker *worker, const struct object *object, unsigned index)
{
    begun(worker, record_begin_get(worker->record, object->cell, index * WORD_BYTES, WORD_BYTES));
    uint64_t value = real_get(worker, object, &object->address[index]);
    record_end_get(worker->record, &value);
}

/* Ends the program within a store of the first thread, after the calls of --crash-after. */
static void crash_in_time(const struct worker *worker)
{
    if (given.crash_after != 0 && worker == workers && worker->calls > given.crash_after) {
        let_others_run(16);
        abort();
    }
}

static void store(struct worker *worker, const struct object *object, unsigned index)
{
    uint64_t value = (uint64_t)random_below(worker, UINT32_MAX) << 32 | random_below(worker, UINT32_MAX);
    begun(worker, record_begin_put(worker->record, object->cell, index * WORD_BYTES, &value, WORD_BYTES));
    real_put(worker, &object->address[index], value);
    if (!has_copies)
        crash_in_time(worker);
    record_end(worker->record);
}

/* Loads or stores a word, mostly one of the first two, so that accesses race. */
static void access_object(struct worker *worker, const struct object *object)
{
    unsigned index = random_below(worker, random_below(worker, 4) == 0 ? object->words : 2);
    if (random_below(worker, 2) == 0)
        load(worker, object, index);
    else
        store(worker, object, index);
}

/* Frees the object, or makes one if there is none. */
static void change_object(struct worker *worker, struct object *object)
{
    if (object->address != NULL)
        release(worker, object);
    else
        make(worker, object);
}

static void make_own(struct worker *worker)
{
    begun(worker, record_begin_new(worker->record, OWN_BYTES, &worker->own_cell));
    worker->own = calloc(1, OWN_BYTES);
    record_end_new(worker->record, worker->own);
}

static void release_own(struct worker *worker)
{
    begun(worker, record_begin_free(worker->record, worker->own_cell));
    free(worker->own);
    record_end(worker->record);
    worker->own = NULL;
}

static void load_own(struct worker *worker, unsigned offset)
{
    char bytes[COPIED_BYTES];
    begun(worker, record_begin_get(worker->record, worker->own_cell, offset, COPIED_BYTES));
    memcpy(bytes, worker->own + offset, COPIED_BYTES);
    record_end_get(worker->record, bytes);
}

static void store_own(struct worker *worker, unsigned offset)
{
    char bytes[COPIED_BYTES];
    for (unsigned i = 0; i < COPIED_BYTES; i++)
        bytes[i] = (char)random_below(worker, 256);
    begun(worker, record_begin_put(worker->record, worker->own_cell, offset, bytes, COPIED_BYTES));
    memcpy(worker->own + offset, bytes, COPIED_BYTES / 2);
    crash_in_time(worker);
    memcpy(worker->own + offset + COPIED_BYTES / 2, bytes + COPIED_BYTES / 2, COPIED_BYTES / 2);
    record_end(worker->record);
}

/* Copies to or from the object that no other thread touches; sometimes makes or frees it. */
static void use_own(struct worker *worker)
{
    unsigned offset = random_below(worker, OWN_BYTES - COPIED_BYTES + 1);
    if (worker->own == NULL)
        make_own(worker);
    else if (random_below(worker, 8) == 0)
        release_own(worker);
    else if (random_below(worker, 2) == 0)
        load_own(worker, offset);
    else
        store_own(worker, offset);
}

static void *work(void *own)
{
    struct worker *worker = own;
    while (!has_begun)
        let_others_run(1);
    while (worker->calls < given.calls) {
        if (has_copies && random_below(worker, 16) == 0) {
            use_own(worker);
            continue;
        }
        struct place *place = &places[random_below(worker, (unsigned)given.objects)];
        bool is_change = random_below(worker, has_pool ? 4 : 16) == 0;
        if ((is_change ? pthread_rwlock_trywrlock : pthread_rwlock_rdlock)(&place->lock) != 0)
            continue;
        if (is_change)
            change_object(worker, &place->object);
        else if (place->object.address != NULL)
            access_object(worker, &place->object);
        pthread_rwlock_unlock(&place->lock);
    }
    return NULL;
}

/* Runs the threads, and then frees the objects that are left. */
static bool run(void)
{
    for (unsigned i = 0; i < given.objects; i++)
        pthread_rwlock_init(&places[i].lock, NULL);
    for (unsigned w = 0; w < given.threads; w++) {
        workers[w].record = &recorder.workers[w];
        workers[w].random = 7919 * given.seed + 104729 * w + 17;
        if (pthread_create(&workers[w].thread, NULL, work, &workers[w]) != 0)
            return false;
    }
    has_begun = true;
    for (unsigned w = 0; w < given.threads; w++)
        pthread_join(workers[w].thread, NULL);
    for (unsigned i = 0; i < given.objects; i++)
        if (places[i].object.address != NULL)
            release(workers, &places[i].object);
    for (unsigned w = 0; w < given.threads; w++)
        if (workers[w].own != NULL)
            release_own(&workers[w]);
    return true;
}

static enum bug bug_of(const char *name)
{
    enum bug kind = LOST_STORE;
    while (kind < BUGS && strcmp(name, bug_names[kind]) != 0)
        kind++;
    return kind;
}

/* Reads the command line. Returns the name of the file of the record, or NULL if the line is wrong. */
static const char *read_options(int count, char **words)
{
    const struct { const char *name; unsigned long *value, most; } numbers[] = {
        { "--threads", &given.threads, MOST_THREADS }, { "--objects", &given.objects, MOST_OBJECTS },
        { "--calls", &given.calls, 10000000 },         { "--seed", &given.seed, UINT32_MAX },
        { "--crash-after", &given.crash_after, 10000000 },
    };
    const char *record = "racing_real.record";
    for (int i = 1; i < count; i++) {
        if (strcmp(words[i], "--pool") == 0) {
            has_pool = true;
            continue;
        }
        if (strcmp(words[i], "--copies") == 0) {
            has_copies = true;
            continue;
        }
        const char *value = ++i < count ? words[i] : "";
        size_t k = 0;
        while (k < 5 && strcmp(words[i - 1], numbers[k].name) != 0)
            k++;
        if (k < 5) {
            char *end;
            *numbers[k].value = strtoul(value, &end, 10);
            if (*value < '0' || *value > '9' || *end != '\0' || *numbers[k].value > numbers[k].most)
                return NULL;
        } else if (strcmp(words[i - 1], "--bug") == 0) {
            bug = bug_of(value);
        } else if (strcmp(words[i - 1], "--record") == 0 && *value != '\0') {
            record = value;
        } else {
            return NULL;
        }
    }
    has_pool = has_pool || bug >= DOUBLE;
    return bug == BUGS || given.threads == 0 || given.objects == 0 ? NULL : record;
}

int main(int count, char **words)
{
    const char *record = read_options(count, words);
    struct record_counts counts;
    if (record == NULL) {
        fputs("racing_real [--threads T] [--calls N] [--objects O] [--seed S] [--bug NAME] [--pool] [--copies] "
              "[--record FILE] [--crash-after N]\n", stderr);
        return 2;
    }
    size_t slots = (given.calls + MOST_OBJECTS) * (has_copies ? record_slots(COPIED_BYTES) : 1);
    if (!record_open(&recorder, record, (unsigned)given.threads, slots)) {
        perror(record);
        return 1;
    }
    /* A reader of the history may end early. */
    signal(SIGPIPE, SIG_IGN);
    if (!run())
        return 1;
    bool is_merged = record_merge(record, stdout, &counts);
    remove(record);
    fprintf(stderr, "%" PRIu64 " calls, %" PRIu64 " pairs on one object overlapped", counts.calls, counts.overlaps);
    if (bug != NO_BUG)
        fprintf(stderr, ", %s struck %lu times", bug_names[bug], (unsigned long)strikes);
    fputc('\n', stderr);
    return is_merged && (bug == NO_BUG || strikes > 0) ? 0 : 1;
}
