/* A toy allocator that meshes while threads use it, and a driver that records each call with two stamps: when it began
 * and when it ended.
 *
 *     gcc -std=gnu11 -O2 -Wall -Wextra -pthread -o racing_slots examples/racing_slots.c
 *     ./racing_slots [--threads T] [--calls N] [--bug] >slots.history
 *     meshrun check slots.history
 *
 * It is a template for a driver of your own allocator (docs/TESTING_AN_ALLOCATOR.md; docs/FORMAT.md has the lines). T
 * threads (1 to 16, 4 by default) make N calls together (at most 1,000,000, 20,000 by default), most of them on objects
 * that all threads share. No lock is held around a call and its record, and the driver needn't know when a call took
 * effect: `meshrun check` decides whether some order of the overlapping calls explains all answers.
 *
 * Another thread meshes at the same time. A table maps two virtual pages of slots to physical ones. A mesh makes one
 * virtual page read-only, copies its objects to the physical page of the other, and remaps it. Then the other page is
 * moved away, so that there is something to mesh again. A store to a read-only page waits. With --bug it doesn't wait:
 * if it comes after its word was copied, it is lost.
 */
#include <inttypes.h>
#include <pthread.h>
#include <sched.h>
#include <stdarg.h>
#include <stdatomic.h>
#include <stdbool.h>
#include <stdio.h>
#include <stdlib.h>
#include <string.h>

enum { PAGE_BYTES = 4096, SLOT_BYTES = 128, SLOTS = PAGE_BYTES / SLOT_BYTES, WORD_BYTES = 8, PAGES = 2 };

static const uint64_t FIRST_ADDRESS = 0x7f5500000000;
static bool has_bug;

/* ---- The allocator. What threads race on is atomic and one word, so each access takes effect at one moment. ---- */

/* The table of virtual pages, and the physical ones. An entry has whether the page is read-only, its physical page, and
 * how often it was remapped. */
enum { READ_ONLY = 1, FRAME = 2, REMAPPED = 4 };
static _Atomic uint64_t table[PAGES] = { 0, FRAME };
static _Atomic uint64_t frames[PAGES][PAGE_BYTES / WORD_BYTES];

/* How many threads are in a store to a virtual page. */
static atomic_int stores[PAGES];

/* Of each slot number: whether it is free, or in which virtual page it is taken. It is taken in at most one of the two,
 * so they can always be meshed. A freed slot can be reused once the next mesh begins: the running one may still copy
 * it. */
enum { IS_FREE, WAS_FREED, IN_PAGE };
static atomic_int owners[SLOTS];

static int page_of(uint64_t address)
{
    return (int)((address - FIRST_ADDRESS) / PAGE_BYTES);
}

/* The word of an address, by an entry of the table. */
static _Atomic uint64_t *word_at(uint64_t entry, uint64_t address)
{
    return &frames[(entry & FRAME) != 0][address % PAGE_BYTES / WORD_BYTES];
}

/* Loads bytes of one word. If the page was remapped meanwhile, its old physical page may be another's by now, so the
 * word is loaded again. */
static void slots_get(uint64_t address, unsigned char *data, unsigned bytes)
{
    uint64_t entry, word;
    do {
        entry = table[page_of(address)];
        word = *word_at(entry, address);
    } while ((table[page_of(address)] | READ_ONLY) != (entry | READ_ONLY));
    memcpy(data, (unsigned char *)&word + address % WORD_BYTES, bytes);
}

/* Stores bytes of one word. A mesh that makes the page read-only waits for the stores that have begun, and later stores
 * wait for the mesh. */
static void slots_put(uint64_t address, const unsigned char *data, unsigned bytes)
{
    int page = page_of(address);
    uint64_t entry;
    stores[page]++;
    while (((entry = table[page]) & READ_ONLY) != 0 && !has_bug) {
        stores[page]--;
        sched_yield();
        stores[page]++;
    }
    uint64_t old = *word_at(entry, address), word;
    do {
        word = old;
        memcpy((unsigned char *)&word + address % WORD_BYTES, data, bytes);
    } while (!atomic_compare_exchange_weak(word_at(entry, address), &old, word));
    stores[page]--;
}

/* The address of a new object of zeros, or 0 if there is no room. The numbers pick its page and its slot. */
static uint64_t slots_new(unsigned page, unsigned first)
{
    static const unsigned char zeros[WORD_BYTES];
    for (unsigned i = 0; i < SLOTS; i++) {
        unsigned slot = (first + i) % SLOTS;
        if (!atomic_compare_exchange_strong(&owners[slot], &(int){ IS_FREE }, (int)(IN_PAGE + page)))
            continue;
        uint64_t address = FIRST_ADDRESS + page * PAGE_BYTES + slot * SLOT_BYTES;
        for (unsigned at = 0; at < SLOT_BYTES; at += WORD_BYTES)
            slots_put(address + at, zeros, WORD_BYTES);
        return address;
    }
    return 0;
}

static void slots_free(uint64_t address)
{
    owners[address % PAGE_BYTES / SLOT_BYTES] = WAS_FREED;
}

/* ---- The thread that meshes. ---- */

static _Atomic uint64_t now;     /* the clock: how many stamps were taken */
static atomic_bool is_over;

/* Waits until so many stamps were taken, but not for long: the calls may all wait for the mesh. */
static void let_calls_run(uint64_t stamps)
{
    uint64_t wanted = now + stamps;
    for (uint64_t i = 0; i < 4 * stamps && now < wanted && !is_over; i++)
        sched_yield();
}

/* Moves the objects of a virtual page to the other physical page. */
static void move(int page)
{
    uint64_t entry = atomic_fetch_or(&table[page], READ_ONLY);
    while (stores[page] != 0)
        sched_yield();
    for (uint64_t at = 0; at < PAGE_BYTES; at += WORD_BYTES) {
        if (owners[at / SLOT_BYTES] != IN_PAGE + page)
            continue;
        *word_at(entry ^ FRAME, at) = (uint64_t)*word_at(entry, at);
        let_calls_run(1);
    }
    table[page] = (entry ^ FRAME) + REMAPPED;
}

/* Meshes one page into the other's physical page, moves the other one away, and so on. A physical page to which nothing
 * is mapped is overwritten, as another program might do. */
static void *mesher(void *unused)
{
    for (int page = 0; !is_over; page = !page) {
        for (int slot = 0; slot < SLOTS; slot++)
            atomic_compare_exchange_strong(&owners[slot], &(int){ WAS_FREED }, IS_FREE);
        move(page);
        for (uint64_t at = 0; at < PAGE_BYTES && ((table[0] ^ table[1]) & FRAME) == 0; at += WORD_BYTES)
            *word_at(table[0] ^ FRAME, at) = 0xdddddddddddddddd;
        let_calls_run(200);
    }
    return unused;
}

/* ---- The driver, which makes the calls and records them. ---- */

enum { MOST_THREADS = 16, MOST_CALLS = 1000000, SHARED = 4, LINE_BYTES = 120 };

/* An object has a cell of its own, and the number of the cell is its serial. One that was refused has the address 0. */
struct object { unsigned cell, bytes; uint64_t address; };
static struct object shared[SHARED];
static atomic_uint cells;

/* A thread that makes calls, its random numbers, and the object that only it uses. */
static struct worker { unsigned number; uint64_t random; struct object own; } workers[MOST_THREADS + 1];
static atomic_bool has_begun;
static size_t calls_of_each;

/* What is recorded: each call's line, with its BEGIN to sort by. */
static struct line { uint64_t begin; char text[LINE_BYTES]; } lines[MOST_CALLS + 2 * SHARED];
static _Atomic size_t line_count;

static unsigned random_below(struct worker *worker, unsigned n)
{
    worker->random ^= worker->random << 13;
    worker->random ^= worker->random >> 7;
    worker->random ^= worker->random << 17;
    return (unsigned)((worker->random >> 32) % n);
}

/* Stamps the beginning of a call. Sometimes it then lets other threads run, so that calls overlap even with few
 * processors. */
static uint64_t call_begins(struct worker *worker)
{
    uint64_t begin = now++;
    if (random_below(worker, 4) == 0)
        sched_yield();
    return begin;
}

/* Stamps the end of a call, and then records the call and its answer. */
static void call_ends(struct worker *worker, uint64_t begin, const char *format, ...)
{
    uint64_t end = now++;
    struct line *line = &lines[line_count++];
    line->begin = begin;
    int length = snprintf(line->text, LINE_BYTES, "%u %" PRIu64 " %" PRIu64 " ", worker->number, begin, end);
    va_list values;
    va_start(values, format);
    vsnprintf(line->text + length, (size_t)(LINE_BYTES - length), format, values);
    va_end(values);
}

/* Bytes as a line has them. */
static const char *spelt(char *hex, const unsigned char *data, unsigned bytes)
{
    for (unsigned i = 0; i < bytes; i++)
        sprintf(hex + 2 * i, "%02x", data[i]);
    return hex;
}

static struct object record_new(struct worker *worker, unsigned bytes)
{
    const char *refusal = bytes == 0 ? "1 ZERO" : bytes > SLOT_BYTES ? "2 TOO_LARGE" : "3 NO_PAGES";
    struct object made = { cells++, bytes, 0 };
    unsigned page = random_below(worker, PAGES), slot = random_below(worker, SLOTS);
    uint64_t begin = call_begins(worker);
    if (bytes > 0 && bytes <= SLOT_BYTES)
        made.address = slots_new(page, slot);
    if (made.address != 0)
        call_ends(worker, begin, "new %u %u 0 -> object %u at %" PRIx64, made.cell, bytes, made.cell, made.address);
    else
        call_ends(worker, begin, "new %u %u 0 -> refused %s", made.cell, bytes, refusal);
    return made;
}

static void record_free(struct worker *worker, struct object object)
{
    uint64_t begin = call_begins(worker);
    slots_free(object.address);
    call_ends(worker, begin, "free %u -> done", object.cell);
}

/* A store, a load or an `addr`, mostly of the object's first bytes, so that accesses race. */
static void record_access(struct worker *worker, struct object object)
{
    unsigned kind = random_below(worker, 10), off = random_below(worker, random_below(worker, 2) == 0 ? 2 : object.bytes) % object.bytes;
    unsigned in_word = WORD_BYTES - off % WORD_BYTES, left = object.bytes - off, bytes = 1 + random_below(worker, in_word < left ? in_word : left);
    unsigned char data[WORD_BYTES];
    char hex[2 * WORD_BYTES + 1];
    for (unsigned i = 0; i < bytes; i++)
        data[i] = (unsigned char)random_below(worker, 256);
    uint64_t begin = call_begins(worker);
    if (kind == 0) {
        call_ends(worker, begin, "addr %u -> at %" PRIx64, object.cell, object.address);
    } else if (kind < 5) {
        slots_put(object.address + off, data, bytes);
        call_ends(worker, begin, "put %u %u %s -> done", object.cell, off, spelt(hex, data, bytes));
    } else {
        slots_get(object.address + off, data, bytes);
        call_ends(worker, begin, "get %u %u %u -> bytes %s", object.cell, off, bytes, spelt(hex, data, bytes));
    }
}

/* Makes random calls, on shared objects and on the thread's own. */
static void *work(void *given)
{
    struct worker *worker = given;
    while (!has_begun)
        sched_yield();
    for (size_t i = 0; i < calls_of_each; i++) {
        unsigned kind = random_below(worker, 40);
        if (kind < 2 && worker->own.address == 0) {
            worker->own = record_new(worker, random_below(worker, SLOT_BYTES + 8));
        } else if (kind == 0) {
            record_free(worker, worker->own);
            worker->own.address = 0;
        } else {
            record_access(worker, kind < 10 && worker->own.address != 0 ? worker->own : shared[random_below(worker, SHARED)]);
        }
    }
    return NULL;
}

static int compare_begins(const void *a, const void *b)
{
    const struct line *x = a, *y = b;
    return x->begin < y->begin ? -1 : x->begin > y->begin;
}

int main(int count, char **words)
{
    unsigned long threads = 4, calls = 20000;
    for (int i = 1; i < count; i++) {
        unsigned long *number = strcmp(words[i], "--threads") == 0 ? &threads : strcmp(words[i], "--calls") == 0 ? &calls : NULL;
        if (strcmp(words[i], "--bug") == 0)
            has_bug = true;
        else if (number != NULL && i + 1 < count)
            *number = strtoul(words[++i], NULL, 10);
        else
            threads = 0;
    }
    if (threads < 1 || threads > MOST_THREADS || calls > MOST_CALLS) {
        fputs("racing_slots [--threads T] [--calls N] [--bug]\n", stderr);
        return 2;
    }
    calls_of_each = calls / threads;
    for (unsigned w = 0; w <= threads; w++)
        workers[w].number = w, workers[w].random = 7919 * w + 17;

    /* The shared objects are made before the threads begin, and freed after they ended. */
    struct worker *self = &workers[threads];
    pthread_t running[MOST_THREADS + 1];
    for (int i = 0; i < SHARED; i++)
        shared[i] = record_new(self, 16 + random_below(self, 32));
    for (unsigned w = 0; w <= threads; w++)
        if (pthread_create(&running[w], NULL, w < threads ? work : mesher, &workers[w]) != 0)
            return 1;
    has_begun = true;
    for (unsigned w = 0; w < threads; w++)
        pthread_join(running[w], NULL);
    is_over = true;
    pthread_join(running[threads], NULL);
    for (int i = 0; i < SHARED; i++)
        record_free(self, shared[i]);

    qsort(lines, line_count, sizeof *lines, compare_begins);
    puts("history 2");
    for (size_t i = 0; i < line_count; i++)
        puts(lines[i].text);
    return 0;
}
