/* A toy allocator that meshes, with a driver that records each call and its answer as a line of a history.
 *
 *     gcc -std=c99 -O2 -Wall -Wextra -o recorded_slots examples/recorded_slots.c
 *     ./recorded_slots SEED [--bug] >slots.history
 *     meshrun check slots.history
 *
 * It is a template for a driver of your own allocator (docs/TESTING_AN_ALLOCATOR.md; docs/FORMAT.md has the lines).
 * Each call is recorded when it takes effect. Meshes run in small steps between the calls, and a store to a page that
 * is being copied is blocked. With --bug it isn't blocked, and a store that comes after its object's copy is lost. SEED
 * picks the calls: the same seed always prints the same lines.
 */
#include <inttypes.h>
#include <stdbool.h>
#include <stdint.h>
#include <stdio.h>
#include <stdlib.h>
#include <string.h>

enum { PAGE_BYTES = 4096, SLOT_BYTES = 256, SLOTS = PAGE_BYTES / SLOT_BYTES, SPANS = 40, FRAMES = 5, NONE = -1 };

static const uint64_t FIRST_ADDRESS = 0x7f5500000000;
static bool has_bug;

/* Random numbers, the same on every machine. */

static uint64_t random_state;

static unsigned random_below(unsigned n)
{
    random_state ^= random_state << 13;
    random_state ^= random_state >> 7;
    random_state ^= random_state << 17;
    return (unsigned)((random_state >> 32) % n);
}

/* ---- The allocator: virtual pages of slots, each mapped to a physical page. ---- */

/* Of each virtual page: its physical page, or NONE, and which of its slots are taken, a bit each. */
static struct span { int frame; unsigned taken; } spans[SPANS];
static unsigned char frames[FRAMES][PAGE_BYTES];

/* The running mesh: its two physical pages, and which slot is copied next. */
static struct { bool runs; int source, target, slot; } mesh;

static struct span *span_of(uint64_t address)
{
    return &spans[(address - FIRST_ADDRESS) / PAGE_BYTES];
}

/* The place of an address in physical memory, as a page table translates it. */
static unsigned char *byte_at(uint64_t address)
{
    return &frames[span_of(address)->frame][address % PAGE_BYTES];
}

/* The taken slots of a physical page, of all virtual pages that are mapped to it. */
static unsigned taken_of(int frame)
{
    unsigned taken = 0;
    for (int s = 0; s < SPANS; s++)
        if (spans[s].frame == frame)
            taken |= spans[s].taken;
    return taken;
}

static bool in_mesh(int frame)
{
    return mesh.runs && (frame == mesh.source || frame == mesh.target);
}

/* A physical page to which nothing is mapped, or NONE. */
static int free_frame(void)
{
    for (int frame = 0; frame < FRAMES; frame++)
        if (!in_mesh(frame) && taken_of(frame) == 0)
            return frame;
    return NONE;
}

/* The address of a new object of zeros, or 0 if there is no room. */
static uint64_t slots_new(void)
{
    unsigned first = random_below(SPANS), from = random_below(SLOTS);
    for (unsigned i = 0; i < SPANS; i++) {
        unsigned s = (first + i) % SPANS;
        if (spans[s].frame == NONE)
            spans[s].frame = free_frame();
        if (spans[s].frame == NONE || in_mesh(spans[s].frame))
            continue;
        unsigned taken = taken_of(spans[s].frame);
        for (unsigned j = 0; j < SLOTS; j++) {
            unsigned slot = (from + j) % SLOTS;
            if (taken >> slot & 1)
                continue;
            uint64_t address = FIRST_ADDRESS + s * PAGE_BYTES + slot * SLOT_BYTES;
            spans[s].taken |= 1u << slot;
            memset(byte_at(address), 0, SLOT_BYTES);
            return address;
        }
    }
    return 0;
}

static void slots_free(uint64_t address)
{
    struct span *span = span_of(address);
    span->taken &= ~(1u << address % PAGE_BYTES / SLOT_BYTES);
    if (span->taken == 0)
        span->frame = NONE;
}

/* Whether a store may be made now: the source of a mesh is read-only from its beginning until it is remapped. */
static bool slots_may_store(uint64_t address)
{
    return has_bug || !mesh.runs || span_of(address)->frame != mesh.source;
}

/* Begins a mesh of two physical pages that have no taken slot in common, if there are such. */
static void begin_mesh(void)
{
    int first = (int)random_below(FRAMES);
    for (int i = 0; i < FRAMES * FRAMES; i++) {
        int source = (first + i) % FRAMES, target = (first + i / FRAMES) % FRAMES;
        unsigned moved = taken_of(source), kept = taken_of(target);
        if (source == target || moved == 0 || kept == 0 || (moved & kept) != 0)
            continue;
        mesh.runs = true, mesh.source = source, mesh.target = target, mesh.slot = 0;
        return;
    }
}

/* Begins a mesh, or makes the next step of the running one: copies an object, remaps, or releases the source's page. */
static void slots_mesh_step(void)
{
    if (!mesh.runs) {
        begin_mesh();
    } else if (mesh.slot < SLOTS) {
        int at = SLOT_BYTES * mesh.slot;
        if (taken_of(mesh.source) >> mesh.slot & 1)
            memcpy(&frames[mesh.target][at], &frames[mesh.source][at], SLOT_BYTES);
        mesh.slot++;
    } else if (mesh.slot == SLOTS) {
        for (int s = 0; s < SPANS; s++)
            if (spans[s].frame == mesh.source)
                spans[s].frame = mesh.target;
        mesh.slot++;
    } else {
        memset(frames[mesh.source], 0xdd, PAGE_BYTES);
        mesh.runs = false;
    }
}

/* ---- The driver, which makes the calls and records them. ---- */

enum { WORKERS = 3, TURNS = 20000, MOST_BYTES = 32, FEWEST_LIVE = 30, MOST_LIVE = 60 };
enum kind { NEW, FREE, PUT, GET, ADDR, PEEK, POKE, COPY };

/* An object has a cell of its own, and the number of the cell is its serial. */
static struct object { uint64_t address; unsigned bytes; } objects[TURNS];
static unsigned made, live[MOST_LIVE], live_count;

/* Of each worker: its call, and whether the call is blocked. */
static struct call {
    enum kind kind;
    unsigned cell, off, from, from_off, bytes;
    unsigned char data[MOST_BYTES];
} calls[WORKERS];
static bool waits[WORKERS];

static void print_bytes(const unsigned char *bytes, unsigned count)
{
    for (unsigned i = 0; i < count; i++)
        printf("%02x", bytes[i]);
}

/* A `new` takes effect when the object is reserved. A refusal is recorded too. */
static void record_new(unsigned bytes)
{
    printf("new %u %u 0 -> ", made, bytes);
    uint64_t address = bytes == 0 || bytes > SLOT_BYTES ? 0 : slots_new();
    if (address == 0) {
        puts(bytes == 0 ? "refused 1 ZERO" : bytes > SLOT_BYTES ? "refused 2 TOO_LARGE" : "refused 3 NO_PAGES");
        return;
    }
    printf("object %u at %" PRIx64 "\n", made, address);
    objects[made] = (struct object){ address, bytes };
    live[live_count++] = made++;
}

/* A `free` takes effect when another call may get the address. */
static void record_free(unsigned cell)
{
    unsigned place = 0;
    while (live[place] != cell)
        place++;
    live[place] = live[--live_count];
    slots_free(objects[cell].address);
    printf("free %u -> done\n", cell);
}

/* Makes a worker's call and records it. Nothing happens between effect and record: with threads, hold one lock around
 * both. Returns false if a store is blocked: it had no effect, so nothing is recorded, and the worker retries. */
static bool attempt(int worker)
{
    const struct call *c = &calls[worker];
    uint64_t address = objects[c->cell].address + c->off, from = objects[c->from].address + c->from_off;
    if ((c->kind == PUT || c->kind == POKE || c->kind == COPY) && !slots_may_store(address))
        return false;
    printf("%d ", worker);
    switch (c->kind) {
    case NEW:
        record_new(c->bytes);
        break;
    case FREE:
        record_free(c->cell);
        break;
    case PUT:
        memcpy(byte_at(address), c->data, c->bytes);
        printf("put %u %u ", c->cell, c->off);
        print_bytes(c->data, c->bytes);
        puts(" -> done");
        break;
    case GET:
        printf("get %u %u %u -> bytes ", c->cell, c->off, c->bytes);
        print_bytes(byte_at(address), c->bytes);
        puts("");
        break;
    case ADDR:
        printf("addr %u -> at %" PRIx64 "\n", c->cell, address - address % SLOT_BYTES);
        break;
    case PEEK:
        printf("peek %" PRIx64 " -> byte %02x\n", address, *byte_at(address));
        break;
    case POKE:
        *byte_at(address) = c->data[0];
        printf("poke %" PRIx64 " %02x -> done\n", address, c->data[0]);
        break;
    case COPY:
        memmove(byte_at(address), byte_at(from), c->bytes);
        printf("copy %u %u %u %u %u -> done\n", c->cell, c->off, c->from, c->from_off, c->bytes);
        break;
    }
    return true;
}

/* Whether a blocked store needs the object, which must not be freed meanwhile. */
static bool is_awaited(unsigned cell)
{
    for (int w = 0; w < WORKERS; w++)
        if (waits[w] && (calls[w].cell == cell || calls[w].from == cell))
            return true;
    return false;
}

/* A random call: any kind, on live objects, within their bytes. */
static struct call random_call(void)
{
    static const enum kind kinds[] = { NEW, NEW, FREE, FREE, PUT, PUT, PUT, PUT, GET, GET, GET, GET, GET, ADDR, PEEK, POKE, COPY };
    struct call c = { kinds[random_below(sizeof kinds / sizeof *kinds)], 0, 0, 0, 0, 0, { 0 } };
    if (live_count < FEWEST_LIVE || (c.kind == NEW && live_count < MOST_LIVE)) {
        c.kind = NEW;
        c.bytes = random_below(SLOT_BYTES + 10);
        return c;
    }
    c.cell = live[random_below(live_count)];
    c.from = live[random_below(live_count)];
    if (c.kind == NEW || (c.kind == FREE && is_awaited(c.cell)))
        c.kind = GET;
    unsigned bytes = objects[c.cell].bytes, from_bytes = objects[c.from].bytes, least = bytes < from_bytes ? bytes : from_bytes;
    c.bytes = 1 + random_below(least < MOST_BYTES ? least : MOST_BYTES);
    c.off = c.kind == FREE ? 0 : random_below(bytes - c.bytes + 1);
    c.from_off = random_below(from_bytes - c.bytes + 1);
    for (unsigned i = 0; i < c.bytes; i++)
        c.data[i] = (unsigned char)random_below(256);
    return c;
}

int main(int count, char **words)
{
    if (count < 2 || count > 3 || (count == 3 && strcmp(words[2], "--bug") != 0)) {
        fputs("recorded_slots SEED [--bug]\n", stderr);
        return 2;
    }
    random_state = strtoull(words[1], NULL, 10) * 2 + 1;
    has_bug = count == 3;
    for (int s = 0; s < SPANS; s++)
        spans[s].frame = NONE;
    puts("history 1");
    for (int turn = 0; turn < TURNS; turn++) {
        if (random_below(2) == 0)
            slots_mesh_step();
        int worker = (int)random_below(WORKERS);
        if (!waits[worker])
            calls[worker] = random_call();
        waits[worker] = !attempt(worker);
    }
    return 0;
}
