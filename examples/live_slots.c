/* A small slot allocator that is compared with a live session: each command is sent to both, and the answers compared.
 *
 *     gcc -std=c99 -D_POSIX_C_SOURCE=200809L -O2 -Wall -Wextra -o live_slots examples/live_slots.c
 *     ./live_slots PROGRAM [--bug]
 *
 * PROGRAM is a built `meshrun`. It is a template for a client of your own allocator (docs/TESTING_AN_ALLOCATOR.md). The
 * session meshes between the commands; the slots don't mesh. With --bug, a slot that is used again isn't cleared.
 *
 * If all answers agree, prints how many, with status 0. At the first answer that differs, prints the line and both
 * answers on standard error, with status 1.
 */
#include "live_client.h"

enum { SLOT_BYTES = 1024, SLOTS = 64, CELLS = 40, COMMANDS = 900, WORKERS = 3 };
enum refusal { ZERO = 1, TOO_LARGE = 2, NO_PAGES = 3, NO_ADDRESSES = 4, EMPTY = 5, FREED = 6, OUTSIDE = 7 };
enum kind { NEW, PUT, GET, FREE, ALIAS, ADDR, PEEK, POKE, COPY };

static bool has_bug;

/* Random numbers, the same on every machine. */

static uint64_t random_state = 88172645463325252u;

static unsigned random_below(unsigned n)
{
    random_state ^= random_state << 13;
    random_state ^= random_state >> 7;
    random_state ^= random_state << 17;
    return (unsigned)((random_state >> 32) % n);
}

/* ---- The allocator under test. ---- */

static unsigned char slots[SLOTS][SLOT_BYTES];
static bool is_taken[SLOTS];

/* The bytes of a new object of zeros, or NULL if there is no room. */
static unsigned char *slots_new(void)
{
    for (unsigned slot = 0; slot < SLOTS; slot++) {
        if (is_taken[slot])
            continue;
        is_taken[slot] = true;
        if (!has_bug)
            memset(slots[slot], 0, SLOT_BYTES);
        return slots[slot];
    }
    return NULL;
}

static void slots_free(const unsigned char *bytes)
{
    is_taken[(bytes - slots[0]) / SLOT_BYTES] = false;
}

/* ---- Its root cells, and its answers to commands. ---- */

/* Of each serial: its bytes, NULL if it was freed, its length, and its address in the session. */
static struct object { unsigned char *bytes; unsigned length; uint32_t address; } objects[COMMANDS];
static unsigned made;

/* Of each cell: whether it holds a reference, and the serial. */
static struct { bool is_set; unsigned serial; } cells[CELLS];

/* A command. `other` and `other_off` are the source of an `alias` and a `copy`; `count` is how many bytes it has. */
struct call {
    enum kind kind;
    unsigned worker, cell, off, other, other_off, count;
    uint64_t word;
    unsigned char bytes[LIVE_MOST_BYTES];
};

static bool is_live(unsigned cell)
{
    return cells[cell].is_set && objects[cells[cell].serial].bytes != NULL;
}

static struct live_answer refused(enum refusal number)
{
    struct live_answer answer = live_of_kind(LIVE_REFUSED, "refused");
    answer.number = number;
    return answer;
}

static struct live_answer loaded(const char *word, const unsigned char *bytes, unsigned count)
{
    struct live_answer answer = live_of_kind(LIVE_BYTES, word);
    answer.byte_count = count;
    memcpy(answer.bytes, bytes, count);
    return answer;
}

static struct live_answer own_new(const struct call *c)
{
    struct live_answer answer = live_of_kind(LIVE_OBJECT, "object");
    if (c->count == 0 || c->count > 2048)
        return refused(c->count == 0 ? ZERO : TOO_LARGE);
    unsigned char *bytes = slots_new();
    if (bytes == NULL)
        return refused(NO_PAGES);
    answer.serial = made;
    objects[made] = (struct object){ bytes, c->count, 0 };
    cells[c->cell].is_set = true, cells[c->cell].serial = made++;
    return answer;
}

/* The number of the refusal of a command on one cell or on two, or 0 if it isn't refused. */
static unsigned own_refusal(const struct call *c)
{
    bool has_two = c->kind == ALIAS || c->kind == COPY;
    unsigned cell = c->kind == ALIAS ? c->other : c->cell, other = has_two ? c->other : cell;
    if (!cells[cell].is_set || !cells[other].is_set)
        return EMPTY;
    if (!is_live(cell) || !is_live(other))
        return FREED;
    bool has_range = c->kind == PUT || c->kind == GET || c->kind == COPY;
    bool is_outside = c->off + c->count > objects[cells[cell].serial].length;
    bool is_other_outside = c->kind == COPY && c->other_off + c->count > objects[cells[other].serial].length;
    return has_range && (is_outside || is_other_outside) ? OUTSIDE : 0;
}

static struct live_answer own_answer(const struct call *c)
{
    if (c->kind == NEW)
        return own_new(c);
    unsigned refusal = own_refusal(c);
    if (refusal != 0)
        return refused(refusal);
    struct object *object = &objects[cells[c->cell].serial];
    switch (c->kind) {
    case GET:
    case PEEK:
        return loaded(c->kind == PEEK ? "byte" : "bytes", object->bytes + c->off, c->count);
    case ADDR:
        return live_of_kind(LIVE_AT, "at");
    case PUT:
    case POKE:
        memcpy(object->bytes + c->off, c->bytes, c->count);
        break;
    case COPY:
        memmove(object->bytes + c->off, objects[cells[c->other].serial].bytes + c->other_off, c->count);
        break;
    case FREE:
        slots_free(object->bytes);
        object->bytes = NULL;
        break;
    default: /* ALIAS */
        cells[c->cell] = cells[c->other];
    }
    return live_of_kind(LIVE_DONE, "done");
}

/* ---- The session, which meshes. ---- */

static struct live live;
static unsigned steps_left, meshes, blocked, compared;

static void fail(const char *why)
{
    fprintf(stderr, "%s: %s\n", live.line, why);
    live_end(&live);
    exit(1);
}

/* Makes a step of the running mesh, or searches for two groups and begins to mesh them. */
static void mesher_turn(void)
{
    unsigned source, destination;
    if (steps_left > 0) {
        steps_left = live_step(&live, SLOT_BYTES).number;
        meshes += steps_left == 0;
    } else if (live_pair(&live, SLOT_BYTES, 8, random_below(1000), random_below(1000)).number > 0) {
        if (live_pair_at(&live, 0, &source, &destination))
            steps_left = live_begin(&live, source, destination).number;
    }
}

static struct live_answer session_answer(const struct call *c)
{
    uint32_t address = cells[c->cell].is_set ? objects[cells[c->cell].serial].address + c->off : 0;
    switch (c->kind) {
    case NEW:
        return live_new(&live, c->worker, c->cell, c->count, c->word);
    case PUT:
        return live_put(&live, c->worker, c->cell, c->off, c->bytes, c->count);
    case GET:
        return live_get(&live, c->worker, c->cell, c->off, c->count);
    case FREE:
        return live_free(&live, c->worker, c->cell);
    case ALIAS:
        return live_alias(&live, c->worker, c->cell, c->other);
    case ADDR:
        return live_addr(&live, c->worker, c->cell);
    case PEEK:
        return live_peek(&live, c->worker, address);
    case POKE:
        return live_poke(&live, c->worker, address, c->bytes[0]);
    default: /* COPY */
        return live_copy(&live, c->worker, c->cell, c->off, c->other, c->other_off, c->count);
    }
}

/* ---- The commands. ---- */

/* A random command. One with an address is on a live object; some others are refused. Objects are made in the first of
 * two hundred lines, and most are freed in the second. */
static struct call random_call(unsigned line)
{
    static const enum kind kinds[] = { NEW, NEW, NEW, PUT, PUT, PUT, GET, GET, GET, FREE, FREE, ALIAS, ADDR, PEEK, POKE, COPY };
    struct call c = { kinds[random_below(sizeof kinds / sizeof *kinds)], 0, 0, 0, 0, 0, 0, 0, { 0 } };
    c.worker = random_below(WORKERS), c.cell = random_below(CELLS), c.other = random_below(CELLS);
    if (c.kind == NEW && line / 100 % 2 == 1)
        c.kind = FREE;
    if ((c.kind == NEW || c.kind == ALIAS) && is_live(c.cell))
        c.kind = GET;
    if ((c.kind == PEEK || c.kind == POKE) && !is_live(c.cell))
        c.kind = ADDR;
    if (c.kind == NEW) {
        c.word = random_below(1000);
        c.count = random_below(20) == 0 ? random_below(2) * 3000 : 513 + random_below(512);
        return c;
    }
    bool is_one_byte = c.kind == PEEK || c.kind == POKE;
    c.count = is_one_byte ? 1 : 1 + random_below(LIVE_MOST_BYTES);
    c.off = random_below(is_one_byte ? objects[cells[c.cell].serial].length : 600), c.other_off = random_below(300);
    for (unsigned i = 0; i < c.count; i++)
        c.bytes[i] = (unsigned char)random_below(256);
    return c;
}

static bool is_same(const struct live_answer *a, const struct live_answer *b)
{
    return a->kind == b->kind && a->serial == b->serial && (a->kind != LIVE_REFUSED || a->number == b->number) &&
           a->byte_count == b->byte_count && memcmp(a->bytes, b->bytes, a->byte_count) == 0;
}

static void print_own(const struct live_answer *own)
{
    fprintf(stderr, "%s", own->word);
    if (own->kind == LIVE_REFUSED)
        fprintf(stderr, " %u", own->number);
    else if (own->kind == LIVE_OBJECT)
        fprintf(stderr, " %u", (unsigned)own->serial);
    for (unsigned i = 0; i < own->byte_count; i++)
        fprintf(stderr, i == 0 ? " %02x" : "%02x", own->bytes[i]);
    fputs(" of the slots\n", stderr);
}

/* Sends a command to both. A blocked store is sent again after a step of the mesh. */
static void compare(const struct call *c)
{
    struct live_answer proved = session_answer(c);
    for (; proved.kind == LIVE_BLOCKED; proved = session_answer(c))
        blocked++, mesher_turn();
    if (proved.kind == LIVE_FAILED || proved.kind == LIVE_FAULT || proved.kind == LIVE_HISTORY_FULL)
        fail(proved.kind == LIVE_FAILED ? "no answer" : live.text);
    if (proved.kind == LIVE_REFUSED && (proved.number == NO_PAGES || proved.number == NO_ADDRESSES))
        return;
    struct live_answer own = own_answer(c);
    struct object *object = &objects[cells[c->cell].serial];
    if (!is_same(&proved, &own)) {
        fprintf(stderr, "%s: %s of the proved heap, ", live.line, live.text);
        print_own(&own);
        live_end(&live);
        exit(1);
    }
    compared++;
    if (proved.kind == LIVE_OBJECT)
        object->address = proved.address;
    if (proved.kind == LIVE_AT && proved.address != object->address)
        fail("another address than at first");
}

int main(int count, char **words)
{
    if (count < 2 || count > 3 || (count == 3 && strcmp(words[2], "--bug") != 0)) {
        fputs("live_slots PROGRAM [--bug]\n", stderr);
        return 2;
    }
    has_bug = count == 3;
    if (!live_start(&live, words[1], 64, 65536, WORKERS)) {
        perror(words[1]);
        return 1;
    }
    for (unsigned line = 0; line < COMMANDS; line++) {
        struct call c = random_call(line);
        compare(&c);
        mesher_turn();
    }
    if (live_end(&live) != 0) {
        fputs("the session did not end well\n", stderr);
        return 1;
    }
    printf("%u lines agree: %u blocked, %u meshes\n", compared, blocked, meshes);
    return 0;
}
