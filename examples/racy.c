/* An allocator with a race, to show what a recorder finds: two threads may get the same block.
 *
 *     gcc -std=c99 -O2 -Wall -Wextra -fPIC -fno-builtin -shared -o racy.so examples/racy.c
 *     LD_PRELOAD="$PWD/record_malloc.so $PWD/racy.so" RECORD=h.raw RECORD_STAMPS=1 PROGRAM
 *
 * Its stack of free blocks has no lock, so `pop` and `push` of two threads may come between one another. Recorded by
 * lines, each call is under the recorder's lock: no two threads are in the allocator at a time, and the history is
 * legal. Recorded by stamps, they are, and `meshrun check` reports `overlaps`. docs/TESTING_AN_ALLOCATOR.md has a run.
 * Without -fno-builtin the compiler may turn `calloc` into a call of itself.
 */
#include <stddef.h>
#include <stdint.h>
#include <string.h>

/* A block has a head, for its length, and at least 256 bytes. Only blocks of 256 bytes are used again. */
enum { HEAD_BYTES = 16, LEAST_BYTES = 256, MOST_FREE = 1 << 16 };
static const size_t arena_bytes = (size_t)1 << 29;

static unsigned char arena[(size_t)1 << 29] __attribute__((aligned(4096)));
static size_t arena_used;
static void *stack[MOST_FREE];
static volatile int top; /* how many blocks are on the stack. Here is the race: it is read, and written later. */

static size_t *length_of(void *block)
{
    return (size_t *)(void *)((unsigned char *)block - HEAD_BYTES);
}

static void *pop(void)
{
    int last = top;
    if (last == 0)
        return NULL;
    void *block = stack[last - 1];
    top = last - 1;
    return block;
}

static void push(void *block)
{
    int next = top;
    if (next == MOST_FREE)
        return;
    stack[next] = block;
    top = next + 1;
}

/* A new block, from the end of the arena. This part has no race. */
static void *extend(size_t bytes)
{
    size_t whole = HEAD_BYTES + (bytes + 15) / 16 * 16;
    size_t begin = __atomic_fetch_add(&arena_used, whole, __ATOMIC_SEQ_CST);
    return begin + whole <= arena_bytes ? arena + begin + HEAD_BYTES : NULL;
}

void *malloc(size_t bytes)
{
    if (bytes > arena_bytes)
        return NULL;
    size_t length = bytes < LEAST_BYTES ? LEAST_BYTES : bytes;
    void *block = length == LEAST_BYTES ? pop() : NULL;
    if (block == NULL)
        block = extend(length);
    if (block != NULL)
        *length_of(block) = length;
    return block;
}

void free(void *block)
{
    if (block != NULL && *length_of(block) == LEAST_BYTES)
        push(block);
}

void *calloc(size_t count, size_t bytes)
{
    if (bytes != 0 && count > arena_bytes / bytes)
        return NULL;
    void *block = malloc(count * bytes);
    return block == NULL ? NULL : memset(block, 0, count * bytes);
}

void *realloc(void *old, size_t bytes)
{
    void *block = malloc(bytes);
    if (old == NULL || block == NULL)
        return block;
    memcpy(block, old, *length_of(old) < bytes ? *length_of(old) : bytes);
    free(old);
    return block;
}
