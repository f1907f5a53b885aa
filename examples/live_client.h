/* A client of `meshrun live`, in C99 for POSIX: it starts a session, sends a line at a time, and reads each answer.
 *
 *     struct live live;
 *     if (!live_start(&live, "crates/meshrun/out/meshrun", 64, 65536, 3))
 *         perror("live");
 *     struct live_answer answer = live_new(&live, 0, 3, 100, 7);
 *     if (answer.kind == LIVE_OBJECT)
 *         printf("object %u at %x\n", (unsigned)answer.serial, (unsigned)answer.address);
 *     live_end(&live);
 *
 * Compile with -std=c99 -D_POSIX_C_SOURCE=200809L. docs/FORMAT.md has the lines and their answers. A session needs one
 * thread, or a lock around each call. `live_slots.c`, next to this file, is a user.
 */
#ifndef LIVE_CLIENT_H
#define LIVE_CLIENT_H

#include <fcntl.h>
#include <inttypes.h>
#include <signal.h>
#include <stdarg.h>
#include <stdbool.h>
#include <stdint.h>
#include <stdio.h>
#include <stdlib.h>
#include <string.h>
#include <sys/types.h>
#include <sys/wait.h>
#include <unistd.h>

enum { LIVE_LINE_BYTES = 1024, LIVE_MOST_BYTES = 32, LIVE_WORD_BYTES = 16 };

/* What an answer is. LIVE_FAILED: there was none, or none that this client knows; the session can't be used further. */
enum live_kind {
    LIVE_FAILED, LIVE_OBJECT, LIVE_DONE, LIVE_BYTES, LIVE_AT, LIVE_BLOCKED, LIVE_HISTORY_FULL, LIVE_LEFT, LIVE_FREED,
    LIVE_FOUND, LIVE_REPORT, LIVE_REFUSED, LIVE_FAULT
};

struct live_answer {
    enum live_kind kind;
    /* The first word of the answer: `left` or the step that was made, `meshed` or `swept`, `bytes` or `byte`. The name
     * of a refusal, or the kind of a fault. */
    char word[LIVE_WORD_BYTES];
    /* The number of a refusal, of the steps that are left, of the freed pages, or of the pairs that were found. */
    unsigned number;
    unsigned probes;
    /* Of LIVE_OBJECT; the address also of LIVE_AT. */
    uint32_t serial, address;
    /* Of LIVE_BYTES, the answer to `get` and `peek`. */
    unsigned char bytes[LIVE_MOST_BYTES];
    unsigned byte_count;
    /* Of LIVE_REPORT. */
    unsigned objects, object_bytes, mapped, taken, saved;
};

/* A running session, the last line that was sent, and its answer as a text. */
struct live {
    pid_t process;
    FILE *to, *from;
    char line[LIVE_LINE_BYTES + 1];
    char *text;
    size_t text_room;
};

/* ---- The session. ---- */

static inline void live_become(const char *program, const int to[2], const int from[2], char *words[])
{
    signal(SIGPIPE, SIG_DFL);
    if (dup2(to[0], STDIN_FILENO) >= 0 && dup2(from[1], STDOUT_FILENO) >= 0) {
        for (int end = 0; end < 2; end++) {
            if (to[end] > STDERR_FILENO)
                close(to[end]);
            if (from[end] > STDERR_FILENO)
                close(from[end]);
        }
        execvp(program, words);
    }
    perror(program);
    _exit(127);
}

/* Starts a session. Returns false if it can't, with the reason in `errno`. If the program can't be run, this is printed
 * on standard error, the first answer is LIVE_FAILED, and `live_end` returns 127. From now on SIGPIPE is ignored, so
 * that a session that ends early is an answer LIVE_FAILED and not the end of this program. */
static inline bool live_start(struct live *live, const char *program, unsigned pages, unsigned history, unsigned workers)
{
    char texts[3][16], *name = (char *)program;
    snprintf(texts[0], sizeof texts[0], "%u", pages);
    snprintf(texts[1], sizeof texts[1], "%u", history);
    snprintf(texts[2], sizeof texts[2], "%u", workers);
    char *words[] = { name, "live", "--pages", texts[0], "--history", texts[1], "--workers", texts[2], NULL };
    int to[2], from[2];

    memset(live, 0, sizeof *live);
    if (pipe(to) != 0)
        return false;
    if (pipe(from) != 0) {
        close(to[0]), close(to[1]);
        return false;
    }
    signal(SIGPIPE, SIG_IGN);
    live->process = fork();
    if (live->process == 0)
        live_become(program, to, from, words);
    close(to[0]), close(from[1]);
    /* A session that is started later must not keep this one's standard input open. */
    fcntl(to[1], F_SETFD, FD_CLOEXEC), fcntl(from[0], F_SETFD, FD_CLOEXEC);
    live->to = fdopen(to[1], "w"), live->from = fdopen(from[0], "r");
    if (live->process > 0 && live->to != NULL && live->from != NULL)
        return true;
    close(to[1]), close(from[0]);
    if (live->process > 0)
        waitpid(live->process, NULL, 0);
    return false;
}

/* Ends a session. Returns its status, 128 and the number of the signal if one ended it, and -1 if it isn't known. */
static inline int live_end(struct live *live)
{
    int status;
    fclose(live->to), fclose(live->from);
    free(live->text);
    live->text = NULL;
    if (waitpid(live->process, &status, 0) < 0)
        return -1;
    return WIFEXITED(status) ? WEXITSTATUS(status) : 128 + WTERMSIG(status);
}

/* ---- Answers. ---- */

static inline struct live_answer live_of_kind(enum live_kind kind, const char *word)
{
    struct live_answer answer;
    memset(&answer, 0, sizeof answer);
    answer.kind = kind;
    snprintf(answer.word, sizeof answer.word, "%s", word);
    return answer;
}

static inline struct live_answer live_bytes_of(const char *word, const char *digits)
{
    struct live_answer answer = live_of_kind(LIVE_BYTES, word);
    unsigned byte;
    while (answer.byte_count < LIVE_MOST_BYTES && sscanf(digits + 2 * answer.byte_count, "%2x", &byte) == 1)
        answer.bytes[answer.byte_count++] = (unsigned char)byte;
    return answer;
}

/* The answer that a text spells. */
static inline struct live_answer live_answer_of(const char *text)
{
    char word[LIVE_WORD_BYTES] = "", name[LIVE_WORD_BYTES] = "";
    struct live_answer answer;
    int at = 0;

    sscanf(text, "%15s%n", word, &at);
    answer = live_of_kind(LIVE_FAILED, word);
    if (strcmp(text, "done") == 0)
        answer.kind = LIVE_DONE;
    else if (strcmp(text, "blocked") == 0)
        answer.kind = LIVE_BLOCKED;
    else if (strcmp(text, "history full") == 0)
        answer.kind = LIVE_HISTORY_FULL;
    else if ((strcmp(word, "bytes") == 0 || strcmp(word, "byte") == 0) && text[at] == ' ')
        return live_bytes_of(word, text + at + 1);
    else if (sscanf(text, "object %" SCNu32 " at %" SCNx32, &answer.serial, &answer.address) == 2)
        answer.kind = LIVE_OBJECT;
    else if (sscanf(text, "at %" SCNx32, &answer.address) == 1)
        answer.kind = LIVE_AT;
    else if (sscanf(text, "left %u", &answer.number) == 1 || sscanf(text + at, " left %u", &answer.number) == 1)
        answer.kind = LIVE_LEFT;
    else if (sscanf(text, "meshed %u", &answer.number) == 1 || sscanf(text, "swept %u", &answer.number) == 1)
        answer.kind = LIVE_FREED;
    else if (sscanf(text, "found %u probes %u", &answer.number, &answer.probes) == 2)
        answer.kind = LIVE_FOUND;
    else if (sscanf(text, "report objects %u bytes %u mapped %u taken %u saved %u", &answer.objects,
                    &answer.object_bytes, &answer.mapped, &answer.taken, &answer.saved) == 5)
        answer.kind = LIVE_REPORT;
    else if (sscanf(text, "refused %u %15s", &answer.number, name) == 2)
        answer.kind = LIVE_REFUSED, memcpy(answer.word, name, sizeof name);
    else if (sscanf(text, "fault %15s", name) == 1)
        answer.kind = LIVE_FAULT, memcpy(answer.word, name, sizeof name);
    return answer;
}

/* Sends a line, whose format is that of `printf`, and reads its answer. */
static inline struct live_answer live_ask(struct live *live, const char *format, ...)
{
    va_list arguments;
    va_start(arguments, format);
    int bytes = vsnprintf(live->line, sizeof live->line, format, arguments);
    va_end(arguments);
    if (bytes < 0 || bytes > LIVE_LINE_BYTES || fprintf(live->to, "%s\n", live->line) < 0 || fflush(live->to) != 0)
        return live_of_kind(LIVE_FAILED, "");
    ssize_t read = getline(&live->text, &live->text_room, live->from);
    if (read <= 0 || live->text[read - 1] != '\n')
        return live_of_kind(LIVE_FAILED, "");
    live->text[read - 1] = '\0';
    return live_answer_of(live->text);
}

/* ---- The nine commands of a worker. Send a blocked command again. ---- */

static inline struct live_answer live_new(struct live *live, unsigned worker, unsigned cell, unsigned length, uint64_t word)
{
    return live_ask(live, "run %u new %u %u %" PRIu64, worker, cell, length, word);
}

static inline struct live_answer live_put(struct live *live, unsigned worker, unsigned cell, unsigned off,
                                          const unsigned char *bytes, unsigned count)
{
    char digits[2 * LIVE_MOST_BYTES + 1] = "";
    for (unsigned i = 0; i < count && i < LIVE_MOST_BYTES; i++)
        snprintf(digits + 2 * i, 3, "%02x", bytes[i]);
    return live_ask(live, "run %u put %u %u %s", worker, cell, off, digits);
}

static inline struct live_answer live_get(struct live *live, unsigned worker, unsigned cell, unsigned off, unsigned count)
{
    return live_ask(live, "run %u get %u %u %u", worker, cell, off, count);
}

static inline struct live_answer live_free(struct live *live, unsigned worker, unsigned cell)
{
    return live_ask(live, "run %u free %u", worker, cell);
}

static inline struct live_answer live_alias(struct live *live, unsigned worker, unsigned cell, unsigned from)
{
    return live_ask(live, "run %u alias %u %u", worker, cell, from);
}

static inline struct live_answer live_addr(struct live *live, unsigned worker, unsigned cell)
{
    return live_ask(live, "run %u addr %u", worker, cell);
}

static inline struct live_answer live_peek(struct live *live, unsigned worker, uint32_t address)
{
    return live_ask(live, "run %u peek %" PRIx32, worker, address);
}

static inline struct live_answer live_poke(struct live *live, unsigned worker, uint32_t address, unsigned char byte)
{
    return live_ask(live, "run %u poke %" PRIx32 " %02x", worker, address, byte);
}

static inline struct live_answer live_copy(struct live *live, unsigned worker, unsigned to, unsigned to_off,
                                           unsigned from, unsigned from_off, unsigned count)
{
    return live_ask(live, "run %u copy %u %u %u %u %u", worker, to, to_off, from, from_off, count);
}

/* ---- The calls of the mesher. ---- */

/* Searches a class for pairs, with two words that shuffle the candidates. `live_pair_at` has the pairs that it found. */
static inline struct live_answer live_pair(struct live *live, unsigned size_class, unsigned rounds, uint64_t word, uint64_t next)
{
    return live_ask(live, "pair %u %u %" PRIu64 " %" PRIu64, size_class, rounds, word, next);
}

/* The pair at this place, counted from 0, of the answer to a `live_pair`, if this was the last line. */
static inline bool live_pair_at(const struct live *live, unsigned place, unsigned *source, unsigned *destination)
{
    const char *text = live->text;
    for (unsigned fields = 0; text != NULL && fields < 4 + place; fields++)
        text = (text = strchr(text, ' ')) == NULL ? NULL : text + 1;
    return text != NULL && sscanf(text, "%u:%u", source, destination) == 2;
}

static inline struct live_answer live_begin(struct live *live, unsigned source, unsigned destination)
{
    return live_ask(live, "begin %u %u", source, destination);
}

static inline struct live_answer live_step(struct live *live, unsigned size_class)
{
    return live_ask(live, "step %u", size_class);
}

static inline struct live_answer live_cancel(struct live *live, unsigned size_class)
{
    return live_ask(live, "cancel %u", size_class);
}

static inline struct live_answer live_whole(struct live *live, unsigned source, unsigned destination)
{
    return live_ask(live, "whole %u %u", source, destination);
}

static inline struct live_answer live_sweep(struct live *live, unsigned group)
{
    return live_ask(live, "sweep %u", group);
}

static inline struct live_answer live_report(struct live *live)
{
    return live_ask(live, "report");
}

#endif
