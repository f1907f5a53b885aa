/* Measures round trips of `meshrun live`, and those of a plain program that gives every line the same answer.
 *
 *     gcc -std=c99 -O2 -o round_trips round_trips.c
 *     ./round_trips COUNT PROGRAM WORD..
 *     ./round_trips --answer
 *
 * The first form starts PROGRAM with its arguments, sends it COUNT lines, each after the answer to the one before, and
 * prints the nanoseconds of a round trip. The lines make an object, then store to it and load from it by turns. COUNT
 * is at most 65,000, because a session's journal has room for 65,536 entries. The second form is the plain program.
 *
 * The status is 1 if PROGRAM ends early, and 2 without arguments. It needs a POSIX system; tools/bench/live.sh compiles
 * and runs it. */
#define _POSIX_C_SOURCE 200809L
#include <stdio.h>
#include <stdlib.h>
#include <string.h>
#include <sys/wait.h>
#include <time.h>
#include <unistd.h>

static int answer_all(void) {
    char line[2048];
    while (fgets(line, sizeof line, stdin)) {
        if (fputs("done\n", stdout) < 0 || fflush(stdout) != 0) return 1;
    }
    return 0;
}

static double nanoseconds(void) {
    struct timespec now;
    clock_gettime(CLOCK_MONOTONIC, &now);
    return now.tv_sec * 1e9 + now.tv_nsec;
}

/* Sends a line and reads the answer. Whether both were possible. */
static int is_answered(FILE *to, FILE *from, const char *line) {
    char answer[2048];
    return fputs(line, to) >= 0 && fflush(to) == 0 && fgets(answer, sizeof answer, from);
}

int main(int count, char **words) {
    if (count == 2 && strcmp(words[1], "--answer") == 0) return answer_all();
    if (count < 3) return 2;
    long trips = atol(words[1]);
    int asked[2], answered[2];
    if (pipe(asked) != 0 || pipe(answered) != 0) return 1;
    pid_t child = fork();
    if (child == 0) {
        dup2(asked[0], 0);
        dup2(answered[1], 1);
        close(asked[1]);
        close(answered[0]);
        execv(words[2], words + 2);
        _exit(127);
    }
    close(asked[0]);
    close(answered[1]);
    FILE *to = fdopen(asked[1], "w"), *from = fdopen(answered[0], "r");
    if (!is_answered(to, from, "run 0 new 0 64 0\n")) return 1;
    double start = nanoseconds();
    for (long k = 0; k < trips; k++) {
        if (!is_answered(to, from, k % 2 ? "run 0 get 0 0 2\n" : "run 0 put 0 0 6869\n")) return 1;
    }
    printf("%.0f\n", (nanoseconds() - start) / trips);
    fclose(to);
    waitpid(child, NULL, 0);
    return 0;
}
