/* Merges what a driver recorded with mesh_record.h into a history of calls that overlap, also after the driver crashed.
 *
 *     gcc -std=gnu11 -O2 -Wall -Wextra -o merge_record examples/merge_record.c
 *     ./merge_record run.record >run.history
 *     meshrun check run.history
 *
 * If calls were pending when the driver ended, a line on standard error counts them. The status is 1 if the history
 * can't be made, and 2 for a wrong command line.
 */
#include "mesh_record.h"

int main(int count, char **words)
{
    struct record_counts counts;
    if (count != 2) {
        fputs("merge_record FILE\n", stderr);
        return 2;
    }
    return record_merge(words[1], stdout, &counts) ? 0 : 1;
}
