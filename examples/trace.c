/* Reads the log that its first argument names, and prints whom the badge that the second argument gives can have reached, from the tick on that the
 * third gives: in which tick, and through whom, in the order of ticks and then of badges; last, who was never reached. Build, from the repository's
 * root, after `rt lib` in crates/ward:
 *     cc -Iinclude examples/trace.c crates/ward/out/libward.a -o trace
 *     ./trace examples/ward.log 0 2 */
#include <stdio.h>
#include <stdlib.h>

#include "show.h"
#include "ward.h"

int main(int argc, char **argv) {
    static uint64_t words[WARD_WORDS];
    uint8_t trace[WARD_TRACE_BYTES];
    uint64_t answer[5];
    ward_set never = {0, 0};
    if (argc != 4) {
        fprintf(stderr, "usage: trace LOG BADGE TICK\n");
        return 2;
    }

    read_log(argv[1], words, answer);
    size_t badges = answer[WARD_BADGES], ticks = answer[WARD_TICKS];
    size_t index = strtoul(argv[2], NULL, 10), start = strtoul(argv[3], NULL, 10);
    ward_trace(words, WARD_WORDS, badges, ticks, index, start, trace, sizeof trace, answer);
    check(answer);

    printf("badge %zu from tick %zu\n", index, start);
    for (size_t t = start; t < ticks; t++)
        for (size_t u = 0; u < badges; u++)
            if (trace[u] == t && u != index)
                printf("badge %zu in tick %zu from badge %d\n", u, t, trace[badges + u]);
    for (size_t u = 0; u < badges; u++)
        if (trace[u] == WARD_NONE)
            never = ward_with(never, u);
    if ((never.low | never.high) != 0) {
        printf("never reached:");
        print_badges(never);
    }
    return 0;
}
