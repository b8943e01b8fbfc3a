/* Joins the logs that its arguments from the second on name, of from 2 to 4 receivers of one shift, and prints the groups of the joined day: a contact
 * counts if at least so many of the logs have it as the first argument says. Build, from the repository's root, after `rt lib` in crates/ward:
 *     cc -Iinclude examples/receivers.c crates/ward/out/libward.a -o receivers
 *     ./receivers 2 examples/ward-east.log examples/ward-west.log */
#include <stdio.h>
#include <stdlib.h>

#include "show.h"
#include "ward.h"

int main(int argc, char **argv) {
    static uint8_t logs[4 * (WARD_LOG_BYTES + 1)];
    static uint64_t words[WARD_WORDS], work[WARD_JOIN_WORK_WORDS];
    size_t lengths[4], receivers = 0, size = 0;
    uint64_t answer[5];
    if (argc < 4 || argc > 6) {
        fprintf(stderr, "usage: receivers QUORUM LOG LOG [LOG [LOG]]\n");
        return 2;
    }
    for (int i = 2; i < argc; i++, receivers++) {
        lengths[receivers] = read_file(argv[i], logs + size, WARD_LOG_BYTES + 1);
        size += lengths[receivers];
    }

    ward_join(logs, size, lengths, receivers, strtoul(argv[1], NULL, 10), words, WARD_WORDS, work, WARD_JOIN_WORK_WORDS, answer);
    check(answer);
    size_t badges = answer[WARD_BADGES], ticks = answer[WARD_TICKS];
    print_groups(words, badges, ticks, ward_all_badges(badges));
    return 0;
}
