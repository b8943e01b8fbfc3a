/* Reads the log that its first argument names, prints its groups, those that are left without the badges of the cleaning staff, and the plan around
 * the badge and into the parts that the second and third argument give. Build, from the repository's root, after `rt lib` in crates/ward:
 *     cc -Iinclude examples/groups.c crates/ward/out/libward.a -o groups
 *     ./groups examples/ward.log 1 3 */
#include <stdio.h>
#include <stdlib.h>

#include "show.h"
#include "ward.h"

int main(int argc, char **argv) {
    static uint8_t plan[WARD_PLAN_BYTES];
    static uint64_t words[WARD_WORDS];
    uint64_t answer[5];
    if (argc != 4) {
        fprintf(stderr, "usage: groups LOG BADGE PARTS\n");
        return 2;
    }

    read_log(argv[1], words, answer);
    size_t badges = answer[WARD_BADGES], ticks = answer[WARD_TICKS];
    ward_set everyone = ward_all_badges(badges), nobody = {0, 0};

    print_groups(words, badges, ticks, everyone);
    printf("without badges 1 and 3\n");
    print_groups(words, badges, ticks, ward_without(ward_without(everyone, 1), 3));

    ward_set query = ward_with(nobody, strtoul(argv[2], NULL, 10));
    size_t parts = strtoul(argv[3], NULL, 10);
    ward_plan(words, WARD_WORDS, badges, ticks, everyone.low, everyone.high, query.low, query.high, parts, plan, sizeof plan, answer);
    check(answer);
    print_records("score", badges, plan, 5 + ward_set_bytes(badges), answer[WARD_COUNT]);
    return 0;
}
