/* What the examples share: reading a file or a log, ending where a call was refused, printing a set of badges, the records of a report or a plan, and
 * the groups of a day. Each uses some of it. */
#ifndef SHOW_H
#define SHOW_H

#include <stdio.h>
#include <stdlib.h>

#include "ward.h"

/* Reads a file, or so much of it as there is room; gives how many bytes. */
static inline size_t read_file(const char *name, uint8_t *bytes, size_t room) {
    FILE *file = fopen(name, "rb");
    if (file == NULL) {
        perror(name);
        exit(2);
    }
    size_t size = fread(bytes, 1, room, file);
    fclose(file);
    return size;
}

static inline void check(const uint64_t answer[5]) {
    if (answer[WARD_NUMBER] != WARD_SUCCESS) {
        printf("refused %d at %d\n", (int)answer[WARD_NUMBER], (int)answer[WARD_OFFSET]);
        exit(1);
    }
}

/* Reads the log that a file holds into WARD_WORDS day words; its badges and ticks are in the answer. */
static inline void read_log(const char *name, uint64_t *words, uint64_t answer[5]) {
    static uint8_t log[WARD_LOG_BYTES + 1];
    size_t size = read_file(name, log, sizeof log);
    ward_read(log, size, words, WARD_WORDS, answer);
    check(answer);
}

/* The badges of a set, rising, and the end of the line. */
static inline void print_badges(ward_set set) {
    printf(" badges");
    for (size_t u = 0; u < 128; u++)
        if (ward_has(set, u))
            printf(" %zu", u);
    printf("\n");
}

/* The records of a report or a plan of a day of so many badges, after a header of so many bytes and before the end. A record has a mark of two bytes,
 * an order or score, first and last tick, and members in 8 bytes or 16, the lowest badges first. */
static inline void print_records(const char *what, size_t badges, const uint8_t *bytes, size_t header, size_t size) {
    size_t set_bytes = ward_set_bytes(badges);
    for (size_t at = header; at + 6 < size; at += 5 + set_bytes) {
        ward_set members = {0, 0};
        for (size_t u = 0; u < 8 * set_bytes; u++)
            if (bytes[at + 5 + u / 8] >> (u % 8) & 1)
                members = ward_with(members, u);
        printf("%s %d ticks %d to %d", what, bytes[at + 2], bytes[at + 3], bytes[at + 4]);
        print_badges(members);
    }
}

/* The groups of a day among the badges under review. Thresholds 1, 1 and 2 keep every group. */
static inline void print_groups(const uint64_t *words, size_t badges, size_t ticks, ward_set review) {
    static uint8_t report[WARD_REPORT_BYTES];
    uint64_t answer[5];
    ward_report(words, WARD_WORDS, badges, ticks, review.low, review.high, 1, 1, 2, report, sizeof report, answer);
    check(answer);
    print_records("order", badges, report, 4, answer[WARD_COUNT]);
}

#endif
