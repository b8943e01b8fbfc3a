/* The ward contact engine for C, and for any language that can call C. Link with libward.a, which `rt lib` in crates/ward
 * writes, as crates/ward/out/libward.a (x86-64 Linux).
 *
 * A caller lends memory and calls. A call takes every input, does its own checking and finishes; it keeps nothing between calls,
 * allocates nothing, and may run in any number of threads at once, each with memory of its own. What each call answers and leaves in
 * the memory is proved, for every input, from the definitions that its contract cites (crates/ward/src/lib.rt).
 *
 * The caller owes:
 *   - every pointer is aligned for its type and not null, even where its length is 0;
 *   - it points to so many elements as its length says, which the call may read, and write where the pointer is not const;
 *   - memory that is written overlaps no other memory of the same call;
 *   - `answer` points to five numbers.
 *
 * A call uses the caller's stack, as it was measured (tests/stack-use.sh) and not proved: ward_read and ward_join under 1 KB, ward_trace 3,
 * ward_core_numbers 7, ward_plan 31, ward_write 50, ward_tidy 50, ward_report 97; so each of them less than 256 KB.
 *
 * Every call writes all five numbers of `answer`. On a refusal the first is its number and the second its byte offset, and the others are
 * 0; a refused call changes nothing else, except that ward_tidy refused by WARD_BUFFER_TOO_SHORT leaves the day in its work words. On
 * success the first two are 0; badges and ticks are what ward_read or ward_join found, else 0; count is the number of contact records for
 * ward_read, 0 for ward_join, and the number of bytes written for the others. Memory after the answer is unchanged. */
#ifndef WARD_H
#define WARD_H

#include <stddef.h>
#include <stdint.h>

#ifdef __cplusplus
extern "C" {
#endif

/* A day has 1 to 128 badges and 1 to 96 ticks. A set of badges is two words of 64 bits, lower badges first: bit u of the first word for badge u up to
 * 63, and bit u - 64 of the second for badge u from 64 on. In day words the set of those in contact with badge u in tick t is in word 2 * (t * badges
 * + u) and the next one, so a day takes 2 * badges * ticks words; one of 64 badges or fewer has 0 in every second of them. Words after those are never
 * read or changed.
 *
 * Sizes that always suffice: words of a day, work words of ward_join, bytes of a log, of a trace, of a report and of a plan, core numbers of a span.
 *
 * A report has a record for each group, of 13 bytes, or 21 where the day has more than 64 badges, and 10 bytes more. Of each order k it shows at most
 * as many cores as the day has ticks, since none of their spans contains another; and a core's circles, which have a record each, have k + 1 members
 * or more. So
 *     10 + (badges <= 64 ? 13 : 21) * ticks * (badges / 2 + badges / 3 + .. + badges / badges)
 * bytes, each division rounded down, always suffice for a day of so many badges and ticks: WARD_REPORT_BYTES, which is 10 + 21 * 96 * 517, for every
 * day. Hardly any report is so long. Lend what is at hand, say 4 KB or 64 KB. Where ward_report refuses it by WARD_BUFFER_TOO_SHORT, which changes no
 * byte of it, make the same call again with WARD_REPORT_BYTES, or as many bytes as that sum: then it cannot be refused so. */
#define WARD_WORDS 24576
#define WARD_JOIN_WORK_WORDS (4 * WARD_WORDS)
#define WARD_LOG_BYTES 48010
#define WARD_TRACE_BYTES 256
#define WARD_REPORT_BYTES 1042282
#define WARD_PLAN_BYTES 2043
#define WARD_CORE_NUMBERS 128

/* In a trace: the tick of a badge that is never reached, and the source of a badge that has none. It is neither a tick nor a badge of any day. */
#define WARD_NONE 255

/* The five numbers of an answer. */
enum {
    WARD_NUMBER = 0,
    WARD_OFFSET = 1,
    WARD_BADGES = 2,
    WARD_TICKS = 3,
    WARD_COUNT = 4
};

/* The refusals, by number. The offset is the start of the refused record for 1 to 6, of the first extra byte for 7, and 0 otherwise; for
 * ward_join it counts from the start of the first log. 16 is unused: it was ward_tidy's for a tidy log that is too long, which no log can bring
 * about, and no other refusal will ever get it. */
enum {
    WARD_SUCCESS = 0,
    WARD_CUT_SHORT = 1,               /* the bytes end inside a record, or where one must start */
    WARD_WRONG_MARK = 2,              /* not BH for the first record, or not CT or ED later */
    WARD_HEADER_OUT_OF_LIMITS = 3,    /* badges not 1 to 128, or ticks not 1 to 96, in a log */
    WARD_INVALID_CONTACT = 4,         /* equal badges, a badge or tick that the day does not have, first after last */
    WARD_TOO_MANY_CONTACTS = 5,       /* contact record number 8,001 */
    WARD_WRONG_COUNT = 6,             /* the end's count differs */
    WARD_TRAILING_BYTES = 7,          /* bytes follow the end */
    WARD_TOO_FEW_WORDS = 8,           /* fewer than 2 * badges * ticks words lent; to ward_join, also fewer work words than that for each log */
    WARD_BUFFER_TOO_SHORT = 9,        /* the result buffer is shorter than the exact answer */
    WARD_SIZE_OUT_OF_LIMITS = 10,     /* badges not 1 to 128, or ticks not 1 to 96, handed over */
    WARD_NOT_A_DAY = 11,              /* the words are no day: a badge in contact with itself, with one that is not there, or one-sided */
    WARD_INVALID_SPAN = 12,           /* first after last, or last not a tick of the day */
    WARD_FOREIGN_QUERY = 13,          /* the query has a badge that the day does not have */
    WARD_INVALID_PARTS = 14,          /* no parts, or more than there are ticks */
    WARD_WRITE_TOO_MANY = 15,         /* the tidy log would need more than 8,000 contact records */
    WARD_THRESHOLD_OUT_OF_RANGE = 17, /* least ticks not 1 to 96, least order not 1 to 127, or least members not 2 to 128 */
    WARD_INVALID_RECEIVERS = 18,      /* not 2 to 4 logs, a quorum that is not 1 to their number, or lengths that do not add up to the bytes */
    WARD_DIFFERENT_SHIFTS = 19,       /* the badges or ticks of a log differ from the first log's */
    WARD_INVALID_REVIEW = 20,         /* no badge is under review, or one that the day does not have, whatever others are */
    WARD_QUERY_NOT_REVIEWED = 21,     /* the query has a badge that is not under review */
    WARD_INVALID_START = 22           /* the index is not a badge of the day, or the start not a tick of it */
};

/* A set of badges by value: its two words. A call takes them one after the other, as in
 *     ward_set review = ward_without(ward_all_badges(badges), 1);
 *     ward_report(words, WARD_WORDS, badges, ticks, review.low, review.high, 1, 1, 2, report, sizeof report, answer); */
typedef struct {
    uint64_t low, high;
} ward_set;

/* The set of all badges of a day, to review them all. 128 badges and more give every bit. */
static inline ward_set ward_all_badges(size_t badges) {
    ward_set set;
    set.low = badges < 64 ? ((uint64_t)1 << badges) - 1 : UINT64_MAX;
    set.high = badges <= 64 ? 0 : badges < 128 ? ((uint64_t)1 << (badges - 64)) - 1 : UINT64_MAX;
    return set;
}

/* Whether a set has a badge, and the set with a badge and without it. No set has a badge of 128 or more, or gets one. */
static inline int ward_has(ward_set set, size_t badge) {
    return badge < 128 && ((badge < 64 ? set.low : set.high) >> (badge % 64) & 1) != 0;
}

static inline ward_set ward_with(ward_set set, size_t badge) {
    if (badge < 64)
        set.low |= (uint64_t)1 << badge;
    else if (badge < 128)
        set.high |= (uint64_t)1 << (badge - 64);
    return set;
}

static inline ward_set ward_without(ward_set set, size_t badge) {
    if (badge < 64)
        set.low &= ~((uint64_t)1 << badge);
    else if (badge < 128)
        set.high &= ~((uint64_t)1 << (badge - 64));
    return set;
}

/* The set of those in contact with a badge in a tick, both of which the day has, by its words. */
static inline ward_set ward_contacts(const uint64_t *words, size_t badges, size_t tick, size_t badge) {
    ward_set set;
    set.low = words[2 * (tick * badges + badge)];
    set.high = words[2 * (tick * badges + badge) + 1];
    return set;
}

/* How many bytes a set takes in the reports and plans of a day of so many badges. A record of theirs has 5 bytes more. */
static inline size_t ward_set_bytes(size_t badges) { return badges <= 64 ? 8 : 16; }

/* Reads a log into day words: the set in word 2 * (t * badges + u) and the next one has badge v exactly when u and v are in contact in tick t. On
 * success every one of the first 2 * badges * ticks words is set. Refused by 1 to 7, in the log's own order, then 8. */
void ward_read(const uint8_t *log, size_t log_len, uint64_t *words, size_t words_len, uint64_t answer[5]);

/* Joins the logs of from 2 to 4 receivers of one shift into day words. The logs lie end to end; lengths_len is their number, and lengths has how many
 * bytes each takes. The set in word 2 * (t * badges + u) and the next one has badge v exactly when at least quorum of the logs have u and v in
 * contact in tick t: a log that says so twice counts once. quorum may be 1 to the number of logs. Lend 2 * badges * ticks words, and as many work
 * words for each log: on success every one of the first 2 * badges * ticks words is set, and the first 2 * lengths_len * badges * ticks work words
 * are 0. ward_write may refuse a joined day by 15, though it never refuses one that was read. Refused by 18; by 1 to 7, of the first log that is
 * refused, each log judged within its own length; then 19, then 8. */
void ward_join(const uint8_t *logs, size_t logs_len, const size_t *lengths, size_t lengths_len, size_t quorum, uint64_t *words, size_t words_len,
               uint64_t *work, size_t work_len, uint64_t answer[5]);

/* Tidies a log: two logs that mean the same give the same bytes, and no more contact records than came in. Leaves the day in the work
 * words. Refused by 1 to 7, in the log's own order, then 8, then 9. */
void ward_tidy(const uint8_t *log, size_t log_len, uint64_t *work, size_t work_len, uint8_t *out, size_t out_len, uint64_t answer[5]);

/* Writes day words as their tidy log. Refused by 10, 8, 11, 15, 9. */
void ward_write(const uint64_t *words, size_t words_len, size_t badges, size_t ticks, uint8_t *out, size_t out_len, uint64_t answer[5]);

/* The trace of an exposure: whom the badge `index` can have reached from tick `start` on, when first, and through whom. A chain is a series of
 * contacts, from the index to a badge, in strictly rising ticks of which the first is start or later: the index passes on in tick start and in every
 * later one, and every other badge only in ticks after the one in which it was reached. First there is a byte for each badge with its tick, the
 * earliest in which a chain arrives at it; then a byte for each badge with its source, the smallest badge in contact with it in that tick that passes
 * on in that tick: the index, or one whose own tick is earlier. The index has the tick start, and the source WARD_NONE, whatever it is in contact
 * with. A badge at which no chain arrives has WARD_NONE for both, and every other badge has a source. That makes 2 * badges bytes. Refused by 10, 8,
 * 11, 22, 9. */
void ward_trace(const uint64_t *words, size_t words_len, size_t badges, size_t ticks, size_t index, size_t start, uint8_t *out, size_t out_len,
                uint64_t answer[5]);

/* The three calls below take a set of badges under review, as its two words: they work out cores among these badges alone, as if no other badge had
 * been in contact with anybody. The set has one badge at least, and none that the day does not have. */

/* The core number of each badge on the span from tick first to tick last, both counted, one byte a badge: the largest k such that the badge
 * is in a set of reviewed badges whose members each stay in contact, throughout the span, with k or more others of it. A badge that is not under review
 * has 0. Refused by 10, 8, 11, 20, 12, 9. */
void ward_core_numbers(const uint64_t *words, size_t words_len, size_t badges, size_t ticks, uint64_t review_low, uint64_t review_high, size_t first,
                       size_t last, uint8_t *out, size_t out_len, uint64_t answer[5]);

/* The report of the day's groups: RH, badges, ticks; for each group GR, order, first tick, last tick, members as a set of 8 bytes, the lowest first;
 * ED and the number of groups in 4 bytes. Where the day has more than 64 badges, RW stands for RH and GW for GR, and a set has 16 bytes: so a record
 * has 13 bytes or 21. The groups are the circles of the maximal span-cores: the members of each such core split by who is joined to whom through
 * chains of pairs, of members alone, that stay in contact throughout its span. So two teams that never met are two groups, each with the order and
 * the span of the core that they both are in. Groups are ordered by first tick, last tick and smallest member. Which cores are maximal is judged by
 * their order and span, before they are split, and among the cores of the reviewed badges alone: with fewer badges under review a group may be
 * smaller or gone, and one may appear that a core with the others kept out. Of the groups the report then keeps those that last least_ticks ticks or
 * more, are of order least_order or more and have least_members members or more. Members are counted in each group: of one core's groups some may be
 * kept and others not. 1, 1 and 2 keep every group. Whatever badges and ticks are, least_ticks may be 1 to 96, least_order 1 to 127 and least_members
 * 2 to 128. Refused by 10, 8, 11, 20, 17, 9. */
void ward_report(const uint64_t *words, size_t words_len, size_t badges, size_t ticks, uint64_t review_low, uint64_t review_high, size_t least_ticks,
                 size_t least_order, size_t least_members, uint8_t *out, size_t out_len, uint64_t answer[5]);

/* The plan of the shift around a query, a set of reviewed badges, and perhaps of none: cuts the day into so many parts with the greatest sum of
 * scores, and of such cuttings it is the one whose list of last ticks comes first, compared number by number. PH, badges, ticks, parts, query in 8
 * bytes; for each part PT, score, first tick, last tick, members in 8 bytes; ED and their number. Where the day has more than 64 badges, PW stands
 * for PH and QW for PT, and the query and the members have 16 bytes each: so the header and each part have 13 bytes or 21. A part's members are a
 * whole core, however many circles it has; at score 0 they are all badges under review. Refused by 10, 8, 11, 20, 13, 21, 14, 9; the empty query
 * never by 21. */
void ward_plan(const uint64_t *words, size_t words_len, size_t badges, size_t ticks, uint64_t review_low, uint64_t review_high, uint64_t query_low,
               uint64_t query_high, size_t parts, uint8_t *out, size_t out_len, uint64_t answer[5]);

#ifdef __cplusplus
}
#endif

#endif
