/* Random calls through the C interface, with every lent buffer between two pages that cannot be read or written, flush against one of them, and with
 * what a call may only read on pages that cannot be written: a call that reaches outside what was lent, or writes where it must not, ends the
 * program. So does an answer that is not of the form that the header gives, a join that writes words it must leave, or leaves work words that are not
 * 0, and a trace that writes bytes it must leave, or shows a source that cannot be one. Its argument is the number of calls. Prints how many of each
 * were refused and how many succeeded. */
#define _DEFAULT_SOURCE
#include <stdio.h>
#include <stdlib.h>
#include <string.h>
#include <sys/mman.h>

#include "ward.h"

/* A region has room for any report, the most that a call may need, in whole pages. */
enum { PAGE = 4096, ROOM = (WARD_REPORT_BYTES + PAGE - 1) / PAGE * PAGE, MOST_LOGS = 5 };
enum { READ, JOIN, TIDY, WRITE, TRACE, CORE_NUMBERS, REPORT, PLAN, CALLS };

static const char *const names[CALLS] = {"ward_read",  "ward_join",         "ward_tidy",   "ward_write",
                                         "ward_trace", "ward_core_numbers", "ward_report", "ward_plan"};

static uint64_t state = 88172645463325252u;

static uint64_t next(void) {
    state ^= state << 13;
    state ^= state >> 7;
    state ^= state << 17;
    return state * 0x2545f4914f6cdd1du;
}

static size_t below(size_t bound) { return (next() >> 33) % bound; }

/* Memory between two guard pages. */
static uint8_t *region(void) {
    uint8_t *all = mmap(NULL, ROOM + 2 * PAGE, PROT_NONE, MAP_PRIVATE | MAP_ANONYMOUS, -1, 0);
    if (all == MAP_FAILED || mprotect(all + PAGE, ROOM, PROT_READ | PROT_WRITE) != 0) {
        perror("mmap");
        exit(2);
    }
    return all + PAGE;
}

/* Lets the pages of so many bytes be written, or only be read. */
static void writable(void *lent, size_t size, int yes) {
    uint8_t *page = (uint8_t *)((uintptr_t)lent / PAGE * PAGE);
    if (mprotect(page, (size_t)((uint8_t *)lent + size - page), yes ? PROT_READ | PROT_WRITE : PROT_READ) != 0) {
        perror("mprotect");
        exit(2);
    }
}

/* So many bytes at the front or at the back of a region. */
static void *flush(uint8_t *at, size_t size) { return below(2) ? at : at + ROOM - size; }

/* Puts badge v into the set of badge u in tick t of a day of n badges. */
static void put(uint64_t *words, size_t n, size_t t, size_t u, size_t v) { words[2 * (t * n + u) + v / 64] |= (uint64_t)1 << (v % 64); }

/* Words of a random day, or of none: mostly with many contacts, else with few, or in teams of from 2 to 9 that never meet. */
static void fill_words(uint64_t *words, size_t len, size_t n, size_t ticks) {
    size_t few = below(4) == 0, team = below(4) == 0 ? 2 + below(8) : 128;
    for (size_t i = 0; i < len; i++)
        words[i] = 0;
    if (n == 0 || n > 128)
        return;
    for (size_t t = 0; t < ticks && 2 * (t + 1) * n <= len; t++)
        for (size_t u = 0; u < n; u++)
            for (size_t v = u + 1; v < n; v++)
                if (u / team == v / team && (few ? below(n) == 0 : below(3) != 0)) {
                    put(words, n, t, u, v);
                    put(words, n, t, v, u);
                }
    if (len > 0 && below(4) == 0)
        words[below(len)] ^= (uint64_t)1 << below(64);
}

/* A random log, or bytes that are none; gives how many. */
static size_t fill_log(uint8_t *log, size_t n, size_t ticks) {
    size_t count = n > 1 ? below(30) : 0, size = 0;
    const uint8_t header[4] = {'B', 'H', (uint8_t)n, (uint8_t)ticks};
    memcpy(log, header, 4);
    size = 4;
    for (size_t i = 0; i < count; i++, size += 6) {
        size_t wrong = below(200) == 0, a = below(n + wrong), b = n > 1 ? (a + 1 + below(n - 1)) % n : 0;
        size_t first = below(ticks), last = first + below(ticks - first + wrong);
        const uint8_t contact[6] = {'C', 'T', (uint8_t)a, (uint8_t)b, (uint8_t)first, (uint8_t)last};
        memcpy(log + size, contact, 6);
    }
    const uint8_t end[6] = {'E', 'D', (uint8_t)count, 0, 0, 0};
    memcpy(log + size, end, 6);
    size += 6;
    if (below(4) == 0)
        log[below(size)] = (uint8_t)next();
    return below(8) == 0 ? below(size + 1) : size;
}

static size_t odd_size(size_t usual, size_t most) {
    static const size_t odd[] = {0, 97, 129, 1000, SIZE_MAX, (size_t)1 << 58};
    return below(20) == 0 ? odd[below(6)] : 1 + below(usual < most ? usual : most);
}

/* A badge or a tick of a day that has so many: mostly one that it has, sometimes the next, or one far off. */
static size_t about_below(size_t count) {
    const size_t odd[] = {count, count + 1, 255, 256, (size_t)1 << 32, SIZE_MAX};
    return count == 0 || below(10) == 0 ? odd[below(6)] : below(count);
}

/* A threshold, mostly near the lower end of its range; sometimes at its upper end, or outside. */
static size_t threshold(size_t from, size_t to) {
    const size_t odd[] = {0, from - 1, to, to + 1, SIZE_MAX};
    return below(20) == 0 ? odd[below(5)] : from + below(3);
}

static ward_set both(ward_set a, ward_set b) {
    ward_set set = {a.low & b.low, a.high & b.high};
    return set;
}

/* Badges under review: mostly many of those that a day of n has, sometimes none, and sometimes any. */
static ward_set random_review(size_t n) {
    ward_set none = {0, 0}, many = {next() | next(), next() | next()};
    return below(20) == 0 ? none : below(20) == 0 ? many : both(many, ward_all_badges(n));
}

/* A query: mostly few of the badges under review, and else few up to badge n. */
static ward_set random_query(size_t n, ward_set review) {
    ward_set few = {next() & next() & next(), next() & next() & next()};
    return both(few, below(4) == 0 ? ward_all_badges(n == SIZE_MAX ? n : n + 1) : review);
}

/* Random logs end to end, mostly of one shift, and their lengths; gives how many bytes. Sometimes a length is off by one, and perhaps another so that
 * the sum is still right. Sometimes the bytes are cut, and the last length with them: if the cut is longer, the sum of the lengths is right only by going
 * round, and a log reaches beyond the bytes. */
static size_t fill_logs(uint8_t *logs, size_t *lengths, size_t count, size_t n, size_t ticks) {
    size_t size = 0;
    for (size_t i = 0; i < count; i++)
        size += lengths[i] = fill_log(logs + size, n + (below(40) == 0), ticks + (below(40) == 0));
    if (count > 0 && below(10) == 0) {
        size_t change = below(2) ? 1 : SIZE_MAX;
        lengths[below(count)] += change;
        if (below(2))
            lengths[below(count)] -= change;
    }
    if (count > 0 && below(20) == 0) {
        size_t cut = below(size + 1);
        lengths[count - 1] -= cut;
        size -= cut;
    }
    return size;
}

/* How many words to lend where so many are needed: mostly enough, sometimes fewer, sometimes all the room. */
static size_t about(size_t needed) {
    size_t len = below(8) == 0 ? below(needed + 1) : below(20) == 0 ? ROOM / 8 : needed + below(3);
    return len < ROOM / 8 ? len : ROOM / 8;
}

/* The refusals that the header names for each call, as sets of their numbers. */
#define GIVES(number) ((uint32_t)1 << (number))
#define LOG (GIVES(WARD_TRAILING_BYTES + 1) - GIVES(WARD_CUT_SHORT))
#define CHECK (GIVES(WARD_SIZE_OUT_OF_LIMITS) | GIVES(WARD_TOO_FEW_WORDS) | GIVES(WARD_NOT_A_DAY) | GIVES(WARD_BUFFER_TOO_SHORT))
#define REVIEW (CHECK | GIVES(WARD_INVALID_REVIEW))
static const uint32_t refusals[CALLS] = {LOG | GIVES(WARD_TOO_FEW_WORDS),
                                         LOG | GIVES(WARD_TOO_FEW_WORDS) | GIVES(WARD_INVALID_RECEIVERS) | GIVES(WARD_DIFFERENT_SHIFTS),
                                         LOG | GIVES(WARD_TOO_FEW_WORDS) | GIVES(WARD_BUFFER_TOO_SHORT),
                                         CHECK | GIVES(WARD_WRITE_TOO_MANY),
                                         CHECK | GIVES(WARD_INVALID_START),
                                         REVIEW | GIVES(WARD_INVALID_SPAN),
                                         REVIEW | GIVES(WARD_THRESHOLD_OUT_OF_RANGE),
                                         REVIEW | GIVES(WARD_FOREIGN_QUERY) | GIVES(WARD_QUERY_NOT_REVIEWED) | GIVES(WARD_INVALID_PARTS)};

/* Whether the five numbers, all ones before the call, are an answer: a refusal of the call by its number and offset, or a success by its values,
 * and else 0. A report or a plan of a day of n badges has whole records. */
static int is_answer(size_t call, size_t n, const uint64_t answer[5]) {
    size_t record = 5 + ward_set_bytes(n);
    uint64_t number = answer[WARD_NUMBER], badges = answer[WARD_BADGES], ticks = answer[WARD_TICKS], count = answer[WARD_COUNT];
    if (number != WARD_SUCCESS)
        return number < 32 && refusals[call] >> number & 1 && (number <= WARD_TRAILING_BYTES || answer[WARD_OFFSET] == 0) &&
               (badges | ticks | count) == 0;
    int finds_size = call == READ || call == JOIN;
    return answer[WARD_OFFSET] == 0 && (call == JOIN ? count == 0 : count <= WARD_REPORT_BYTES) && (call != REPORT || count % record == 10) &&
           (call != PLAN || count % record == 6) && (finds_size ? badges >= 1 && badges <= 128 && ticks >= 1 && ticks <= 96 : (badges | ticks) == 0);
}

/* Whether the words from one index up to another all have a value; not where the other is smaller. */
static int all_are(uint64_t value, const uint64_t *words, size_t from, size_t to) {
    while (from < to && words[from] == value)
        from++;
    return from == to;
}

/* The regions of what is lent. */
static uint8_t *in, *lengths_at, *words_at, *work_at, *out_at, *answer_at;

/* Joins random logs, with all ones in the words and the work words. Whether it kept all words but the day's, and all work words but as many for each
 * log, and left 0 in these; a refusal has no day. */
static int join(size_t n, size_t ticks, uint64_t *answer) {
    static uint8_t logs[4096];
    size_t count = below(20) == 0 ? below(MOST_LOGS + 1) : 2 + below(3);
    size_t quorum = odd_size(count + (count == 0 || below(10) == 0), MOST_LOGS + 1);
    size_t words_len = about(2 * n * ticks), work_len = about(2 * count * n * ticks);
    size_t *lengths = flush(lengths_at, count * sizeof *lengths);
    size_t size = fill_logs(logs, lengths, count, n, ticks);
    uint64_t *words = flush(words_at, words_len * 8), *work = flush(work_at, work_len * 8);
    uint8_t *bytes = flush(in, size);
    memcpy(bytes, logs, size);
    memset(words, 255, words_len * 8);
    memset(work, 255, work_len * 8);
    writable(bytes, size, 0);
    writable(lengths, count * sizeof *lengths, 0);
    ward_join(bytes, size, lengths, count, quorum, words, words_len, work, work_len, answer);
    writable(bytes, size, 1);
    writable(lengths, count * sizeof *lengths, 1);
    size_t day = 2 * answer[WARD_BADGES] * answer[WARD_TICKS];
    return all_are(UINT64_MAX, words, day, words_len) && all_are(UINT64_MAX, work, count * day, work_len) && all_are(0, work, 0, count * day);
}

/* A call on a random log, lent words and bytes. */
static void call_on_log(size_t call, size_t n, size_t ticks, uint64_t *words, size_t words_len, uint8_t *out, size_t out_len, uint64_t *answer) {
    static uint8_t log[4096];
    size_t size = fill_log(log, n, ticks);
    uint8_t *bytes = flush(in, size);
    memcpy(bytes, log, size);
    writable(bytes, size, 0);
    if (call == READ)
        ward_read(bytes, size, words, words_len, answer);
    else
        ward_tidy(bytes, size, words, words_len, out, out_len, answer);
    writable(bytes, size, 1);
}

/* Whether a trace of 2n bytes, from an index at a start, can be one: the index has the start and no source, and every other badge either neither tick
 * nor source, or a tick from the start on, and a source in contact with it in that tick that is the index or was reached before. */
static int is_trace(const uint64_t *words, size_t n, size_t ticks, size_t index, size_t start, const uint8_t *trace) {
    for (size_t u = 0; u < n; u++) {
        size_t tick = trace[u], source = trace[n + u];
        int none = source == WARD_NONE && tick == (u == index ? start : WARD_NONE);
        int reached = u != index && start <= tick && tick < ticks && source < n && ward_has(ward_contacts(words, n, tick, u), source) &&
                      (source == index || trace[source] < tick);
        if (!none && !reached)
            return 0;
    }
    return 1;
}

/* Traces from a random badge at a random tick, mostly of the day, with one value in all bytes that are lent. Whether it was refused by 22 only where
 * the day has not both, and where it was not refused wrote a trace of 2n bytes; and kept all other bytes. */
static int trace(size_t n, size_t ticks, uint64_t *words, size_t words_len, uint8_t *out, size_t out_len, uint64_t *answer) {
    size_t index = about_below(n), start = about_below(ticks), written = 0;
    int of_the_day = index < n && start < ticks;
    memset(out, 0x5a, out_len);
    fill_words(words, words_len, n, ticks);
    writable(words, words_len * 8, 0);
    ward_trace(words, words_len, n, ticks, index, start, out, out_len, answer);
    writable(words, words_len * 8, 1);
    if (answer[WARD_NUMBER] == WARD_INVALID_START && of_the_day)
        return 0;
    if (answer[WARD_NUMBER] == WARD_SUCCESS) {
        written = answer[WARD_COUNT];
        if (!of_the_day || written != 2 * n || written > out_len || !is_trace(words, n, ticks, index, start, out))
            return 0;
    }
    while (written < out_len && out[written] == 0x5a)
        written++;
    return written == out_len;
}

/* A call on the words of a random day, or of none, lent bytes. */
static void call_on_words(size_t call, size_t n, size_t ticks, uint64_t *words, size_t words_len, uint8_t *out, size_t out_len, uint64_t *answer) {
    ward_set review = random_review(n), query = random_query(n, review);
    fill_words(words, words_len, n, ticks);
    writable(words, words_len * 8, 0);
    if (call == WRITE)
        ward_write(words, words_len, n, ticks, out, out_len, answer);
    else if (call == CORE_NUMBERS)
        ward_core_numbers(words, words_len, n, ticks, review.low, review.high, below(ticks % 99 + 1), below(ticks % 99 + 1), out, out_len, answer);
    else if (call == REPORT)
        ward_report(words, words_len, n, ticks, review.low, review.high, threshold(1, 96), threshold(1, 127), threshold(2, 128), out, out_len,
                    answer);
    else
        ward_plan(words, words_len, n, ticks, review.low, review.high, query.low, query.high, below(9), out, out_len, answer);
    writable(words, words_len * 8, 1);
}

int main(int argc, char **argv) {
    size_t calls = argc > 1 ? strtoul(argv[1], NULL, 10) : 1000;
    size_t succeeded[CALLS] = {0}, refused[CALLS] = {0};
    in = region();
    lengths_at = region();
    words_at = region();
    work_at = region();
    out_at = region();
    answer_at = region();
    for (size_t i = 0; i < calls; i++) {
        /* mostly small days; some about as many badges as one word holds, or two words, in few ticks; and some of any size */
        size_t call = below(CALLS), wide = below(50) == 0, large = below(4000) == 0;
        size_t n = large ? odd_size(128, 128) : wide ? (below(2) ? 60 : 120) + below(10) : odd_size(8, 8);
        size_t ticks = large ? odd_size(96, 96) : wide ? 1 + below(3) : odd_size(8, 8);
        size_t words_len = large ? ROOM / 8 : wide ? below(800) : below(160), out_len = below(4) == 0 ? below(40) : large || wide ? ROOM : below(600);
        uint64_t *answer = flush(answer_at, 40), *words = flush(words_at, words_len * 8);
        uint8_t *out = flush(out_at, out_len);
        int kept = 1;
        memset(answer, 255, 40);
        if (call == JOIN)
            kept = join(1 + n % 130, 1 + ticks % 98, answer);
        else if (call == TRACE)
            kept = trace(n, ticks, words, words_len, out, out_len, answer);
        else if (call == READ || call == TIDY)
            call_on_log(call, 1 + n % 130, 1 + ticks % 98, words, words_len, out, out_len, answer);
        else
            call_on_words(call, n, ticks, words, words_len, out, out_len, answer);
        if (!kept || !is_answer(call, n, answer)) {
            printf("call %zu, %s: not what the header says\n", i, names[call]);
            return 1;
        }
        if (answer[WARD_NUMBER] == WARD_SUCCESS)
            succeeded[call]++;
        else
            refused[call]++;
    }
    for (size_t call = 0; call < CALLS; call++)
        printf("%s: %zu succeeded, %zu refused\n", names[call], succeeded[call], refused[call]);
    return 0;
}
