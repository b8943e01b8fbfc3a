/* Measures the stack that each call through the C interface uses. Makes it on a stack of its own, painted with a pattern, above a page that cannot be
 * touched, on days and logs of the largest size, and looks for the deepest byte that changed. Prints the most that each call used, in KB of 1,024
 * bytes. Its status is 1 where that is more than ward.h says, or where a call was never measured to its end. */
#define _DEFAULT_SOURCE
#include <stdio.h>
#include <stdlib.h>
#include <string.h>
#include <sys/mman.h>
#include <ucontext.h>

#include "ward.h"

enum { PAGE = 4096, STACK = 1 << 20, N = 128, TICKS = 96, RECORDS = 8000, LOGS = 4 };
enum { READ, JOIN, TIDY, WRITE, TRACE, CORE_NUMBERS, REPORT, PLAN, CALLS };

static const char *const names[CALLS] = {"ward_read",  "ward_join",         "ward_tidy",   "ward_write",
                                         "ward_trace", "ward_core_numbers", "ward_report", "ward_plan"};
/* The KB that ward.h says of each. */
static const size_t stated[CALLS] = {1, 1, 50, 50, 3, 7, 97, 31};

/* What the next call takes, and what the calls fill. */
static int call;
static uint64_t words[WARD_WORDS];
static ward_set review, query;
static uint8_t log_bytes[WARD_LOG_BYTES], logs[LOGS * WARD_LOG_BYTES];
static size_t log_size, logs_size, lengths[LOGS], quorum, badge, start, last, parts, least_ticks;
static uint64_t work[WARD_WORDS], join_work[WARD_JOIN_WORK_WORDS], answer[5];
static uint8_t out[WARD_REPORT_BYTES];

static uint8_t *stack;
static ucontext_t here, there;
static size_t most[CALLS], succeeded[CALLS];

static void make_call(void) {
    if (call == READ)
        ward_read(log_bytes, log_size, work, WARD_WORDS, answer);
    else if (call == JOIN)
        ward_join(logs, logs_size, lengths, LOGS, quorum, work, WARD_WORDS, join_work, WARD_JOIN_WORK_WORDS, answer);
    else if (call == TIDY)
        ward_tidy(log_bytes, log_size, work, WARD_WORDS, out, sizeof out, answer);
    else if (call == WRITE)
        ward_write(words, WARD_WORDS, N, TICKS, out, sizeof out, answer);
    else if (call == TRACE)
        ward_trace(words, WARD_WORDS, N, TICKS, badge, start, out, sizeof out, answer);
    else if (call == CORE_NUMBERS)
        ward_core_numbers(words, WARD_WORDS, N, TICKS, review.low, review.high, 0, last, out, sizeof out, answer);
    else if (call == REPORT)
        ward_report(words, WARD_WORDS, N, TICKS, review.low, review.high, least_ticks, 1, 2, out, sizeof out, answer);
    else
        ward_plan(words, WARD_WORDS, N, TICKS, review.low, review.high, query.low, query.high, parts, out, sizeof out, answer);
}

/* How deep the call goes, by bytes that are not the pattern after it. */
static size_t depth(uint8_t pattern) {
    size_t at = 0;
    memset(stack, pattern, STACK);
    getcontext(&there);
    there.uc_stack.ss_sp = stack;
    there.uc_stack.ss_size = STACK;
    there.uc_link = &here;
    makecontext(&there, make_call, 0);
    swapcontext(&here, &there);
    while (at < STACK && stack[at] == pattern)
        at++;
    return STACK - at;
}

/* Two patterns, since a call may write the bytes of one. */
static void measure(int which) {
    call = which;
    size_t a = depth(0xa5), b = depth(0x5a), deepest = a > b ? a : b;
    if (deepest > most[call])
        most[call] = deepest;
    succeeded[call] += answer[WARD_NUMBER] == WARD_SUCCESS;
}

static uint64_t state = 88172645463325252u;

static size_t below(size_t bound) {
    state ^= state << 13;
    state ^= state >> 7;
    state ^= state << 17;
    return ((state * 0x2545f4914f6cdd1du) >> 33) % bound;
}

/* Each pair in each tick with a probability of so many in 100, keeping its state with a probability of so many in 100. */
static void fill_words(size_t density, size_t keep) {
    memset(words, 0, sizeof words);
    for (size_t u = 0; u < N; u++)
        for (size_t v = u + 1; v < N; v++)
            for (size_t t = 0, met = 0; t < TICKS; t++) {
                if (t == 0 || below(100) >= keep)
                    met = below(100) < density;
                words[2 * (t * N + u) + v / 64] |= (uint64_t)met << (v % 64);
                words[2 * (t * N + v) + u / 64] |= (uint64_t)met << (u % 64);
            }
}

/* A log of as many contact records as there may be, each a run of its own, from a tick on: of each badge with the 16 after it; gives how many bytes.
 * */
static size_t fill_log(uint8_t *log, size_t tick) {
    static const uint8_t header[4] = {'B', 'H', N, TICKS}, end[6] = {'E', 'D', RECORDS & 255, RECORDS >> 8, 0, 0};
    uint8_t *at = log;
    memcpy(at, header, 4);
    at += 4;
    for (size_t count = 0; count < RECORDS; tick += 2)
        for (size_t u = 0; u < N; u++)
            for (size_t v = u + 1; v < N && v <= u + 16 && count < RECORDS; v++, count++, at += 6) {
                const uint8_t contact[6] = {'C', 'T', (uint8_t)v, (uint8_t)u, (uint8_t)tick, (uint8_t)tick};
                memcpy(at, contact, 6);
            }
    memcpy(at, end, 6);
    return (size_t)(at + 6 - log);
}

/* Such logs end to end, with runs that one of them has, two, three, and all. */
static void fill_logs(void) {
    for (size_t i = 0; i < LOGS; i++)
        logs_size += lengths[i] = fill_log(logs + logs_size, 2 * i);
}

/* The calls that take badges under review, with these. */
static void measure_review(ward_set badges) {
    static const size_t many[] = {1, 2, 8, 48, TICKS};
    const ward_set queries[] = {{0, 0}, {3, 0}, badges};
    review = badges;
    for (size_t i = 0; i < 5; i++) {
        least_ticks = many[i];
        measure(REPORT);
        last = many[i] - 1;
        measure(CORE_NUMBERS);
        for (size_t q = 0; q < 3; q++) {
            parts = many[i];
            query = queries[q];
            measure(PLAN);
        }
    }
}

/* The trace from the first badge and from the last, at the first tick, in the middle and at the last. */
static void measure_traces(void) {
    static const size_t starts[] = {0, TICKS / 2, TICKS - 1};
    for (size_t i = 0; i < 3; i++) {
        start = starts[i];
        badge = 0;
        measure(TRACE);
        badge = N - 1;
        measure(TRACE);
    }
}

/* The calls on words, with all badges under review, with half of them and with a quarter. */
static void measure_words(void) {
    measure(WRITE);
    measure_traces();
    measure_review(ward_all_badges(N));
    measure_review(ward_all_badges(N / 2));
    measure_review(ward_all_badges(N / 4));
}

int main(void) {
    static const size_t days[][2] = {{100, 0}, {50, 0}, {90, 80}, {5, 80}, {1, 0}, {0, 0}};
    int wrong = 0;
    uint8_t *all = mmap(NULL, STACK + PAGE, PROT_READ | PROT_WRITE, MAP_PRIVATE | MAP_ANONYMOUS, -1, 0);
    if (all == MAP_FAILED || mprotect(all, PAGE, PROT_NONE) != 0) {
        perror("mmap");
        return 2;
    }
    stack = all + PAGE;

    fill_logs();
    for (quorum = 1; quorum <= LOGS; quorum++)
        measure(JOIN);
    log_size = fill_log(log_bytes, 0);
    measure(READ);
    measure(TIDY);
    memcpy(words, work, sizeof words);
    measure_words();
    for (size_t i = 0; i < sizeof days / sizeof *days; i++) {
        fill_words(days[i][0], days[i][1]);
        measure_words();
        ward_write(words, WARD_WORDS, N, TICKS, log_bytes, sizeof log_bytes, answer);
        if (answer[WARD_NUMBER] == WARD_SUCCESS) {
            log_size = answer[WARD_COUNT];
            measure(READ);
            measure(TIDY);
        }
    }
    for (int which = 0; which < CALLS; which++) {
        printf("%s: %.1f KB\n", names[which], (double)most[which] / 1024);
        wrong |= most[which] > stated[which] << 10 || succeeded[which] == 0;
    }
    return wrong;
}
