/* One call of the library and of the second library: random.c's lower half. The arguments stand in `now`; each buffer is copied for both
 * sides, against an inaccessible page by its end or by its beginning in turn, perhaps after something was spoilt; then the outcomes are held
 * against each other, and against what the header promises of every answer and refusal. */
#define _GNU_SOURCE
#include "dushvaneth.h"
#include <inttypes.h>
#include <signal.h>
#include <stdbool.h>
#include <stdio.h>
#include <stdlib.h>
#include <string.h>
#include <sys/mman.h>
#include <unistd.h>

#define FUNCTIONS(X)                                                                                                              \
    X(load) X(wide_pulse) X(cells_pulse) X(explain) X(scan) X(network) X(show) X(answer) X(round) X(start) X(step) X(total)        \
    X(write) X(read) X(array_wide) X(array_cells)
#define SECOND(name) extern __typeof__(dushvaneth_##name) second_##name;
FUNCTIONS(SECOND)
#define PLACE(name) at_##name,
enum { FUNCTIONS(PLACE) functions };

#ifdef FAULTS
#include "faults.c"
#define TRIED(name) faulty_##name
#elif !defined TRIED
#define TRIED(name) dushvaneth_##name
#endif

/* What one function is held against another by: with no fault in it, which that function's own calls are to find. */
#ifdef FAULTS
#define FAULTLESS(name) dushvaneth_##name
#else
#define FAULTLESS(name) TRIED(name)
#endif

/* What may be returned, from the header's comments: bit k for number k. */
static const struct {
    const char *name;
    unsigned numbers;
} told[functions] = {
#include "pairs.h"
};
/* How many numbers each answer has. */
static const size_t answers[functions] = {0, DUSHVANETH_PULSE_ANSWER, DUSHVANETH_PULSE_ANSWER, DUSHVANETH_EXPLAINED_ANSWER,
    DUSHVANETH_RESOLVED_ANSWER, DUSHVANETH_RESOLVED_ANSWER, DUSHVANETH_RESOLVED_ANSWER, DUSHVANETH_REPLY_ANSWER, DUSHVANETH_ROUND_ANSWER,
    DUSHVANETH_START_ANSWER, DUSHVANETH_STEP_ANSWER, DUSHVANETH_TOTAL_ANSWER, DUSHVANETH_IMAGE_WRITE_ANSWER, DUSHVANETH_IMAGE_READ_ANSWER,
    DUSHVANETH_ARRAY_ANSWER, DUSHVANETH_ARRAY_ANSWER};

enum { CALLS = 40, LEAST = 5, MOST = 1100, REGION = 16384, BUFFERS = 5 };

/* The status of a run that found a difference; a sanitizer's own is another. */
enum { FOUND = 3 };

/* One more than the greatest number that is returned. */
enum { NUMBERS = DUSHVANETH_REFUSED_WRONG_JOB + 1 };

static unsigned long counts[functions][NUMBERS];
static unsigned long seed;
static int call;
static bool loud;

/* ---- chance */

static uint64_t state;

static uint64_t any(void)
{
    state ^= state << 13;
    state ^= state >> 7;
    state ^= state << 17;
    return state * 0x2545F4914F6CDD1Du;
}

static uint64_t below(uint64_t n) { return (any() >> 11) % n; }
static bool once_in(unsigned n) { return below(n) == 0; }
static uint8_t few_bits(void) { return (uint8_t)(any() & any() & any()); }
static uint64_t ones(uint64_t width) { return width == 0 ? 0 : UINT64_MAX >> (64 - width); }

/* ---- a call: its buffers in the order of the arguments, the answer last, and its other arguments */

struct lent {
    size_t unit, length;
    void *home; /* where an accepted call's outcome goes, if anywhere */
    bool none;  /* a null pointer where the length is 0 */
    bool by_end;
    uint8_t bytes[REGION];
};
static struct {
    int which, buffers, numbers;
    struct lent lent[BUFFERS];
    uint64_t number[5];
    bool spoilt;  /* something isn't the host's own, so that no outcome goes home */
    bool no_room; /* the answer's buffer is to be too short */
    uint32_t returned;
} now;

static void lend(size_t unit, const void *from, size_t length, void *home)
{
    struct lent *b = &now.lent[now.buffers++];
    b->unit = unit;
    b->length = length;
    b->home = home;
    if (length > 0) {
        memcpy(b->bytes, from, unit * length);
    }
}

static void give(uint64_t number) { now.number[now.numbers++] = number; }

/* ---- both sides' regions, each between two inaccessible pages */

static uint8_t *regions[2][BUFFERS];

static void map_regions(void)
{
    size_t page = (size_t)sysconf(_SC_PAGESIZE);
    for (int i = 0; i < 2 * BUFFERS; i++) {
        uint8_t *m = mmap(NULL, REGION + 2 * page, PROT_NONE, MAP_PRIVATE | MAP_ANONYMOUS, -1, 0);
        if (m == MAP_FAILED || mprotect(m + page, REGION, PROT_READ | PROT_WRITE) != 0) {
            perror("mmap");
            exit(2);
        }
        regions[i % 2][i / 2] = m + page;
    }
}

static void *at(int side, int k)
{
    struct lent *b = &now.lent[k];
    if (b->none && b->length == 0) {
        return NULL;
    }
    return regions[side][k] + (b->by_end ? REGION - b->unit * b->length : 0);
}

static uint32_t answer_of(int side)
{
#define B(k) at(side, k), now.lent[k].length
#define N(k) now.number[k]
#define ON(name, ...) case at_##name: return side == 0 ? TRIED(name)(__VA_ARGS__) : second_##name(__VA_ARGS__)
    switch (now.which) {
        ON(load, B(0), N(0), N(1));
        ON(wide_pulse, B(0), B(1), N(0), B(2), N(1), B(3));
        ON(cells_pulse, B(0), B(1), N(0), B(2), N(1), B(3));
        ON(explain, B(0), B(1), N(0), B(2), N(1), B(3));
        ON(scan, B(0), B(1), N(0), N(1), N(2), B(2));
        ON(network, B(0), B(1), N(0), N(1), N(2), B(2));
        ON(show, B(0), B(1), N(0), N(1), B(2));
        ON(answer, B(0), B(1), N(0), N(1), N(2), N(3), N(4), B(2));
        ON(round, B(0), B(1), N(0), N(1), N(2), B(2), B(3));
        ON(start, B(0), B(1), N(0), B(2), B(3), B(4));
        ON(step, B(0), B(1), N(0), B(2), B(3));
        ON(total, B(0), B(1), N(0), B(2), B(3));
        ON(write, B(0), B(1), N(0), B(2), B(3), B(4));
        ON(read, B(0), B(1), B(2), B(3), B(4));
        ON(array_wide, B(0), B(1), B(2), B(3), N(0), N(1), B(4));
        ON(array_cells, B(0), B(1), B(2), B(3), N(0), N(1), B(4));
    }
    return UINT32_MAX;
}

/* ---- what must hold of both outcomes */

static void wrong(const char *what, long a, long b)
{
    printf("seed %lu, call %d, %s: %s %ld, %ld\n", seed, call, told[now.which].name, what, a, b);
    exit(FOUND);
}

/* Something was touched outside a lent buffer. */
static void outside(int signal)
{
    char line[100];
    int n = snprintf(line, sizeof line, "seed %lu, call %d, %s: touched memory that was not lent\n", seed, call,
                     told[now.which].name);
    (void)signal;
    if (write(1, line, (size_t)n) < 0) {
        _exit(2);
    }
    _exit(FOUND);
}

/* What a refusal may also answer: 3 a word, 9 a place, 20 and 21 always a syllable, 22 one that P overlaps, all others nothing. */
static bool may_answer(uint32_t r, uint64_t also)
{
    switch (r) {
    case DUSHVANETH_REFUSED_WORD_TOO_WIDE:
    case DUSHVANETH_REFUSED_MALFORMED: return true;
    case DUSHVANETH_REFUSED_EMPTY_SYLLABLE:
    case DUSHVANETH_REFUSED_BEYOND_WORD: return also >= DUSHVANETH_SYLLABLE_A && also <= DUSHVANETH_SYLLABLE_P;
    case DUSHVANETH_REFUSED_OVERLAP: return also == DUSHVANETH_SYLLABLE_A || also == DUSHVANETH_SYLLABLE_B;
    default: return also == 0;
    }
}

/* The header's words on the answer: the number returned, then all 0 on a refusal; too short, it stays. */
static void hold_answer(uint32_t r, const struct lent *b, const uint64_t *answer)
{
    size_t size = answers[now.which];
    if (size == 0) {
        return;
    }
    if (b->length < size) {
        if (r == 0 || (b->length > 0 && memcmp(answer, b->bytes, 8 * b->length) != 0)) {
            wrong("a short answer; returned, length", (long)r, (long)b->length);
        }
        return;
    }
    if (answer[DUSHVANETH_REFUSAL] != r || !may_answer(r, answer[DUSHVANETH_ALSO])) {
        wrong("the answer's head; returned, told", (long)r, (long)answer[DUSHVANETH_REFUSAL]);
    }
    for (size_t i = 2; i < b->length; i++) {
        uint64_t before;
        memcpy(&before, b->bytes + 8 * i, 8);
        if (i < size ? r != 0 && answer[i] != 0 : answer[i] != before) {
            wrong("the answer's values; returned, place", (long)r, (long)i);
        }
    }
}

/* What is held of an explanation besides: explains.h. */
static void hold_explanation(void);

static void hold(uint32_t r, uint32_t second)
{
    if (r != second) {
        wrong("returned, second's", (long)r, (long)second);
    }
    if (r >= NUMBERS || (told[now.which].numbers >> r & 1) == 0) {
        wrong("the header doesn't name what was returned; number, numbers named", (long)r, (long)told[now.which].numbers);
    }
    counts[now.which][r]++;
    int last = now.buffers - 1;
    for (int k = 0; k <= last; k++) {
        struct lent *b = &now.lent[k];
        const uint8_t *here = at(0, k), *there = at(1, k);
        if (b->length == 0) {
            continue;
        }
        if (memcmp(here, there, b->unit * b->length) != 0) {
            wrong("differs from second's; returned, buffer", (long)r, k);
        }
        if (r != 0 && (k < last || answers[now.which] == 0) && memcmp(here, b->bytes, b->unit * b->length) != 0) {
            wrong("a refusal changed what was lent; returned, buffer", (long)r, k);
        }
    }
    hold_answer(r, &now.lent[last], at(0, last));
    if (now.which == at_explain) {
        hold_explanation();
    }
}

/* ---- hostile arguments */

static uint64_t hostile(uint64_t was)
{
    switch (below(9)) {
    case 0: return 0;
    case 1: return was + 1;
    case 2: return was + 256;
    case 3: return was + (UINT64_C(1) << 32);
    case 4: return UINT64_MAX - below(2);
    case 5: return 7 + below(3);
    case 6: return 63 + below(3);
    case 7: return was ^ UINT64_C(1) << below(64);
    default: return any();
    }
}

static void resize(struct lent *b, size_t length)
{
    size_t most = b->unit == 8 ? MOST : REGION;
    length = length < most ? length : most;
    for (size_t i = b->length * b->unit; i < length * b->unit; i++) {
        b->bytes[i] = once_in(4) ? (uint8_t)any() : 0;
    }
    b->length = length;
}

static void spoil(void)
{
    struct lent *b = &now.lent[below((uint64_t)now.buffers)];
    struct lent *last = &now.lent[now.buffers - 1];
    switch (below(8)) {
    case 0:
    case 1: { /* a length */
        size_t few = below(30), many = below(MOST);
        resize(b, (size_t[]){0, b->length + 1, b->length - (b->length > 0), few, many}[below(5)]);
        break;
    }
    case 2: { /* the lengths of words and responses, or of planes and selectors, alike */
        int alike = now.which >= at_array_wide ? 3 : now.which == at_load || now.which == at_read ? 0 : 2;
        size_t n = (size_t[]){0, 1025, MOST}[below(3)];
        for (int k = 0; k < alike; k++) {
            resize(&now.lent[k], n);
        }
        break;
    }
    case 3: /* another argument */
        if (now.numbers > 0) {
            uint64_t *number = &now.number[below((uint64_t)now.numbers)];
            *number = hostile(*number);
        }
        break;
    case 4: /* the first of them, mostly the width */
        now.number[0] = hostile(now.number[0]);
        break;
    case 5: /* the answer's length */
        resize(last, below(answers[now.which] + 1));
        break;
    default: /* a bit */
        if (b->length > 0) {
            b->bytes[below(b->unit * b->length)] ^= (uint8_t)(1u << below(8));
        }
    }
}

/* Makes the call on both sides; whether an accepted outcome went home. */
static bool made(bool sound)
{
    static uint64_t blank[32];
    if (answers[now.which] > 0) {
        for (size_t i = 0; i < 32; i++) {
            blank[i] = any();
        }
        lend(8, blank, now.no_room ? below(answers[now.which]) : answers[now.which] + below(3), NULL);
    }
    for (uint64_t times = !sound && once_in(3) ? 1 + below(2) : 0; times > 0; times--) {
        spoil();
        now.spoilt = true;
    }
    for (int k = 0; k < now.buffers; k++) {
        struct lent *b = &now.lent[k];
        b->none = once_in(2);
        b->by_end = (call + k) % 2 == 1;
        for (int side = 0; side < 2 && b->length > 0; side++) {
            memcpy(at(side, k), b->bytes, b->unit * b->length);
        }
    }
    uint32_t r = now.returned = answer_of(0);
    if (loud) {
        printf("%d: %s", call, told[now.which].name);
        for (int k = 0; k < now.buffers; k++) {
            printf(" [%zu]", now.lent[k].length);
        }
        for (int k = 0; k < now.numbers; k++) {
            printf(" %" PRIu64, now.number[k]);
        }
        printf(" returned %u\n", r);
    }
    hold(r, answer_of(1));
    call++;
    for (int k = 0; k < now.buffers && r == 0 && !now.spoilt; k++) {
        if (now.lent[k].home != NULL && now.lent[k].length > 0) {
            memcpy(now.lent[k].home, at(0, k), now.lent[k].unit * now.lent[k].length);
        }
    }
    return r == 0 && !now.spoilt;
}

static uint64_t answered(int place)
{
    return ((uint64_t *)at(0, now.buffers - 1))[place];
}
