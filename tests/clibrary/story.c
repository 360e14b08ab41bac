/* A host's whole story on the header alone: households are loaded and searched, staff ask why one was not picked, jobs run with a stop and a
 * resume from the image at each pulse, and a round hands the due ones out, with a faulty one and a stop at each place. What must come out was
 * worked out by hand from document 01 and requests c, d and e of document 02. The last line is 'N passed, M failed'. */
#include <dushvaneth.h>
#include <stdio.h>
#include <string.h>

/* A household has 16 bits: points (15 to 12), visits (11 to 8), the day it is due (7 to 0). Response bits: 0 due, 1 faulty, 2 and 3
 * the jobs' working bits Y and X. */
enum { HOUSEHOLDS = 6, WIDTH = 16, DUE = 0, FAULTY = 1, Y = 2, X = 3 };

static uint64_t words[HOUSEHOLDS];
static dushvaneth_response responses[HOUSEHOLDS];
static uint8_t job[DUSHVANETH_RECORD];
static size_t held; /* the record's length, 0 while no job is held */
static uint8_t image[DUSHVANETH_IMAGE(HOUSEHOLDS, 1)];
static size_t image_length;
static uint64_t answer[DUSHVANETH_STEP_ANSWER];
static int passed, failed;

#define MACHINE words, HOUSEHOLDS, responses, HOUSEHOLDS, WIDTH
#define ANSWER answer, sizeof answer / sizeof *answer

static void check(int line, const char *what, uint64_t is, uint64_t should)
{
    if (is == should) {
        passed++;
    } else {
        failed++;
        printf("line %d: %s is %lu, not %lu\n", line, what, (unsigned long)is, (unsigned long)should);
    }
}
#define CHECK(is, should) check(__LINE__, #is, (uint64_t)(is), (uint64_t)(should))

static void check_machine(int line, const uint64_t *should, const dushvaneth_response *bits)
{
    int i;
    for (i = 0; i < HOUSEHOLDS; i++) {
        check(line, "a word", words[i], should[i]);
        check(line, "a response", responses[i], bits[i]);
    }
}

/* ---- a stop, and what a host does before and after it */

static void store(void)
{
    CHECK(dushvaneth_write(MACHINE, job, held, image, sizeof image, ANSWER), DUSHVANETH_ACCEPTED);
    image_length = (size_t)answer[DUSHVANETH_IMAGE_SIZE];
    CHECK(image_length, DUSHVANETH_IMAGE(HOUSEHOLDS, held > 0));
    CHECK(dushvaneth_image_words(image, image_length), HOUSEHOLDS);
}

static void stop_and_resume(void)
{
    memset(words, 0xA5, sizeof words);
    memset(responses, 0xA5, sizeof responses);
    memset(job, 0xA5, sizeof job);
    CHECK(dushvaneth_read(image, image_length, words, HOUSEHOLDS, responses, HOUSEHOLDS, job, sizeof job, ANSWER), DUSHVANETH_ACCEPTED);
    CHECK(answer[DUSHVANETH_IMAGE_WIDTH], WIDTH);
    CHECK(answer[DUSHVANETH_IMAGE_WORDS], HOUSEHOLDS);
    held = dushvaneth_record_length(answer[DUSHVANETH_IMAGE_HELD]);
}

/* ---- load and search: who is due at or before day 12 */

static void search(void)
{
    static const uint64_t all[HOUSEHOLDS] = {0x120A, 0x0314, 0x510C, 0x271E, 0x300C, 0x9605};
    static const dushvaneth_response due[HOUSEHOLDS] = {1, 0, 1, 0, 1, 1};
    uint64_t panel[DUSHVANETH_PANEL];
    memcpy(words, all, sizeof words);
    memset(responses, 0, sizeof responses);
    dushvaneth_blank(panel);
    CHECK(dushvaneth_load(panel, DUSHVANETH_PANEL, DUSHVANETH_COMP, 13), 0);
    CHECK(dushvaneth_load(panel, DUSHVANETH_PANEL, DUSHVANETH_SDR, 0x80), 0);
    CHECK(dushvaneth_load(panel, DUSHVANETH_PANEL, DUSHVANETH_SC1, 0xFF), 0);
    CHECK(dushvaneth_load(panel, DUSHVANETH_PANEL, DUSHVANETH_SC2, 0xFF), 0);
    CHECK(dushvaneth_load(panel, DUSHVANETH_PANEL, DUSHVANETH_TARGET, 1 << DUE), 0);
    CHECK(dushvaneth_load(panel, DUSHVANETH_PANEL, DUSHVANETH_TARGET, 256), DUSHVANETH_REFUSED_PANEL_TOO_WIDE);
    CHECK(dushvaneth_wide_pulse(MACHINE, panel, DUSHVANETH_PANEL, DUSHVANETH_SEARCH, ANSWER), 0);
    CHECK(answer[DUSHVANETH_PULSE_COUNT], 4);
    CHECK(answer[DUSHVANETH_PULSE_READ], 0);
    check_machine(__LINE__, all, due);
    CHECK(dushvaneth_cells_pulse(MACHINE, panel, DUSHVANETH_PANEL, DUSHVANETH_SEARCH | DUSHVANETH_READ, ANSWER), 0);
    CHECK(answer[DUSHVANETH_PULSE_COUNT], 4);
    CHECK(answer[DUSHVANETH_PULSE_READ], 0x120A);
    check_machine(__LINE__, all, due);
    words[4] |= 0x10000;
    CHECK(dushvaneth_wide_pulse(MACHINE, panel, DUSHVANETH_PANEL, DUSHVANETH_SEARCH, ANSWER), DUSHVANETH_REFUSED_WORD_TOO_WIDE);
    CHECK(answer[DUSHVANETH_ALSO], 4);
    words[4] = all[4];
}

/* The same asked by the header's helper, and points above 1 beside it. */
static void ask(void)
{
    uint64_t panel[DUSHVANETH_PANEL];
    dushvaneth_blank(panel);
    dushvaneth_ask(panel, 0, 8, DUSHVANETH_SMALLER, 13);
    dushvaneth_ask(panel, 12, 4, DUSHVANETH_LARGER, 1);
    dushvaneth_ask(panel, 60, 5, DUSHVANETH_EXACT, 0);
    CHECK(panel[DUSHVANETH_COMP], 0x100D);
    CHECK(panel[DUSHVANETH_SDR], 0x8880);
    CHECK(panel[DUSHVANETH_SC1], 0xF0FF);
    CHECK(panel[DUSHVANETH_SC2], 0x00FF);
    CHECK(dushvaneth_wide_pulse(MACHINE, panel, DUSHVANETH_PANEL, DUSHVANETH_SEARCH, ANSWER), 0);
    CHECK(answer[DUSHVANETH_PULSE_COUNT], 3);
    dushvaneth_ask(panel, 0, 64, DUSHVANETH_EXACT, 7);
    CHECK(panel[DUSHVANETH_COMP], 7);
    CHECK(panel[DUSHVANETH_SDR], UINT64_C(0x8000000000008880));
    CHECK(panel[DUSHVANETH_SC1], 0);
    CHECK(panel[DUSHVANETH_SC2], UINT64_C(0xFFFFFFFFFFFFFFFF));
}

/* At most day 12 marks those that before day 13 did: the days are 10, 20, 12, 30, 12 and 5. Of them the households 2, 4 and 5 have at least
 * 3 points, with 5, 3 and 9, and 2 and 5 more than 3. */
static void ask_with_equal(void)
{
    uint64_t panel[DUSHVANETH_PANEL], all[HOUSEHOLDS];
    dushvaneth_response due[HOUSEHOLDS];
    memcpy(all, words, sizeof all);
    memcpy(due, responses, sizeof due);
    memset(responses, 0, sizeof responses);
    dushvaneth_blank(panel);
    dushvaneth_ask(panel, 0, 8, DUSHVANETH_AT_MOST, 12);
    CHECK(dushvaneth_load(panel, DUSHVANETH_PANEL, DUSHVANETH_TARGET, 1 << DUE), 0);
    CHECK(dushvaneth_wide_pulse(MACHINE, panel, DUSHVANETH_PANEL, DUSHVANETH_SEARCH, ANSWER), 0);
    CHECK(answer[DUSHVANETH_PULSE_COUNT], 4);
    check_machine(__LINE__, all, due);
    panel[DUSHVANETH_TARGET] = 0;
    dushvaneth_ask(panel, 12, 4, DUSHVANETH_AT_LEAST, 3);
    CHECK(panel[DUSHVANETH_SC1], 0xF0FF);
    CHECK(panel[DUSHVANETH_SC2], 0x00FF);
    CHECK(panel[DUSHVANETH_SC3], 0xF0FF);
    CHECK(dushvaneth_cells_pulse(MACHINE, panel, DUSHVANETH_PANEL, DUSHVANETH_SEARCH, ANSWER), 0);
    CHECK(answer[DUSHVANETH_PULSE_COUNT], 3);
    dushvaneth_ask(panel, 12, 4, DUSHVANETH_LARGER, 3);
    CHECK(panel[DUSHVANETH_SC3], 0x00FF);
    CHECK(dushvaneth_wide_pulse(MACHINE, panel, DUSHVANETH_PANEL, DUSHVANETH_SEARCH, ANSWER), 0);
    CHECK(answer[DUSHVANETH_PULSE_COUNT], 2);
    CHECK(dushvaneth_load(panel, DUSHVANETH_PANEL, DUSHVANETH_SC3, 0x007F), 0);
    CHECK(dushvaneth_wide_pulse(MACHINE, panel, DUSHVANETH_PANEL, DUSHVANETH_SEARCH, ANSWER), DUSHVANETH_REFUSED_TWO_CODES);
    CHECK(dushvaneth_load(panel, DUSHVANETH_PANEL, DUSHVANETH_SC3, 0x10000), 0);
    CHECK(dushvaneth_wide_pulse(MACHINE, panel, DUSHVANETH_PANEL, DUSHVANETH_READ, ANSWER), DUSHVANETH_REFUSED_PANEL_TOO_WIDE);
    check_machine(__LINE__, all, due);
}

/* ---- why a household was not picked */

static void check_why(int line, const uint64_t *panel, size_t household, uint64_t reason, uint64_t syllable, uint64_t bit)
{
    check(line, "the number", dushvaneth_explain(MACHINE, panel, DUSHVANETH_PANEL, household, ANSWER), DUSHVANETH_ACCEPTED);
    check(line, "the reason", answer[DUSHVANETH_EXPLAINED_REASON], reason);
    check(line, "the syllable", answer[DUSHVANETH_EXPLAINED_SYLLABLE], syllable);
    check(line, "the bit", answer[DUSHVANETH_EXPLAINED_BIT], bit);
}
#define WHY(household, reason, syllable, bit) check_why(__LINE__, panel, household, DUSHVANETH_##reason, syllable, bit)

/* What is asked under a panel that a search would be refused with, of a household that there isn't, or with too little room. */
static void ask_in_vain(uint64_t panel[DUSHVANETH_PANEL])
{
    uint64_t kept = panel[DUSHVANETH_SC3], short_answer[DUSHVANETH_EXPLAINED_ANSWER - 1] = {9, 9, 9, 9};
    int i;
    CHECK(dushvaneth_explain(MACHINE, panel, DUSHVANETH_PANEL, HOUSEHOLDS, ANSWER), DUSHVANETH_REFUSED_NO_SUCH_WORD);
    CHECK(answer[DUSHVANETH_REFUSAL], DUSHVANETH_REFUSED_NO_SUCH_WORD);
    CHECK(answer[DUSHVANETH_EXPLAINED_REASON], 0);
    CHECK(dushvaneth_explain(MACHINE, panel, DUSHVANETH_PANEL, 0, short_answer, 4), DUSHVANETH_REFUSED_NO_ROOM);
    for (i = 0; i < 4; i++) {
        CHECK(short_answer[i], 9);
    }
    panel[DUSHVANETH_SC3] = 0x0100; /* one of the four bits of visits alone */
    CHECK(dushvaneth_explain(MACHINE, panel, DUSHVANETH_PANEL, HOUSEHOLDS, ANSWER), DUSHVANETH_REFUSED_TWO_CODES);
    panel[DUSHVANETH_SC3] = kept;
}

/* Of the due households those with more than 3 points and fewer than 6 visits were picked. Points and visits are 1 2, 0 3, 5 1, 2 7, 3 0 and
 * 9 6. Points have the top bit 15, visits 11.
 *
 * - 0 has 1 point, 0001 where 0011 is asked for: bits 15 and 14 are equal, bit 13 is 0 where it has to be 1.
 * - 1 and 3 are not due: their response bit 0 is not set.
 * - 2 is picked: 5 points, 1 visit.
 * - 4 has 3 points, which is not more than 3.
 * - 5 has 9 points, but 6 visits, which is not fewer than 6. */
static void why(void)
{
    uint64_t panel[DUSHVANETH_PANEL], all[HOUSEHOLDS];
    dushvaneth_response due[HOUSEHOLDS];
    memcpy(all, words, sizeof all);
    memcpy(due, responses, sizeof due);
    dushvaneth_blank(panel);
    dushvaneth_ask(panel, 12, 4, DUSHVANETH_LARGER, 3);
    dushvaneth_ask(panel, 8, 4, DUSHVANETH_SMALLER, 6);
    panel[DUSHVANETH_KEY] = panel[DUSHVANETH_CARE] = 1 << DUE;
    panel[DUSHVANETH_ADDRESS] = HOUSEHOLDS; /* plays no part */
    CHECK(panel[DUSHVANETH_SDR], 0x8880);
    CHECK(dushvaneth_wide_pulse(MACHINE, panel, DUSHVANETH_PANEL, DUSHVANETH_SEARCH, ANSWER), 0);
    CHECK(answer[DUSHVANETH_PULSE_COUNT], 1);
    WHY(0, AGAINST, 15, 13);
    WHY(1, NOT_SELECTED, 0, DUE);
    WHY(2, MATCHED, 0, 0);
    WHY(3, NOT_SELECTED, 0, DUE);
    WHY(4, EQUAL_TO_THE_BOTTOM, 15, 0);
    WHY(5, EQUAL_TO_THE_BOTTOM, 11, 0);
    ask_in_vain(panel);
    /* at least 3 points: 3 is enough now; at most 5 visits: 6 is 0110 where 0101 is asked for, so bit 9 settles against it */
    dushvaneth_ask(panel, 12, 4, DUSHVANETH_AT_LEAST, 3);
    dushvaneth_ask(panel, 8, 4, DUSHVANETH_AT_MOST, 5);
    CHECK(dushvaneth_cells_pulse(MACHINE, panel, DUSHVANETH_PANEL, DUSHVANETH_SEARCH, ANSWER), 0);
    CHECK(answer[DUSHVANETH_PULSE_COUNT], 2);
    WHY(0, AGAINST, 15, 13);
    WHY(2, MATCHED, 0, 0);
    WHY(4, MATCHED, 0, 0);
    WHY(5, AGAINST, 11, 9);
    /* nobody is due and faulty: of the due ones bit 1, of the others bit 0 is the lowest that differs */
    panel[DUSHVANETH_KEY] = panel[DUSHVANETH_CARE] = 1 << DUE | 1 << FAULTY;
    WHY(2, NOT_SELECTED, 0, FAULTY);
    WHY(1, NOT_SELECTED, 0, DUE);
    check_machine(__LINE__, all, due);
}

/* ---- jobs, with a stop after each pulse */

/* Fills the record of a job of that kind on the due households, A and P four bits wide from the bits given. */
static void fill(uint8_t kind, uint8_t a, uint8_t p, uint64_t c)
{
    memset(job, 0, sizeof job);
    job[DUSHVANETH_JOB_KIND] = kind;
    job[DUSHVANETH_JOB_KEY] = job[DUSHVANETH_JOB_CARE] = 1 << DUE;
    job[DUSHVANETH_JOB_X] = X;
    job[DUSHVANETH_JOB_Y] = Y;
    dushvaneth_set_syllable(job, DUSHVANETH_JOB_A, a, 4);
    dushvaneth_set_syllable(job, DUSHVANETH_JOB_P, p, 4);
    dushvaneth_set_c(job, c);
}

/* Such a job; how many pulses it took. */
static int run(uint8_t kind, uint8_t a, uint8_t p, uint64_t c, uint64_t total)
{
    uint8_t another[DUSHVANETH_RECORD];
    int pulses = 0;
    fill(kind, a, p, c);
    CHECK(dushvaneth_step(MACHINE, NULL, 0, ANSWER), DUSHVANETH_REFUSED_WRONG_JOB);
    CHECK(dushvaneth_start(MACHINE, NULL, 0, job, sizeof job, ANSWER), 0);
    CHECK(answer[DUSHVANETH_START_HELD], 1);
    held = dushvaneth_record_length(answer[DUSHVANETH_START_HELD]);
    memcpy(another, job, sizeof another);
    CHECK(dushvaneth_start(MACHINE, job, held, another, sizeof another, ANSWER), DUSHVANETH_REFUSED_WRONG_JOB);
    CHECK(dushvaneth_total(MACHINE, job, held, ANSWER), 0);
    CHECK(answer[DUSHVANETH_TOTAL_PULSES], total);
    while (held > 0 && pulses < 100) {
        store();
        stop_and_resume();
        CHECK(held, sizeof job);
        CHECK(dushvaneth_step(MACHINE, job, held, ANSWER), 0);
        held = dushvaneth_record_length(answer[DUSHVANETH_STEP_HELD]);
        pulses++;
    }
    store();
    stop_and_resume();
    CHECK(held, 0);
    CHECK(job[DUSHVANETH_JOB_KIND], 0);
    return pulses;
}

/* Visits are A, bits 11 to 8, and points the result P. One bit too high P has bits 16 to 13, beyond the word; one bit too low it has bits 14
 * to 11, over A. */
static void misplaced(void)
{
    fill(DUSHVANETH_SCALED_ADD, 8, 13, 3);
    CHECK(dushvaneth_start(MACHINE, NULL, 0, job, sizeof job, ANSWER), DUSHVANETH_REFUSED_BEYOND_WORD);
    CHECK(answer[DUSHVANETH_ALSO], DUSHVANETH_SYLLABLE_P);
    fill(DUSHVANETH_SCALED_ADD, 8, 11, 3);
    CHECK(dushvaneth_start(MACHINE, NULL, 0, job, sizeof job, ANSWER), DUSHVANETH_REFUSED_OVERLAP);
    CHECK(answer[DUSHVANETH_ALSO], DUSHVANETH_SYLLABLE_A);
}

static void jobs(void)
{
    /* 1 + 3*2, 5 + 3*1, 3 + 3*0 and 9 + 3*6 = 27, modulo 16 */
    static const uint64_t after[HOUSEHOLDS] = {0x720A, 0x0314, 0x810C, 0x271E, 0x300C, 0xB605};
    static const dushvaneth_response due[HOUSEHOLDS] = {1, 0, 1, 0, 1, 1};
    /* of 7, 8, 3 and 11 points 11 is greatest; its last trial left Y too */
    static const dushvaneth_response best[HOUSEHOLDS] = {1, 0, 1, 0, 1, 1 + (1 << X) + (1 << Y)};
    misplaced();
    CHECK(run(DUSHVANETH_SCALED_ADD, 8, 12, 3, 8), 8);
    check_machine(__LINE__, after, due);
    /* 1 + 4, and three ones in 1011 */
    CHECK(run(DUSHVANETH_GREATEST, 12, 0, 0, 8), 8);
    check_machine(__LINE__, after, best);
}

/* ---- the round */

/* Hands the due households out, household 2 being faulty, with a stop before the answer to the one that is shown as number `stop`; how
 * often each was acted on. */
static void hand_out(int stop, int acted[HOUSEHOLDS])
{
    static const size_t order[] = {0, 2, 4, 5};
    int shown = 0;
    memset(acted, 0, HOUSEHOLDS * sizeof *acted);
    store();
    for (;;) {
        size_t word;
        CHECK(dushvaneth_show(MACHINE, DUE, ANSWER), 0);
        if (answer[DUSHVANETH_FOUND] == 0 || shown == 100) {
            break;
        }
        word = (size_t)answer[DUSHVANETH_FOUND_WORD];
        CHECK(word, order[shown % 4]);
        acted[word]++;
        if (shown == stop) {
            stop = -1;
            stop_and_resume();
            continue;
        }
        CHECK(dushvaneth_answer(MACHINE, DUE, FAULTY, word + 1, DUSHVANETH_DONE, ANSWER), DUSHVANETH_REFUSED_NOT_SHOWN);
        CHECK(dushvaneth_answer(MACHINE, DUE, FAULTY, word, word == 2 ? DUSHVANETH_FAULTY : DUSHVANETH_DONE, ANSWER), 0);
        store();
        shown++;
    }
    CHECK(shown, 4);
}

static void rounds(void)
{
    static const uint8_t verdicts[] = {1, 1, 0, 1, 1, 1};
    static const dushvaneth_response end[HOUSEHOLDS] = {0, 0, 1 << FAULTY, 0, 0, (1 << X) + (1 << Y)};
    dushvaneth_response before[HOUSEHOLDS];
    uint64_t all[HOUSEHOLDS];
    int acted[HOUSEHOLDS], stop, i;
    memcpy(before, responses, sizeof before);
    memcpy(all, words, sizeof all);
    for (stop = -1; stop < 4; stop++) {
        static const size_t order[] = {0, 2, 4, 5};
        memcpy(responses, before, sizeof before);
        hand_out(stop, acted);
        check_machine(__LINE__, all, end);
        for (i = 0; i < 4; i++) {
            CHECK(acted[order[i]], i == stop ? 2 : 1);
        }
        CHECK(acted[1] + acted[3], 0);
    }
    memcpy(responses, before, sizeof before);
    CHECK(dushvaneth_round(MACHINE, DUE, FAULTY, verdicts, sizeof verdicts, ANSWER), 0);
    CHECK(answer[DUSHVANETH_ROUND_DONE], 3);
    CHECK(answer[DUSHVANETH_ROUND_FAULTY], 1);
    check_machine(__LINE__, all, end);
    CHECK(dushvaneth_scan(MACHINE, 1 << FAULTY, 1 << FAULTY, ANSWER), 0);
    CHECK(answer[DUSHVANETH_FOUND_WORD], 2);
    CHECK(dushvaneth_network(MACHINE, 1 << DUE, 1 << DUE, ANSWER), 0);
    CHECK(answer[DUSHVANETH_FOUND], 0);
}

int main(void)
{
    search();
    ask();
    ask_with_equal();
    why();
    jobs();
    rounds();
    printf("%d passed, %d failed\n", passed, failed);
    return failed != 0;
}
