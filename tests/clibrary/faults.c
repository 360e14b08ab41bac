/* Faults of the library that random.c must find, each in one function: `fault` says which of them is there. Included by trial.h in a
 * build with -DFAULTS; every other function is the library's own. */
static int fault;

#define faulty_load dushvaneth_load
#define faulty_network dushvaneth_network
#define faulty_array_cells dushvaneth_array_cells

static volatile uint8_t touched;

/* The record before a call, if there is one. */
static void keep(uint8_t *was, const uint8_t *job, size_t j)
{
    if (j == DUSHVANETH_RECORD) {
        memcpy(was, job, DUSHVANETH_RECORD);
    }
}

/* Another refusal than the library's is told, where the answer has room. */
static uint32_t tell_other(uint32_t r, uint64_t also, uint64_t *answer, size_t a, size_t size)
{
    if (a >= size) {
        answer[DUSHVANETH_REFUSAL] = r;
        answer[DUSHVANETH_ALSO] = also;
    }
    return r;
}

/* 1: an address is off by one. 2: a refusal changes a response. 3: the width's low byte is what is looked at. 15: a one of SC3 over a don't-care
 * bit is passed over. */
static uint32_t faulty_wide_pulse(uint64_t *words, size_t n, dushvaneth_response *responses, size_t m, uint32_t width,
                                  const uint64_t *panel, size_t p, uint8_t lines, uint64_t *answer, size_t a)
{
    uint64_t moved[DUSHVANETH_PANEL];
    uint32_t r;
    if (fault == 1 && p == DUSHVANETH_PANEL) {
        memcpy(moved, panel, sizeof moved);
        moved[DUSHVANETH_ADDRESS]++;
        panel = moved;
    }
    if (fault == 15 && p == DUSHVANETH_PANEL && width >= 1 && width <= 64) {
        memcpy(moved, panel, sizeof moved);
        moved[DUSHVANETH_SC3] &= moved[DUSHVANETH_SC1] | moved[DUSHVANETH_SC2] | ~(UINT64_MAX >> (64 - width)); /* 4 stays */
        panel = moved;
    }
    r = dushvaneth_wide_pulse(words, n, responses, m, fault == 3 ? width & 255 : width, panel, p, lines, answer, a);
    if (fault == 2 && r != 0 && m > 0) {
        responses[m - 1] ^= 1;
    }
    return r;
}

/* 16: at least is taken as larger, in a call that is accepted: a call with room for no answer is 10 then, and changes nothing. */
static uint32_t faulty_cells_pulse(uint64_t *words, size_t n, dushvaneth_response *responses, size_t m, uint32_t width,
                                   const uint64_t *panel, size_t p, uint8_t lines, uint64_t *answer, size_t a)
{
    uint64_t moved[DUSHVANETH_PANEL];
    if (fault == 16 && dushvaneth_cells_pulse(words, n, responses, m, width, panel, p, lines, NULL, 0) == 10) {
        memcpy(moved, panel, sizeof moved);
        moved[DUSHVANETH_SC3] &= moved[DUSHVANETH_SC2];
        panel = moved;
    }
    return dushvaneth_cells_pulse(words, n, responses, m, width, panel, p, lines, answer, a);
}

/* The syllable with that top bit. */
static uint64_t syllable_at(const uint64_t *panel, uint64_t top)
{
    uint64_t below = panel[DUSHVANETH_SDR] & (((uint64_t)1 << top) - 1), bits = UINT64_MAX >> (63 - top);
    return below == 0 ? bits : bits & ~(UINT64_MAX >> __builtin_clzll(below));
}

/* 25: the lowest syllable that is not satisfied is told, not the topmost: the one told is taken out of the search, and the library asked again,
 * until none is left. */
static void tell_lowest_syllable(const uint64_t *words, size_t n, const dushvaneth_response *responses, size_t m, uint32_t width,
                                 const uint64_t *panel, size_t word, uint64_t *answer)
{
    uint64_t moved[DUSHVANETH_PANEL], next[DUSHVANETH_EXPLAINED_ANSWER];
    memcpy(moved, panel, sizeof moved);
    memcpy(next, answer, sizeof next);
    while (next[DUSHVANETH_EXPLAINED_REASON] != DUSHVANETH_MATCHED) {
        uint64_t others = ~syllable_at(moved, next[DUSHVANETH_EXPLAINED_SYLLABLE]);
        memcpy(answer, next, sizeof next);
        moved[DUSHVANETH_SC1] &= others;
        moved[DUSHVANETH_SC2] &= others;
        moved[DUSHVANETH_SC3] &= others;
        if (dushvaneth_explain(words, n, responses, m, width, moved, DUSHVANETH_PANEL, word, next, DUSHVANETH_EXPLAINED_ANSWER) != 0) {
            return;
        }
    }
}

/* 27: the last bit that differs is told, not the first. 33: a don't-care bit is told if it differs before. */
static void tell_other_bit(uint64_t word, const uint64_t *panel, uint64_t *answer)
{
    uint64_t differ = (word ^ panel[DUSHVANETH_COMP]) & syllable_at(panel, answer[DUSHVANETH_EXPLAINED_SYLLABLE]);
    if (fault == 27) {
        differ &= panel[DUSHVANETH_SC1] | panel[DUSHVANETH_SC2];
        answer[DUSHVANETH_EXPLAINED_BIT] = (uint64_t)__builtin_ctzll(differ);
    } else {
        answer[DUSHVANETH_EXPLAINED_BIT] = 63 - (uint64_t)__builtin_clzll(differ);
    }
}

/* 26: the highest response bit that differs is told, not the lowest. */
static void tell_highest_response_bit(dushvaneth_response response, const uint64_t *panel, uint64_t *answer)
{
    uint64_t differ = (response ^ panel[DUSHVANETH_KEY]) & panel[DUSHVANETH_CARE];
    answer[DUSHVANETH_EXPLAINED_BIT] = 63 - (uint64_t)__builtin_clzll(differ);
}

/* 28: a word that is not selected is told as matched, if its syllables are satisfied. */
static void tell_of_syllables(const uint64_t *words, size_t n, const dushvaneth_response *responses, size_t m, uint32_t width,
                              const uint64_t *panel, size_t word, uint64_t *answer)
{
    uint64_t moved[DUSHVANETH_PANEL], then[DUSHVANETH_EXPLAINED_ANSWER];
    memcpy(moved, panel, sizeof moved);
    moved[DUSHVANETH_CARE] = 0;
    if (dushvaneth_explain(words, n, responses, m, width, moved, DUSHVANETH_PANEL, word, then, DUSHVANETH_EXPLAINED_ANSWER) == 0 &&
        then[DUSHVANETH_EXPLAINED_REASON] == DUSHVANETH_MATCHED) {
        memcpy(answer, then, sizeof then);
    }
}

/* 31: equal to the bottom is told as against at the bottom. */
static void tell_against(const uint64_t *panel, uint64_t *answer)
{
    uint64_t syllable = syllable_at(panel, answer[DUSHVANETH_EXPLAINED_SYLLABLE]);
    answer[DUSHVANETH_EXPLAINED_REASON] = DUSHVANETH_AGAINST;
    answer[DUSHVANETH_EXPLAINED_BIT] = (uint64_t)__builtin_ctzll(syllable);
}

/* An explanation that was given, told otherwise. */
static void tell_otherwise(const uint64_t *words, size_t n, const dushvaneth_response *responses, size_t m, uint32_t width,
                           const uint64_t *panel, size_t word, uint64_t *answer)
{
    uint64_t reason = answer[DUSHVANETH_EXPLAINED_REASON];
    if (fault == 25 && reason >= DUSHVANETH_AGAINST) {
        tell_lowest_syllable(words, n, responses, m, width, panel, word, answer);
    }
    if (fault == 26 && reason == DUSHVANETH_NOT_SELECTED) {
        tell_highest_response_bit(responses[word], panel, answer);
    }
    if ((fault == 27 || fault == 33) && reason == DUSHVANETH_AGAINST) {
        tell_other_bit(words[word], panel, answer);
    }
    if (fault == 28 && reason == DUSHVANETH_NOT_SELECTED) {
        tell_of_syllables(words, n, responses, m, width, panel, word, answer);
    }
    if (fault == 31 && reason == DUSHVANETH_EQUAL_TO_THE_BOTTOM) {
        tell_against(panel, answer);
    }
}

/* 34: of key, care and target the low byte is looked at. 35: a MOR that is too wide is passed over. 37: at least and at most are asked as larger
 * and smaller where the search is not refused. */
static void move_panel(uint64_t *moved, uint32_t r)
{
    if (fault == 34) {
        moved[DUSHVANETH_KEY] &= 255;
        moved[DUSHVANETH_CARE] &= 255;
        moved[DUSHVANETH_TARGET] &= 255;
    }
    if (fault == 35) {
        moved[DUSHVANETH_MOR] = 0;
    }
    if (fault == 37 && r == 0) {
        moved[DUSHVANETH_SC3] = 0;
    }
}

/* 29: 7 comes before 5. 30: the panel's address is judged. 32: an answer that is too short is told as far as it goes. 36: the word's number is
 * taken to 32 bits. 38: 10 comes before 7. */
static uint32_t faulty_explain(const uint64_t *words, size_t n, const dushvaneth_response *responses, size_t m, uint32_t width,
                               const uint64_t *panel, size_t p, size_t word, uint64_t *answer, size_t a)
{
    uint64_t moved[DUSHVANETH_PANEL];
    size_t asked = fault == 36 ? (uint32_t)word : word;
    uint32_t r = dushvaneth_explain(words, n, responses, m, width, panel, p, asked, answer, a);
    if (p == DUSHVANETH_PANEL) {
        memcpy(moved, panel, sizeof moved);
        move_panel(moved, r);
        r = dushvaneth_explain(words, n, responses, m, width, moved, p, asked, answer, a);
    }
    if ((fault == 29 && r == 5 && word >= n) || (fault == 30 && r == 0 && panel[DUSHVANETH_ADDRESS] >= n)) {
        return tell_other(7, 0, answer, a, DUSHVANETH_EXPLAINED_ANSWER);
    }
    if (fault == 32 && r == 10 && a > 0) {
        answer[DUSHVANETH_REFUSAL] = r;
    }
    if (r == 0) {
        tell_otherwise(words, n, responses, m, width, panel, word, answer);
    }
    return fault == 38 && r == 7 && a < DUSHVANETH_EXPLAINED_ANSWER ? 10 : r;
}

/* 4: an answer that is too short is told as far as it goes. */
static uint32_t faulty_scan(const uint64_t *words, size_t n, const dushvaneth_response *responses, size_t m, uint32_t width,
                            dushvaneth_response key, dushvaneth_response care, uint64_t *answer, size_t a)
{
    uint32_t r = dushvaneth_scan(words, n, responses, m, width, key, care, answer, a);
    if (fault == 4 && r == 10 && a > 0) {
        answer[DUSHVANETH_REFUSAL] = r;
    }
    return r;
}

/* 5: a byte behind the responses is read. */
static uint32_t faulty_show(const uint64_t *words, size_t n, const dushvaneth_response *responses, size_t m, uint32_t width, uint8_t x,
                            uint64_t *answer, size_t a)
{
    if (fault == 5 && responses != NULL) {
        touched = responses[m];
    }
    return dushvaneth_show(words, n, responses, m, width, x, answer, a);
}

/* 6: 11 comes before 10. 20: 11 comes before 23. */
static uint32_t faulty_answer(const uint64_t *words, size_t n, dushvaneth_response *responses, size_t m, uint32_t width, uint8_t x,
                              uint8_t f, size_t word, uint8_t verdict, uint64_t *answer, size_t a)
{
    uint32_t r = dushvaneth_answer(words, n, responses, m, width, x, f, word, verdict, answer, a);
    uint64_t shown[DUSHVANETH_RESOLVED_ANSWER];
    if (((fault == 6 && r == 10) || (fault == 20 && r == 23)) &&
        dushvaneth_show(words, n, responses, m, width, x, shown, DUSHVANETH_RESOLVED_ANSWER) == 0 &&
        (shown[DUSHVANETH_FOUND] == 0 || shown[DUSHVANETH_FOUND_WORD] != word)) {
        return tell_other(11, 0, answer, a, DUSHVANETH_REPLY_ANSWER);
    }
    return r;
}

/* 7: the byte before the verdicts is read. */
static uint32_t faulty_round(const uint64_t *words, size_t n, dushvaneth_response *responses, size_t m, uint32_t width, uint8_t x,
                             uint8_t f, const uint8_t *verdicts, size_t v, uint64_t *answer, size_t a)
{
    if (fault == 7 && verdicts != NULL) {
        touched = verdicts[-1];
    }
    return dushvaneth_round(words, n, responses, m, width, x, f, verdicts, v, answer, a);
}

/* A job with each empty syllable made one bit wide: what is wrong with it then is what comes after 20. */
static void fill_empty(uint8_t *filled, const uint8_t *job)
{
    memcpy(filled, job, DUSHVANETH_RECORD);
    for (int k = DUSHVANETH_JOB_A; k <= DUSHVANETH_JOB_P; k += 2) {
        filled[k + 1] = job[k + 1] > 0 ? job[k + 1] : 1;
    }
}

/* 8: what was in the record's unused fields stays. 18: 21 comes before 20. 23: 8 is returned for 25. 24: 25 for the job that is held comes
 * before what is wrong with the job offered. */
static uint32_t faulty_start(const uint64_t *words, size_t n, const dushvaneth_response *responses, size_t m, uint32_t width,
                             const uint8_t *held, size_t h, uint8_t *job, size_t j, uint64_t *answer, size_t a)
{
    uint8_t was = j > DUSHVANETH_JOB_B ? job[DUSHVANETH_JOB_B] : 0, filled[DUSHVANETH_RECORD];
    uint64_t then[DUSHVANETH_START_ANSWER];
    uint32_t r = dushvaneth_start(words, n, responses, m, width, held, h, job, j, answer, a);
    if (fault == 8 && r == 0) {
        job[DUSHVANETH_JOB_B] = was;
    }
    if (fault == 18 && r == 20) {
        fill_empty(filled, job);
        if (dushvaneth_start(words, n, responses, m, width, held, h, filled, j, then, DUSHVANETH_START_ANSWER) == 21) {
            return tell_other(21, then[DUSHVANETH_ALSO], answer, a, DUSHVANETH_START_ANSWER);
        }
    }
    if (fault == 23 && r == 25) {
        return tell_other(8, 0, answer, a, DUSHVANETH_START_ANSWER);
    }
    if (fault == 24 && r >= 20 && r <= 24 && h > 0) {
        return tell_other(25, 0, answer, a, DUSHVANETH_START_ANSWER);
    }
    return r;
}

/* 9: the record isn't written. 10: the count is that of the words. 17: SC3 isn't told. 22: the syllable isn't told. */
static uint32_t faulty_step(uint64_t *words, size_t n, dushvaneth_response *responses, size_t m, uint32_t width, uint8_t *job, size_t j,
                            uint64_t *answer, size_t a)
{
    uint8_t was[DUSHVANETH_RECORD];
    uint64_t sc3 = a >= DUSHVANETH_STEP_ANSWER ? answer[DUSHVANETH_STEP_PANEL + DUSHVANETH_SC3] : 0;
    uint32_t r;
    keep(was, job, j);
    r = dushvaneth_step(words, n, responses, m, width, job, j, answer, a);
    if (fault == 9 && r == 0) {
        memcpy(job, was, sizeof was);
    }
    if (fault == 10 && r == 0) {
        answer[DUSHVANETH_STEP_COUNT] = n;
    }
    if (fault == 17 && r == 0) {
        answer[DUSHVANETH_STEP_PANEL + DUSHVANETH_SC3] = sc3;
    }
    if (fault == 22 && r >= 20 && r <= 22) {
        return tell_other(r, 0, answer, a, DUSHVANETH_STEP_ANSWER);
    }
    return r;
}

/* 19: 10 comes before 20. */
static uint32_t faulty_total(const uint64_t *words, size_t n, const dushvaneth_response *responses, size_t m, uint32_t width,
                             const uint8_t *job, size_t j, uint64_t *answer, size_t a)
{
    uint32_t r = dushvaneth_total(words, n, responses, m, width, job, j, answer, a);
    return fault == 19 && r == 20 && a < DUSHVANETH_TOTAL_ANSWER ? 10 : r;
}

/* 11: a byte behind the image is cleared. 21: 22 names the result, not the source. */
static uint32_t faulty_write(const uint64_t *words, size_t n, const dushvaneth_response *responses, size_t m, uint32_t width,
                             const uint8_t *job, size_t j, uint8_t *image, size_t i, uint64_t *answer, size_t a)
{
    uint32_t r = dushvaneth_write(words, n, responses, m, width, job, j, image, i, answer, a);
    if (fault == 11 && r == 0 && answer[DUSHVANETH_IMAGE_SIZE] < i) {
        image[answer[DUSHVANETH_IMAGE_SIZE]] = 0;
    }
    if (fault == 21 && r == 22) {
        return tell_other(r, DUSHVANETH_SYLLABLE_P, answer, a, DUSHVANETH_IMAGE_WRITE_ANSWER);
    }
    return r;
}

/* 12: the record stays where no job is held. 13: the place of 9 is off by one. */
static uint32_t faulty_read(const uint8_t *image, size_t i, uint64_t *words, size_t n, dushvaneth_response *responses, size_t m,
                            uint8_t *job, size_t j, uint64_t *answer, size_t a)
{
    uint8_t was[DUSHVANETH_RECORD];
    uint32_t r;
    keep(was, job, j);
    r = dushvaneth_read(image, i, words, n, responses, m, job, j, answer, a);
    if (fault == 12 && r == 0 && answer[DUSHVANETH_IMAGE_HELD] == 0) {
        memcpy(job, was, sizeof was);
    }
    if (fault == 13 && r == 9) {
        answer[DUSHVANETH_ALSO]++;
    }
    return r;
}

/* 14: M isn't stored. */
static uint32_t faulty_array_wide(uint64_t *ones, size_t n, uint64_t *xs, size_t x, uint8_t *selectors, size_t s, uint64_t *registers,
                                  size_t g, uint32_t width, uint32_t code, uint64_t *answer, size_t a)
{
    uint64_t was = g == DUSHVANETH_ARRAY_REGISTERS ? registers[2] : 0;
    uint32_t r = dushvaneth_array_wide(ones, n, xs, x, selectors, s, registers, g, width, code, answer, a);
    if (fault == 14 && r == 0) {
        registers[2] = was;
    }
    return r;
}

enum { faults = 38 };
