/* Explanations: what the header says of each reason, held against what the library told, and which reasons came up; host.h's part for request
 * e of document 02. The reason due is worked out here from numbers as a whole, not bit by bit from the top, and a search by the library itself
 * must take the very words that it calls matched. */

/* What came up, by the library's own answers. From the fifth on, where one reading of the header could be taken for another: of several
 * response bits the lowest is told, of several syllables the topmost, of several bits the first that counts; which reason or which number comes
 * first, and what it is for, alone. */
static const char *const explained_as[] = {"matched", "not selected", "against", "equal to the bottom", "several response bits",
                                           "not selected, else matched", "several syllables", "a later difference",
                                           "don't cares that differ above", "against in one bit", "equal in one bit", "in 64 bits",
                                           "5 before 7", "7 before 10", "an address outside", "1 for the panel", "4 for a byte",
                                           "4 for MOR"};
enum { SEVERAL_RESPONSE_BITS = 4, ELSE_MATCHED, SEVERAL_SYLLABLES, LATER_DIFFERENCE, DONT_CARES_ABOVE, AGAINST_IN_ONE_BIT, EQUAL_IN_ONE_BIT,
       IN_64_BITS, NO_WORD_TWO_CODES, NO_WORD_NO_ROOM, ADDRESS_OUTSIDE, ONLY_PANEL_LENGTH, ONLY_BYTES, ONLY_MOR, EXPLAINED };
static unsigned long explained[EXPLAINED];

/* Reasons by what the search asked: of the syllable told, and of each syllable where none is. Equal to the bottom goes with two codes. */
static const char *const asked_as[] = {"exact", "larger", "smaller", "at least", "at most"};
static const unsigned asked_by[] = {DUSHVANETH_EXACT, DUSHVANETH_LARGER, DUSHVANETH_SMALLER, DUSHVANETH_AT_LEAST, DUSHVANETH_AT_MOST};
enum { ASKED = sizeof asked_by / sizeof *asked_by, LARGER_AND_SMALLER = 1 };
static unsigned long matched_by[ASKED], not_selected_by[ASKED], against_by[ASKED], equal_by[ASKED];

/* How often each has to come up in a full run. */
enum { LEAST_EXPLAINED = 30 };

/* ---- what is due */

static uint64_t lowest_bit(uint64_t number) { return (uint64_t)__builtin_ctzll(number); }
static uint64_t highest_bit(uint64_t number) { return 63 - (uint64_t)__builtin_clzll(number); }

/* What a syllable's cared bits are asked, in a panel that isn't refused. */
static unsigned code_over(const uint64_t *p, uint64_t cared)
{
    return ((p[DUSHVANETH_SC1] & cared) != 0 ? 2u : 0) | ((p[DUSHVANETH_SC2] & cared) != 0 ? 1u : 0) |
           ((p[DUSHVANETH_SC3] & cared) != 0 ? 4u : 0);
}

static uint64_t cared_of(const uint64_t *p, uint64_t syllable) { return syllable & (p[DUSHVANETH_SC1] | p[DUSHVANETH_SC2]); }

/* Both numbers stand at the same bits, and so are as large to each other as the syllable's own. */
static bool is_satisfied(const uint64_t *p, uint64_t syllable, uint64_t word)
{
    uint64_t cared = cared_of(p, syllable), ours = word & cared, theirs = p[DUSHVANETH_COMP] & cared;
    switch (code_over(p, cared)) {
    case DUSHVANETH_DONT_CARE: return true;
    case DUSHVANETH_EXACT: return ours == theirs;
    case DUSHVANETH_LARGER: return ours > theirs;
    case DUSHVANETH_SMALLER: return ours < theirs;
    case DUSHVANETH_AT_LEAST: return ours >= theirs;
    default: return ours <= theirs;
    }
}

/* The topmost syllable that a word doesn't satisfy, 0 if it satisfies all; and how many it doesn't. */
static uint64_t unsatisfied(const uint64_t *p, uint64_t bits, uint64_t word, int *many)
{
    uint64_t found = 0;
    *many = 0;
    for (uint64_t left = bits; left != 0;) {
        uint64_t syllable = lowest_syllable(p[DUSHVANETH_SDR], left);
        if (!is_satisfied(p, syllable, word)) {
            found = syllable;
            ++*many;
        }
        left &= ~syllable;
    }
    return found;
}

/* The response bits for which a word is not selected. */
static uint64_t unlike(const uint64_t *p, uint8_t response) { return (response ^ p[DUSHVANETH_KEY]) & p[DUSHVANETH_CARE]; }

struct explanation {
    uint64_t reason, syllable, bit;
};

static struct explanation due(const uint64_t *p, uint64_t bits, uint64_t word, uint8_t response)
{
    int many;
    uint64_t syllable = unsatisfied(p, bits, word, &many), differences = (word ^ p[DUSHVANETH_COMP]) & cared_of(p, syllable);
    if (unlike(p, response) != 0) {
        return (struct explanation){DUSHVANETH_NOT_SELECTED, 0, lowest_bit(unlike(p, response))};
    }
    if (syllable == 0) {
        return (struct explanation){DUSHVANETH_MATCHED, 0, 0};
    }
    if (differences == 0) {
        return (struct explanation){DUSHVANETH_EQUAL_TO_THE_BOTTOM, highest_bit(syllable), 0};
    }
    return (struct explanation){DUSHVANETH_AGAINST, highest_bit(syllable), highest_bit(differences)};
}

/* ---- the call that was just made: words, responses, panel, then width and word */

static uint64_t lent_word(size_t i)
{
    uint64_t word;
    memcpy(&word, now.lent[0].bytes + 8 * i, 8);
    return word;
}

/* A word that there isn't is 7 and no other is, unless another number comes first: 10 comes after it. */
static void hold_word(void)
{
    uint32_t r = now.returned;
    bool judged = r == 0 || r == 7 || r == 10, no_such = now.number[1] >= now.lent[0].length;
    if (judged && no_such != (r == 7)) {
        wrong("7 is for a word that there isn't; returned, word", (long)r, (long)now.number[1]);
    }
}

static void hold_reason(const uint64_t *p, uint64_t bits)
{
    size_t i = (size_t)now.number[1];
    struct explanation is = due(p, bits, lent_word(i), now.lent[1].bytes[i]);
    if (answered(DUSHVANETH_EXPLAINED_REASON) != is.reason || answered(DUSHVANETH_EXPLAINED_SYLLABLE) != is.syllable ||
        answered(DUSHVANETH_EXPLAINED_BIT) != is.bit) {
        wrong("not the reason that is due; told, due", (long)answered(DUSHVANETH_EXPLAINED_REASON), (long)is.reason);
    }
}

/* A search on copies of what was lent, by the library itself: refused with the same number 1 to 5, else the word is marked where it was told as
 * matched. The mark is one bit, whatever the target is that was lent. */
static void hold_search(void)
{
    static uint64_t words[MOST], panel[MOST], answer[DUSHVANETH_PULSE_ANSWER];
    static uint8_t responses[REGION];
    const struct lent *b = now.lent;
    uint32_t r = now.returned, expected = r == 7 || r == 10 ? 0 : r, given;
    uint64_t mark = below(8);
    memcpy(words, b[0].bytes, 8 * b[0].length);
    memcpy(responses, b[1].bytes, b[1].length);
    memcpy(panel, b[2].bytes, 8 * b[2].length);
    if (expected == 0) {
        panel[DUSHVANETH_TARGET] = 1u << mark;
    }
    given = (b[0].length > 100 || once_in(2) ? FAULTLESS(wide_pulse) : FAULTLESS(cells_pulse))(
        words, b[0].length, responses, b[1].length, (uint32_t)now.number[0], panel, b[2].length, DUSHVANETH_SEARCH, answer,
        DUSHVANETH_PULSE_ANSWER);
    if (given != expected) {
        wrong("a search is judged otherwise; returned, the search's", (long)r, (long)given);
    }
    if (r == 0 && (responses[now.number[1]] >> mark & 1) != (answered(DUSHVANETH_EXPLAINED_REASON) == DUSHVANETH_MATCHED)) {
        wrong("a search marks otherwise; reason, word", (long)answered(DUSHVANETH_EXPLAINED_REASON), (long)now.number[1]);
    }
}

/* ---- what came up */

static void count_asked(unsigned long *by, unsigned code)
{
    for (int k = 0; k < ASKED; k++) {
        by[k] += asked_by[k] == code;
    }
}

static void count_all_asked(unsigned long *by, const uint64_t *p, uint64_t bits)
{
    for (uint64_t left = bits; left != 0;) {
        uint64_t syllable = lowest_syllable(p[DUSHVANETH_SDR], left);
        count_asked(by, code_over(p, cared_of(p, syllable)));
        left &= ~syllable;
    }
}

static void count_not_selected(const uint64_t *p, uint64_t bits, uint64_t word, uint8_t response)
{
    int many;
    uint64_t differ = unlike(p, response);
    count_all_asked(not_selected_by, p, bits);
    explained[SEVERAL_RESPONSE_BITS] += (differ & (differ - 1)) != 0;
    explained[ELSE_MATCHED] += unsatisfied(p, bits, word, &many) == 0;
}

static void count_syllable(const uint64_t *p, uint64_t bits, uint64_t word)
{
    int many;
    uint64_t syllable = unsatisfied(p, bits, word, &many), cared = cared_of(p, syllable), bit = answered(DUSHVANETH_EXPLAINED_BIT);
    uint64_t differ = (word ^ p[DUSHVANETH_COMP]) & syllable, above = ~ones(bit) << 1;
    bool against = answered(DUSHVANETH_EXPLAINED_REASON) == DUSHVANETH_AGAINST, one_bit = (syllable & (syllable - 1)) == 0;
    count_asked(against ? against_by : equal_by, code_over(p, cared));
    explained[SEVERAL_SYLLABLES] += many > 1;
    explained[LATER_DIFFERENCE] += against && (differ & cared & ones(bit)) != 0;
    explained[DONT_CARES_ABOVE] += against && (differ & ~cared & above) != 0;
    explained[AGAINST_IN_ONE_BIT] += against && one_bit;
    explained[EQUAL_IN_ONE_BIT] += !against && one_bit;
    explained[IN_64_BITS] += ~syllable == 0;
}

static void count_reason(const uint64_t *p, uint64_t bits)
{
    size_t i = (size_t)now.number[1];
    explained[answered(DUSHVANETH_EXPLAINED_REASON) - DUSHVANETH_MATCHED]++;
    explained[ADDRESS_OUTSIDE] += p[DUSHVANETH_ADDRESS] >= now.lent[0].length;
    switch (answered(DUSHVANETH_EXPLAINED_REASON)) {
    case DUSHVANETH_MATCHED: count_all_asked(matched_by, p, bits); break;
    case DUSHVANETH_NOT_SELECTED: count_not_selected(p, bits, lent_word(i), now.lent[1].bytes[i]); break;
    default: count_syllable(p, bits, lent_word(i));
    }
}

/* What 4 was for, where it is one thing alone: key, care or target above 255, or MOR. */
static void count_too_wide(const uint64_t *p, uint64_t bits)
{
    uint64_t others = p[DUSHVANETH_COMP] | p[DUSHVANETH_SDR] | p[DUSHVANETH_SC1] | p[DUSHVANETH_SC2] | p[DUSHVANETH_SC3];
    bool bytes = (p[DUSHVANETH_KEY] | p[DUSHVANETH_CARE] | p[DUSHVANETH_TARGET]) > 255, mor = (p[DUSHVANETH_MOR] & ~bits) != 0;
    explained[ONLY_BYTES] += bytes && !mor && (others & ~bits) == 0;
    explained[ONLY_MOR] += mor && !bytes && (others & ~bits) == 0;
}

/* What comes before what, and what a number was for. */
static void count_refusal(void)
{
    const struct lent *b = now.lent;
    size_t n = b[0].length;
    bool machine = n > 0 && n <= DUSHVANETH_MOST_WORDS && b[1].length == n;
    explained[NO_WORD_TWO_CODES] += now.returned == 5 && now.number[1] >= n;
    explained[NO_WORD_NO_ROOM] += now.returned == 7 && b[3].length < DUSHVANETH_EXPLAINED_ANSWER;
    explained[ONLY_PANEL_LENGTH] += now.returned == 1 && machine;
}

/* Holds the explanation that was just made, and counts it. */
static void hold_explanation(void)
{
    uint64_t p[DUSHVANETH_PANEL], bits;
    hold_word();
    hold_search();
    count_refusal();
    if (now.returned != 0 && now.returned != 4) {
        return; /* the width may be none, or the panel of another length */
    }
    bits = ones((uint32_t)now.number[0]);
    memcpy(p, now.lent[2].bytes, sizeof p);
    if (now.returned == 4) {
        count_too_wide(p, bits);
        return;
    }
    hold_reason(p, bits);
    count_reason(p, bits);
}
