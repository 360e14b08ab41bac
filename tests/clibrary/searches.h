/* Searches: codes for a panel, right and wrong, and which searches came up; host.h's part for request c of document 02. Where no word is equal
 * to COMP over a syllable, at least and larger can't be told apart, so such words and the searches that take them are made common here. */

/* What searches came up. The first two: a word matched that is equal to COMP over an at-least or at-most syllable, so larger or smaller would not
 * have taken it. The others: a search was turned down with 5 for that alone, and a pulse with 4 for a stray bit of SC3 alone. */
static const char *const searched_as[] = {"at least, equal", "at most, equal", "two codes", "two settings", "SC3 over exact",
                                          "SC3 over don't care", "SC3 too wide"};
enum { AT_LEAST_EQUAL, AT_MOST_EQUAL, TWO_CODES, TWO_SETTINGS, OVER_EXACT, OVER_DONT_CARE, SC3_TOO_WIDE, SEARCHED };
static unsigned long searched[SEARCHED];

/* The lowest syllable of the bits that are left: up to their lowest one of SDR, or all of them. */
static uint64_t lowest_syllable(uint64_t sdr, uint64_t left)
{
    uint64_t tops = sdr & left;
    return left & (tops ^ (tops - 1));
}

/* One of a number's ones; 0 if it has none. */
static uint64_t one_of(uint64_t number)
{
    uint64_t above = number & ~ones(below(64));
    number = above != 0 ? above : number;
    return number & (~number + 1);
}

static void set_code(uint64_t *p, uint64_t bits, unsigned code)
{
    p[DUSHVANETH_SC1] |= (code & 2) != 0 ? bits : 0;
    p[DUSHVANETH_SC2] |= (code & 1) != 0 ? bits : 0;
    p[DUSHVANETH_SC3] |= (code & 4) != 0 ? bits : 0;
}

static unsigned any_code(void)
{
    static const unsigned codes[] = {DUSHVANETH_EXACT,    DUSHVANETH_EXACT,    DUSHVANETH_LARGER,  DUSHVANETH_SMALLER,
                                     DUSHVANETH_AT_LEAST, DUSHVANETH_AT_LEAST, DUSHVANETH_AT_MOST, DUSHVANETH_AT_MOST,
                                     DUSHVANETH_DONT_CARE};
    return codes[below(sizeof codes / sizeof *codes)];
}

/* One code in each syllable, with don't-care bits among them. Where many syllables care, hardly a word matches, so half of the time one alone
 * does. */
static void fair_codes(uint64_t *p, uint64_t bits)
{
    uint64_t cared = any() | any(), alone = once_in(2) ? one_of(bits) : bits;
    for (uint64_t left = bits; left != 0;) {
        uint64_t syllable = lowest_syllable(p[DUSHVANETH_SDR], left);
        if ((syllable & alone) != 0) {
            set_code(p, syllable & cared, any_code());
        }
        left &= ~syllable;
    }
}

/* A code for each bit by itself. */
static void mixed_codes(uint64_t *p, uint64_t bits)
{
    for (uint64_t left = bits; left != 0; left &= left - 1) {
        set_code(p, left & (~left + 1), any_code());
    }
}

/* SC3 other than it was over larger and smaller, exact or don't-care bits or above the width: over one of them, which may then differ from the
 * rest of its syllable, or over all. Where there is no such bit, it stays. */
static void spoil_sc3(uint64_t *p, uint64_t bits)
{
    uint64_t sc1 = p[DUSHVANETH_SC1], exact = p[DUSHVANETH_SC2] & ~sc1;
    uint64_t those = (uint64_t[]){sc1, sc1, exact, exact, exact, bits & ~(sc1 | exact), ~bits}[below(7)];
    p[DUSHVANETH_SC3] ^= once_in(2) ? one_of(those) : those;
}

/* SC1, SC2 and SC3, which are 0 as yet: one code in each syllable but in every eighth panel, and in another eighth SC3 is wrong. */
static void new_codes(uint64_t *p, uint64_t bits)
{
    (once_in(8) ? mixed_codes : fair_codes)(p, bits);
    if (once_in(8)) {
        spoil_sc3(p, bits);
    }
}

/* ---- what came up */

/* Whether some of the bits are ones of a number, and others not. */
static bool differ(uint64_t bits, uint64_t number) { return (bits & number) != 0 && (bits & ~number) != 0; }

/* The reasons that a search has to be turned down with 5, as a set. */
static unsigned reasons(const uint64_t *p, uint64_t bits)
{
    uint64_t sc1 = p[DUSHVANETH_SC1], sc2 = p[DUSHVANETH_SC2], sc3 = p[DUSHVANETH_SC3], cared = sc1 | sc2;
    unsigned found = ((sc3 & sc2 & ~sc1) != 0 ? 1u << OVER_EXACT : 0) | ((sc3 & ~cared) != 0 ? 1u << OVER_DONT_CARE : 0);
    for (uint64_t left = bits; left != 0;) {
        uint64_t syllable = lowest_syllable(p[DUSHVANETH_SDR], left);
        found |= differ(syllable & cared, sc1) || differ(syllable & cared, sc2) ? 1u << TWO_CODES : 0;
        found |= differ(syllable & cared, sc3) ? 1u << TWO_SETTINGS : 0;
        left &= ~syllable;
    }
    return found;
}

/* Over which syllables a word is equal to COMP that are at least or at most, as a set. Only their cared bits have a one in SC3. */
static unsigned equal_over(const uint64_t *p, uint64_t bits, uint64_t word)
{
    unsigned found = 0;
    for (uint64_t left = bits; left != 0;) {
        uint64_t syllable = lowest_syllable(p[DUSHVANETH_SDR], left), cared = syllable & p[DUSHVANETH_SC3];
        if (cared != 0 && ((word ^ p[DUSHVANETH_COMP]) & cared) == 0) {
            found |= 1u << ((cared & p[DUSHVANETH_SC2]) != 0 ? AT_MOST_EQUAL : AT_LEAST_EQUAL);
        }
        left &= ~syllable;
    }
    return found;
}

/* The same of all words that a search took, as they were before it: those that have the target bits now. */
static unsigned equal_words(const uint64_t *p, uint64_t bits)
{
    const uint8_t *after = at(0, 1), target = (uint8_t)p[DUSHVANETH_TARGET];
    unsigned found = 0;
    for (size_t i = 0; i < now.lent[0].length && target != 0; i++) {
        uint64_t word;
        memcpy(&word, now.lent[0].bytes + 8 * i, 8);
        found |= (after[i] & target) == target ? equal_over(p, bits, word) : 0;
    }
    return found;
}

/* Whether SC3 is all that 4 can be for. */
static bool only_sc3_too_wide(const uint64_t *p, uint64_t bits)
{
    uint64_t others = p[DUSHVANETH_COMP] | p[DUSHVANETH_SDR] | p[DUSHVANETH_SC1] | p[DUSHVANETH_SC2] | p[DUSHVANETH_MOR];
    return (others & ~bits) == 0 && (p[DUSHVANETH_KEY] | p[DUSHVANETH_CARE] | p[DUSHVANETH_TARGET]) <= 255;
}

/* Counts what the pulse that was just made came to, from what was lent to it. */
static void count_pulse(void)
{
    uint64_t p[DUSHVANETH_PANEL], bits;
    unsigned found = 0;
    if (now.returned != 0 && now.returned != 4 && now.returned != 5) {
        return; /* the width may be none, or the panel of another length */
    }
    bits = ones((uint32_t)now.number[0]);
    memcpy(p, now.lent[2].bytes, sizeof p);
    if (now.returned == 0 && (now.number[1] & DUSHVANETH_SEARCH) != 0) {
        found = equal_words(p, bits);
    } else if (now.returned == 4) {
        found = only_sc3_too_wide(p, bits) ? 1u << SC3_TOO_WIDE : 0;
    } else if (now.returned == 5) {
        found = reasons(p, bits);
        found = (found & (found - 1)) == 0 ? found : 0; /* one reason alone */
    }
    for (int k = 0; k < SEARCHED; k++) {
        searched[k] += found >> k & 1;
    }
}
