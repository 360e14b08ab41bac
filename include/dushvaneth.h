/* Dushvaneth: a proved software associative processor, called from C99 or C++.
 *
 * A machine is three things that the caller keeps and lends to each call: its words (up to 1,024 numbers), one byte of
 * response bits for each word, and its width, the number of bits that each word has. A panel is a buffer of registers, a job
 * a record of bytes. The library keeps nothing, allocates nothing and never stops the program.
 *
 * EVERY CALL TAKES ANY INPUT. Each function returns 0 if it accepted, or else the number of a refusal: always the one that comes
 * first, of all that apply, in the order 1 to 7, 20 to 25, 9, 10, 11 (the array's calls have an order of their own, below), and
 * everything that was lent to it then stands as before, but for the answer. A null pointer with length 0 is an empty buffer.
 *
 * THE ANSWER. Each function but dushvaneth_load has an answer, its last buffer: the first number is the refusal's number (the one
 * returned), the second what a refusal also answers, the others are the call's values, all 0 on a refusal. A longer buffer is
 * fine: what is behind the answer stays. One that is too short is refused with 10, if no other number comes before it, and stays
 * as it was.
 *
 * WHAT A CALLER IS TRUSTED WITH, since no call can check it: each pointer is good for the length beside it (counted in
 * elements, not bytes) and aligned for its type, and no two buffers of one call overlap. Everything else is checked. */
#ifndef DUSHVANETH_H
#define DUSHVANETH_H

#include <stddef.h>
#include <stdint.h>

#ifdef __cplusplus
extern "C" {
#endif

/* A word's response bits, one byte: bits 0 to 7. Key, care and target are bits of the same kind. */
typedef uint8_t dushvaneth_response;

/* The most words that a machine has, and the most bits that a word has. */
#define DUSHVANETH_MOST_WORDS 1024
#define DUSHVANETH_MOST_WIDTH 64

/* ---- the numbers that a call returns, in the order in which they are checked; there is no 8 */

enum dushvaneth_number {
    /* The call was accepted. */
    DUSHVANETH_ACCEPTED = 0,
    /* There are no words, more than 1,024, or not one response for each word. Also: a panel or a job's record of a wrong length. */
    DUSHVANETH_REFUSED_SIZE = 1,
    /* The width is not 1 to 64 bits. */
    DUSHVANETH_REFUSED_WIDTH = 2,
    /* A word has a one outside the width. The answer also says the lowest such word. */
    DUSHVANETH_REFUSED_WORD_TOO_WIDE = 3,
    /* COMP, SDR, SC1, SC2, SC3 or MOR has a one outside the width, whichever lines are raised. Also: key, care or target above
     * 255. */
    DUSHVANETH_REFUSED_PANEL_TOO_WIDE = 4,
    /* A search is asked for, and in one syllable the bits that are no don't-care bits carry two different codes or two different
     * settings of SC3, or SC3 has a one over an exact or don't-care bit. */
    DUSHVANETH_REFUSED_TWO_CODES = 5,
    /* No line is raised, three or more are, or complement is raised with another. Also: bit 7 of the line byte. */
    DUSHVANETH_REFUSED_WRONG_LINES = 6,
    /* Read, write or add is raised, and the address is the number of words or more; or the word asked about is. */
    DUSHVANETH_REFUSED_NO_SUCH_WORD = 7,
    /* A syllable that the job uses has width 0. The answer also says the syllable: enum dushvaneth_syllable. */
    DUSHVANETH_REFUSED_EMPTY_SYLLABLE = 20,
    /* A syllable that the job uses goes beyond the word's top bit. The answer also says the syllable. */
    DUSHVANETH_REFUSED_BEYOND_WORD = 21,
    /* The job's result P overlaps A or B, from which it is worked out. The answer also says the syllable that P overlaps. */
    DUSHVANETH_REFUSED_OVERLAP = 22,
    /* X, Y or F, where it is used, is above 7: there is no such response bit. */
    DUSHVANETH_REFUSED_NO_SUCH_BIT = 23,
    /* X, where it is used, is the same bit as Y or F, or a working bit that the job uses stands in its care. */
    DUSHVANETH_REFUSED_BITS_CLASH = 24,
    /* The job's kind is unknown, and then nothing else of it is judged; or, of a held job, its place is unknown or a field that it does
     * not use is not 0; or a start while a job is held, a step or a total while none is, a total of a job that is not at its first place. */
    DUSHVANETH_REFUSED_WRONG_JOB = 25,
    /* The bytes are not the image of a machine. The answer also says the offset of the first field that is cut off or breaks a
     * rule, or of the first byte too many. */
    DUSHVANETH_REFUSED_MALFORMED = 9,
    /* A buffer that was lent for the result is too short: the output for the image, or a destination for its n words or n
     * responses. Also: the answer's buffer, of any call. */
    DUSHVANETH_REFUSED_NO_ROOM = 10,
    /* The answer is for a word other than the one show would give now. */
    DUSHVANETH_REFUSED_NOT_SHOWN = 11,
    /* A cell has a one in both planes: it is neither 0, 1 nor X. Only the array's calls give it. */
    DUSHVANETH_REFUSED_NO_CELL = 12
};

/* In every answer: the number returned, and what a refusal also answers (0 for nothing). */
#define DUSHVANETH_REFUSAL 0
#define DUSHVANETH_ALSO 1

/* The syllable that 20, 21 and 22 also answer: the first that is wrong, A before B before P; for 22 A or B. */
enum dushvaneth_syllable { DUSHVANETH_SYLLABLE_A = 1, DUSHVANETH_SYLLABLE_B = 2, DUSHVANETH_SYLLABLE_P = 3 };

/* ---- the panel: a buffer of DUSHVANETH_PANEL numbers, each register at the place of its number */

/* A word is cut into syllables by SDR: a one there makes that bit the top bit of a syllable, which runs down to the bit above the
 * next such one, or to bit 0; the word's top bit always starts one. Searches compare and adds carry within a syllable. */
enum dushvaneth_register {
    DUSHVANETH_COMP = 0,    /* the comparand: what to search for, write or add */
    DUSHVANETH_SDR = 1,     /* the top bits of the syllables */
    DUSHVANETH_SC1 = 2,     /* with SC2 and SC3 what is asked of each bit, enum dushvaneth_code: SC1 has its 2, SC2 its 1, SC3 its 4 */
    DUSHVANETH_SC2 = 3,
    DUSHVANETH_MOR = 4,     /* the bits that a write writes, and the bits of COMP that an add adds. A carry goes on above them, up to the
                             * top bit of its syllable: cut the syllable off by SDR */
    DUSHVANETH_KEY = 5,     /* with care: a word is selected if its responses are the key's at every bit of care */
    DUSHVANETH_CARE = 6,
    DUSHVANETH_TARGET = 7,  /* the response bits that a search makes 1 in matching words and 0 in all others, selected or not, and that a
                             * complement flips in selected words */
    DUSHVANETH_ADDRESS = 8, /* the word that read, write and add go to */
    DUSHVANETH_SC3 = 9,     /* a one over each bit of a larger or smaller syllable that is no don't-care bit: at least, at most */
    DUSHVANETH_PANEL = 10   /* how many registers there are */
};

/* What a search asks of a bit. In a syllable all bits are asked the same, don't-care bits aside, which are taken as 0: the word's number
 * there must be equal to COMP's, larger, smaller, at least COMP's or at most. A word matches if it is selected and all its syllables are
 * satisfied. */
enum dushvaneth_code {
    DUSHVANETH_DONT_CARE = 0,
    DUSHVANETH_EXACT = 1,
    DUSHVANETH_LARGER = 2,
    DUSHVANETH_SMALLER = 3,
    DUSHVANETH_AT_LEAST = 6,
    DUSHVANETH_AT_MOST = 7
};

/* The line byte of a pulse: one line or a pair of the first six, or complement alone. All results are worked out from the machine before
 * the pulse: where search and multiwrite are raised together, the words written are those that were selected before. Two writes on one word
 * write once, two adds add once; where a write and an add meet on one word, each asks for certain bits to flip, those at which its own result
 * differs from the word, and a bit flips if either asks. */
enum dushvaneth_line {
    DUSHVANETH_SEARCH = 1,
    DUSHVANETH_READ = 2,
    DUSHVANETH_WRITE = 4,
    DUSHVANETH_ADD = 8,
    DUSHVANETH_MULTIWRITE = 16,
    DUSHVANETH_MULTIADD = 32,
    DUSHVANETH_COMPLEMENT = 64
};

/* Loads one register of the panel and leaves every other as it is. Returns 1 for a panel that is not DUSHVANETH_PANEL numbers
 * long; 4 if key, care or target is above 255, in the panel as it stands or as it would be loaded, or if there is no register of
 * that number. A host may as well store into the buffer itself: what it holds is judged by the pulse. */
uint32_t dushvaneth_load(uint64_t *panel, size_t panel_length, uint8_t reg, uint64_t value);

/* ---- a pulse */

#define DUSHVANETH_PULSE_COUNT 2  /* the matching words, which are selected, if search is raised, else the selected ones */
#define DUSHVANETH_PULSE_READ 3   /* the addressed word before the pulse, 0 if read isn't raised */
#define DUSHVANETH_PULSE_ANSWER 4 /* how many numbers the answer has */

/* One pulse of the machine on all its words: search, read, write, add, multiwrite, multiadd, complement. The panel stays as it
 * is. Answers the count and the word read. Returns 1 to 7, 10. */
uint32_t dushvaneth_wide_pulse(uint64_t *words, size_t words_length, dushvaneth_response *responses, size_t responses_length,
                               uint32_t width, const uint64_t *panel, size_t panel_length, uint8_t lines, uint64_t *answer,
                               size_t answer_length);

/* The same pulse worked out cell by cell, as the board's own cells do it: slower, and proved to agree. Answers the count and the
 * word read. Returns 1 to 7, 10. */
uint32_t dushvaneth_cells_pulse(uint64_t *words, size_t words_length, dushvaneth_response *responses, size_t responses_length,
                                uint32_t width, const uint64_t *panel, size_t panel_length, uint8_t lines, uint64_t *answer,
                                size_t answer_length);

/* ---- the explainer: why a word is picked by a search under the panel, or why it is not */

/* Which answer was given. A syllable is told by the number of its top bit, and is judged from there down: */
enum dushvaneth_reason {
    DUSHVANETH_MATCHED = 1,            /* the search matches the word */
    DUSHVANETH_NOT_SELECTED = 2,       /* the word is not selected; the bit is the lowest response bit that differs from the key, of those
                                        * that care has */
    DUSHVANETH_AGAINST = 3,            /* the word is selected; the syllable is the topmost that is not satisfied, the bit that at which it
                                        * was settled against: the first, from the top, at which word and COMP differ, don't-care bits aside */
    DUSHVANETH_EQUAL_TO_THE_BOTTOM = 4 /* the word is selected; the syllable is the topmost that is not satisfied: it asks for larger or
                                        * smaller, without SC3, and found no difference */
};

#define DUSHVANETH_EXPLAINED_REASON 2   /* enum dushvaneth_reason */
#define DUSHVANETH_EXPLAINED_SYLLABLE 3 /* the syllable's top bit, 0 where none is told */
#define DUSHVANETH_EXPLAINED_BIT 4      /* the response bit, or the word's bit, 0 where none is told */
#define DUSHVANETH_EXPLAINED_ANSWER 5   /* how many numbers the answer has */

/* Says of one word why a search under the panel picks it, or why it does not. Changes nothing. The panel's address, target and MOR play no
 * part, but target and MOR are judged for 4, as in a search. Answers the reason, and the syllable and the bit that go with it. Returns 1 to
 * 5 as for a search, 7 if the word's number is the number of words or more, 10. */
uint32_t dushvaneth_explain(const uint64_t *words, size_t words_length, const dushvaneth_response *responses,
                            size_t responses_length, uint32_t width, const uint64_t *panel, size_t panel_length, size_t word,
                            uint64_t *answer, size_t answer_length);

/* ---- resolution: which word is the lowest one */

#define DUSHVANETH_FOUND 2           /* 1 if there is such a word, 0 if there is none */
#define DUSHVANETH_FOUND_WORD 3      /* its number, 0 if there is none */
#define DUSHVANETH_RESOLVED_ANSWER 4 /* how many numbers the answer has */

/* Finds the lowest selected word under key and care by a scan from word 0. Changes nothing. Answers found and its number.
 * Returns 1 to 3, 10. */
uint32_t dushvaneth_scan(const uint64_t *words, size_t words_length, const dushvaneth_response *responses,
                         size_t responses_length, uint32_t width, dushvaneth_response key, dushvaneth_response care,
                         uint64_t *answer, size_t answer_length);

/* The same by a tree that halves the words until one is left. Changes nothing. Answers found and its number, as the scan does.
 * Returns 1 to 3, 10. */
uint32_t dushvaneth_network(const uint64_t *words, size_t words_length, const dushvaneth_response *responses,
                            size_t responses_length, uint32_t width, dushvaneth_response key, dushvaneth_response care,
                            uint64_t *answer, size_t answer_length);

/* ---- the hand-out round
 *
 * A search marks those who are to be handed out at response bit x. Store an image; then in turn: show, act, answer, store an image; until
 * show finds none. After a stop, go on from the last image: the word that was not answered is shown again, and nobody is skipped. An answer
 * leaves no trace but f on a faulty word: to know later who was in the round, let the search mark a second bit too. */

/* What the host says of the word that it was shown. Any other number says faulty too: no word is called done by mistake. */
enum dushvaneth_verdict { DUSHVANETH_FAULTY = 0, DUSHVANETH_DONE = 1 };

/* Shows the lowest word that has response bit x (0 to 7), or none, which ends the round. Changes nothing. Answers found and its
 * number, as resolution does. Returns 1 to 3, 23, 10. */
uint32_t dushvaneth_show(const uint64_t *words, size_t words_length, const dushvaneth_response *responses,
                         size_t responses_length, uint32_t width, uint8_t x, uint64_t *answer, size_t answer_length);

#define DUSHVANETH_REPLY_ANSWER 2 /* how many numbers the answer has: refusal and also-value */

/* Answers for the word just shown: done clears its bit x, faulty clears its bit x and sets its bit f. Only the word that show
 * would give now is taken, any other is 11. Answers nothing more. Returns 1 to 3, 23, 24, 10, 11. */
uint32_t dushvaneth_answer(const uint64_t *words, size_t words_length, dushvaneth_response *responses, size_t responses_length,
                           uint32_t width, uint8_t x, uint8_t f, size_t word, uint8_t verdict, uint64_t *answer,
                           size_t answer_length);

#define DUSHVANETH_ROUND_DONE 2   /* how many words were answered done */
#define DUSHVANETH_ROUND_FAULTY 3 /* and how many faulty */
#define DUSHVANETH_ROUND_ANSWER 4 /* how many numbers the answer has */

/* A whole round at once: every word with bit x is answered, the lowest first, with the verdict at its number; a word that the
 * list of verdicts doesn't reach is faulty. Answers how many were done and how many faulty. Returns 1 to 3, 23, 24, 10. */
uint32_t dushvaneth_round(const uint64_t *words, size_t words_length, dushvaneth_response *responses, size_t responses_length,
                          uint32_t width, uint8_t x, uint8_t f, const uint8_t *verdicts, size_t verdicts_length,
                          uint64_t *answer, size_t answer_length);

/* ---- jobs: arithmetic in every word, one pulse at each step
 *
 * Fill a record, start it, then step until no job is held, storing an image whenever you like: a job goes on from any of them. A job
 * overwrites its working bits in all words, whatever stood there, and leaves Y as its last search did; all other response bits, and all
 * bits of the words but P's, stay. */

enum dushvaneth_kind {
    DUSHVANETH_GREATEST = 1,   /* X marks the selected words whose A is greatest */
    DUSHVANETH_SMALLEST = 2,   /* X marks the selected words whose A is smallest */
    DUSHVANETH_SCALED_ADD = 3, /* P becomes P + c times A in the selected words, modulo 2 to P's width */
    DUSHVANETH_PRODUCT = 4     /* P becomes P + A times B in the selected words, modulo 2 to P's width */
};

/* A job is a record of DUSHVANETH_RECORD bytes, as an image has it; no job is a record of no bytes: lend it with length 0. So a host
 * keeps the record and its length, which is DUSHVANETH_RECORD times the number that a call answers under .._HELD: see
 * dushvaneth_record_length. Where each field stands: */
#define DUSHVANETH_JOB_KIND 0
#define DUSHVANETH_JOB_KEY 1  /* the criterion: key and care */
#define DUSHVANETH_JOB_CARE 2
#define DUSHVANETH_JOB_X 3    /* working response bits, not in care: X for greatest and smallest only, Y for all kinds */
#define DUSHVANETH_JOB_Y 4
#define DUSHVANETH_JOB_A 5    /* a syllable is two bytes, its lowest bit and its width; B is for products only, P not for extremes */
#define DUSHVANETH_JOB_B 7
#define DUSHVANETH_JOB_P 9
#define DUSHVANETH_JOB_PHASE 11 /* phase, i and j are the job's place: a start sets them */
#define DUSHVANETH_JOB_I 12
#define DUSHVANETH_JOB_J 13
#define DUSHVANETH_JOB_C 14   /* c, 8 bytes, low byte first: see dushvaneth_set_c */
#define DUSHVANETH_RECORD 22

#define DUSHVANETH_START_HELD 2   /* 1: the job is held */
#define DUSHVANETH_START_ANSWER 3 /* how many numbers the answer has */

/* Starts the job offered, while `held` (a record, or no bytes; a buffer of its own) says that none is. The record offered becomes the one
 * held, at its first place and with unused fields 0. What is wrong with the job offered comes before 25 for one that is held, which is not
 * judged itself. Answers that it is held. Returns 1 to 3, 20 to 25, 10. */
uint32_t dushvaneth_start(const uint64_t *words, size_t words_length, const dushvaneth_response *responses,
                          size_t responses_length, uint32_t width, const uint8_t *held, size_t held_length, uint8_t *job,
                          size_t job_length, uint64_t *answer, size_t answer_length);

#define DUSHVANETH_STEP_PANEL 2                                                  /* the command given: its registers .. */
#define DUSHVANETH_STEP_LINES (DUSHVANETH_STEP_PANEL + (int)DUSHVANETH_PANEL)    /* .. and its line byte */
#define DUSHVANETH_STEP_COUNT (DUSHVANETH_STEP_LINES + 1)                        /* the count of its pulse */
#define DUSHVANETH_STEP_HELD (DUSHVANETH_STEP_LINES + 2)                         /* 1 if a job is still held, 0 after its last pulse */
#define DUSHVANETH_STEP_ANSWER (DUSHVANETH_STEP_LINES + 3)                       /* how many numbers the answer has */
#define DUSHVANETH_LONGEST_ANSWER DUSHVANETH_STEP_ANSWER                         /* a buffer of so many has room for every call's */

/* Gives the held job's next command and does its pulse on the machine; the record becomes the job's next place, or all zeros after
 * its last pulse. Answers the command, its count and whether a job is still held. Returns 1 to 3, 20 to 25, 10. */
uint32_t dushvaneth_step(uint64_t *words, size_t words_length, dushvaneth_response *responses, size_t responses_length,
                         uint32_t width, uint8_t *job, size_t job_length, uint64_t *answer, size_t answer_length);

#define DUSHVANETH_TOTAL_PULSES 2 /* how many steps the job takes */
#define DUSHVANETH_TOTAL_ANSWER 3 /* how many numbers the answer has */

/* Says how many pulses the held job takes on this machine, while it stands at its first place. Changes nothing. Answers that number.
 * Returns 1 to 3, 20 to 25, 10. */
uint32_t dushvaneth_total(const uint64_t *words, size_t words_length, const dushvaneth_response *responses,
                          size_t responses_length, uint32_t width, const uint8_t *job, size_t job_length, uint64_t *answer,
                          size_t answer_length);

/* ---- images: a machine and its held job as bytes, to store and to resume from
 *
 * Four sections, each after its count in 4 bytes, low byte first like every number: width, count 1, one byte; words, count n, 8 bytes each;
 * responses, count n, one byte each; job, count 0 or 1, a record. The panel is not in it. An image has no check sum: bytes that are no
 * machine's image are refused, but a bit that flipped in a word makes another machine. Where storage can do that, add a check of your own. */

/* How many bytes the image of so many words has, with so many jobs held (0 or 1). */
#define DUSHVANETH_IMAGE(words, jobs) (17 + 9 * (size_t)(words) + DUSHVANETH_RECORD * (size_t)(jobs))

#define DUSHVANETH_IMAGE_SIZE 2   /* how many bytes were written */
#define DUSHVANETH_IMAGE_WRITE_ANSWER 3 /* how many numbers the answer has */

/* Writes the image of the machine and its held job (a record, or no bytes) to the front of `image`; what is behind it stays. Each
 * machine has one image. Answers its size. Returns 1 to 3, 20 to 25, 10. */
uint32_t dushvaneth_write(const uint64_t *words, size_t words_length, const dushvaneth_response *responses,
                          size_t responses_length, uint32_t width, const uint8_t *job, size_t job_length, uint8_t *image,
                          size_t image_length, uint64_t *answer, size_t answer_length);

#define DUSHVANETH_IMAGE_WIDTH 2  /* the machine's width */
#define DUSHVANETH_IMAGE_WORDS 3  /* how many words it has */
#define DUSHVANETH_IMAGE_HELD 4   /* 1 if a job is held, 0 if none is */
#define DUSHVANETH_IMAGE_READ_ANSWER 5 /* how many numbers the answer has */

/* Reads an image back: its words and responses go to the front of the two buffers, which may be longer, and the held job into the record, a
 * buffer of DUSHVANETH_RECORD bytes, all zeros if there is none. A damaged job in it is 9, at the record's place. Answers width, number of
 * words and whether a job is held. Returns 1 (the record's length), 9, 10. */
uint32_t dushvaneth_read(const uint8_t *image, size_t image_length, uint64_t *words, size_t words_length,
                         dushvaneth_response *responses, size_t responses_length, uint8_t *job, size_t job_length,
                         uint64_t *answer, size_t answer_length);

/* ---- the array of three-state cells
 *
 * Cell i of a word is 1 if `ones` has bit i, X if `xs` has it, and 0 if neither has. A word's selectors are a byte: bit 0 is latch P,
 * bit 1 latch S. R1, R2 and M are a buffer of three numbers, and loaded by a read.
 *
 * Its calls give these numbers, in this order:
 *  1  There are no words, more than 1,024, or the two planes and the selectors are not of one length. Also: registers that are not
 *     three.
 *  2  The width is not 1 to 64 cells.
 *  3  A word has a one outside the width in either plane. The answer also says the lowest such word.
 * 12  A cell has a one in both planes: it is neither 0, 1 nor X.
 *  4  R1, R2 or M has a one outside the width, whichever the operation uses.
 *  6  The code names no operation.
 * 10  The answer's buffer is too short. */

#define DUSHVANETH_ARRAY_REGISTERS 3
#define DUSHVANETH_ARRAY_R1 2     /* R1, R2 and M after the operation */
#define DUSHVANETH_ARRAY_R2 3
#define DUSHVANETH_ARRAY_M 4
#define DUSHVANETH_ARRAY_COUNT 5  /* the operation's count */
#define DUSHVANETH_ARRAY_ANSWER 6 /* how many numbers the answer has */

/* An operation's code, from its choices. Data: 0 R1, 1 R2. Mask: 0 M, 1 all ones, 2 all zeros. Words: 0 those that agree, 1 those that
 * don't. Search's set: 0 P, 1 S; the others': also 2 for none. How: 0 replace, 1 and, 2 or. Sense: 0 true, 1 complement. Sink: 0 R1,
 * 1 R2, 2 M. Kind: 0 normal, 1 special. */
#define DUSHVANETH_ARRAY_SEARCH(data, mask, words, set, how)                                                                      \
    (0u | (uint32_t)(data) << 2 | (uint32_t)(mask) << 4 | (uint32_t)(words) << 6 | (uint32_t)(set) << 8 | (uint32_t)(how) << 10)
#define DUSHVANETH_ARRAY_READ(set, sense, sink, mask)                                                                             \
    (1u | (uint32_t)(set) << 2 | (uint32_t)(sense) << 4 | (uint32_t)(sink) << 6 | (uint32_t)(mask) << 8)
#define DUSHVANETH_ARRAY_WRITE(kind, data, mask, set, sense)                                                                      \
    (2u | (uint32_t)(kind) << 2 | (uint32_t)(data) << 4 | (uint32_t)(mask) << 6 | (uint32_t)(set) << 8 | (uint32_t)(sense) << 10)

/* One operation on the array: search, read or write. Answers R1, R2 and M after it, which also stand in `registers` then, and the count.
 * Returns, in this order, 1, 2, 3, 12, 4, then 6 for a code that names no operation, and 10. */
uint32_t dushvaneth_array_wide(uint64_t *ones, size_t ones_length, uint64_t *xs, size_t xs_length, uint8_t *selectors,
                               size_t selectors_length, uint64_t *registers, size_t registers_length, uint32_t width,
                               uint32_t code, uint64_t *answer, size_t answer_length);

/* The same worked out cell by cell: slower, and proved to agree. Answers as the other does. Returns, in this order, 1, 2, 3, 12, 4, 6,
 * 10. */
uint32_t dushvaneth_array_cells(uint64_t *ones, size_t ones_length, uint64_t *xs, size_t xs_length, uint8_t *selectors,
                                size_t selectors_length, uint64_t *registers, size_t registers_length, uint32_t width,
                                uint32_t code, uint64_t *answer, size_t answer_length);

/* ---- helpers: places and small loads, no calls */

/* A blank panel: every register 0. */
static inline void dushvaneth_blank(uint64_t panel[DUSHVANETH_PANEL])
{
    int i;
    for (i = 0; i < (int)DUSHVANETH_PANEL; i++) {
        panel[i] = 0;
    }
}

/* Asks a search for the syllable of so many bits from bit low up: DUSHVANETH_EXACT, _LARGER, _SMALLER, _AT_LEAST or _AT_MOST, and what the
 * syllable is held against. DUSHVANETH_DONT_CARE takes it back. It is cut off from the bits above and below; a cut that an earlier call made
 * within it stays. Of several that are asked for a word has to satisfy all. A syllable that is no part of 64 bits is not asked for. */
static inline void dushvaneth_ask(uint64_t panel[DUSHVANETH_PANEL], unsigned low, unsigned width, unsigned code, uint64_t value)
{
    uint64_t bits;
    if (width == 0 || width > 64 || low > 64 - width) {
        return;
    }
    bits = ~(uint64_t)0 >> (64 - width) << low;
    panel[DUSHVANETH_SDR] |= (uint64_t)1 << (low + width - 1) | (low > 0 ? (uint64_t)1 << (low - 1) : 0);
    panel[DUSHVANETH_COMP] = (panel[DUSHVANETH_COMP] & ~bits) | (value << low & bits);
    panel[DUSHVANETH_SC1] = (panel[DUSHVANETH_SC1] & ~bits) | (code & 2 ? bits : 0);
    panel[DUSHVANETH_SC2] = (panel[DUSHVANETH_SC2] & ~bits) | (code & 1 ? bits : 0);
    panel[DUSHVANETH_SC3] = (panel[DUSHVANETH_SC3] & ~bits) | (code & 4 ? bits : 0);
}

/* How many words the image says that it has, 0 if it is too short to say: what the two buffers of a reading must hold. */
static inline uint64_t dushvaneth_image_words(const uint8_t *image, size_t image_length)
{
    return image_length < 9 ? 0 : image[5] | (uint64_t)image[6] << 8 | (uint64_t)image[7] << 16 | (uint64_t)image[8] << 24;
}

/* A syllable of a job's record: DUSHVANETH_JOB_A, _B or _P, its lowest bit and its width. */
static inline void dushvaneth_set_syllable(uint8_t job[DUSHVANETH_RECORD], int which, uint8_t low, uint8_t width)
{
    job[which] = low;
    job[which + 1] = width;
}

/* The length to lend a record with, after a call that answered whether a job is held: answer[DUSHVANETH_STEP_HELD] or the like. */
static inline size_t dushvaneth_record_length(uint64_t held)
{
    return held ? (size_t)DUSHVANETH_RECORD : 0;
}

/* The constant c of a scaled add. */
static inline void dushvaneth_set_c(uint8_t job[DUSHVANETH_RECORD], uint64_t c)
{
    int i;
    for (i = 0; i < 8; i++) {
        job[DUSHVANETH_JOB_C + i] = (uint8_t)(c >> (8 * i));
    }
}

#ifdef __cplusplus
}
#endif

#endif
