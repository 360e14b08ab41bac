/* Jobs with something wrong, and what was named as wrong; host.h's part for request d of document 02. A record that is spoilt by chance alone
 * hardly ever has an empty syllable, or a result over a source, so each of 20 to 25 is made here, and two of them at once as often as one. */

/* What 20, 21 and 22 named, by the call that judged the job. The last: one of 20 to 24 was returned where there was no room either, which is 10
 * and comes after them. */
static const char *const named_as[] = {"20 A", "20 B", "20 P", "21 A", "21 B", "21 P", "22 A", "22 B", "before 10"};
enum { BEFORE_10 = 8, NAMED };
static unsigned long named[functions][NAMED];
static const int judging[] = {at_start, at_step, at_total, at_write};

/* One of the syllables that a job uses: B is for products only, so it is taken more often there, and P not for extremes. */
static uint8_t *any_syllable(uint8_t *job)
{
    static const int places[] = {DUSHVANETH_JOB_A, DUSHVANETH_JOB_P, DUSHVANETH_JOB_B, DUSHVANETH_JOB_B};
    uint8_t kind = job[DUSHVANETH_JOB_KIND];
    return job + places[below(kind >= DUSHVANETH_PRODUCT ? 4 : kind == DUSHVANETH_SCALED_ADD ? 2 : 1)];
}

/* 21: too far up by one bit, or by any number of them; or too wide. */
static void put_beyond(uint8_t *syllable, uint64_t width)
{
    uint64_t more = 1 + (once_in(2) ? 0 : below(100));
    if (once_in(2)) {
        syllable[0] = (uint8_t)(width - syllable[1] + more);
    } else {
        syllable[1] = (uint8_t)(width - syllable[0] + more);
    }
}

/* 22: P starts at a bit of A or B, and is one bit wide or goes on from there. An extreme has no P. */
static void put_over_source(uint8_t *job, uint64_t width)
{
    const uint8_t *source = job + (job[DUSHVANETH_JOB_KIND] == DUSHVANETH_PRODUCT && !once_in(3) ? DUSHVANETH_JOB_B : DUSHVANETH_JOB_A);
    if (job[DUSHVANETH_JOB_KIND] >= DUSHVANETH_SCALED_ADD && source[1] > 0) {
        uint64_t low = source[0] + below(source[1]);
        dushvaneth_set_syllable(job, DUSHVANETH_JOB_P, (uint8_t)low, (uint8_t)(once_in(2) || low >= width ? 1 : 1 + below(width - low)));
    }
}

/* 24: X and Y the same, or one of them in care. */
static void put_clash(uint8_t *job)
{
    if (once_in(2)) {
        job[DUSHVANETH_JOB_X] = job[DUSHVANETH_JOB_Y];
    } else {
        job[DUSHVANETH_JOB_CARE] |= (uint8_t)(1u << (job[DUSHVANETH_JOB_X + below(2)] & 7));
    }
}

/* 25: another kind, another place, or a field that the job may not use; of these a start judges the kind alone. */
static void put_wrong(uint8_t *job)
{
    static const int fields[] = {DUSHVANETH_JOB_KIND, DUSHVANETH_JOB_PHASE, DUSHVANETH_JOB_I, DUSHVANETH_JOB_J,
                                 DUSHVANETH_JOB_X,    DUSHVANETH_JOB_B,     DUSHVANETH_JOB_P, DUSHVANETH_JOB_C};
    job[once_in(3) ? DUSHVANETH_JOB_KIND : fields[below(sizeof fields / sizeof *fields)]] += (uint8_t)(1 + below(9));
}

/* Makes something wrong with a job, in so far as its kind has it: what that number is for. */
static void spoil_job(uint8_t *job, uint64_t width, uint64_t number)
{
    switch (number) {
    case DUSHVANETH_REFUSED_EMPTY_SYLLABLE: any_syllable(job)[1] = 0; break;
    case DUSHVANETH_REFUSED_BEYOND_WORD: put_beyond(any_syllable(job), width); break;
    case DUSHVANETH_REFUSED_OVERLAP: put_over_source(job, width); break;
    case DUSHVANETH_REFUSED_NO_SUCH_BIT: job[DUSHVANETH_JOB_X + below(2)] = (uint8_t)(8 + below(248)); break;
    case DUSHVANETH_REFUSED_BITS_CLASH: put_clash(job); break;
    default: put_wrong(job);
    }
}

/* One thing wrong, or two: often what the next number is for, since those two show their order best. */
static void make_unfit(uint8_t *job, uint64_t width)
{
    uint64_t number = 20 + below(6);
    spoil_job(job, width, number);
    if (once_in(2)) {
        spoil_job(job, width, once_in(3) ? 20 + below(6) : 20 + (number - 19) % 6);
    }
}

/* Where a writing's image stands among its buffers. */
enum { WRITTEN = 3 };

/* The record that is lent as buffer k, if one is, with something wrong now and then, and at times no room either. Where it is accepted for all
 * that, it is another job than the host's, so that nothing of the call is carried on. */
static void perhaps_unfit(int k)
{
    struct lent *record = &now.lent[k];
    if (record->length != DUSHVANETH_RECORD || !once_in(3)) {
        return;
    }
    make_unfit(record->bytes, now.number[0]);
    now.spoilt = true;
    now.no_room = once_in(6);
    if (now.which == at_write && once_in(6)) {
        resize(&now.lent[WRITTEN], below(now.lent[WRITTEN].length));
    }
}

/* Counts the syllable that was named, if the answer had room for it, and whether 10 applied too. */
static void count_named(void)
{
    uint32_t r = now.returned;
    bool told_so = now.lent[now.buffers - 1].length >= answers[now.which];
    bool image_fits = now.which != at_write || now.lent[WRITTEN].length >= DUSHVANETH_IMAGE(now.lent[0].length, 1);
    if (told_so && r >= DUSHVANETH_REFUSED_EMPTY_SYLLABLE && r <= DUSHVANETH_REFUSED_OVERLAP) {
        named[now.which][3 * (r - DUSHVANETH_REFUSED_EMPTY_SYLLABLE) + answered(DUSHVANETH_ALSO) - DUSHVANETH_SYLLABLE_A]++;
    }
    if (r >= DUSHVANETH_REFUSED_EMPTY_SYLLABLE && r <= DUSHVANETH_REFUSED_BITS_CLASH && !(told_so && image_fits)) {
        named[now.which][BEFORE_10]++;
    }
}

/* A call that judges the job in buffer k. */
static bool made_with_job(int k, bool sound)
{
    perhaps_unfit(k);
    bool home = made(sound);
    count_named();
    return home;
}
