/* The host: what it keeps over its calls, and sound arguments for each; random.c's middle. What trial.h spoils is not carried on, so that
 * jobs, rounds and images get to their ends. */
static struct {
    size_t n;
    uint32_t width;
    uint64_t words[MOST];
    uint8_t responses[MOST];
    uint64_t panel[DUSHVANETH_PANEL];
    uint8_t x, f;
    bool held;
    uint8_t job[DUSHVANETH_RECORD];
    size_t image_length;
    uint8_t image[REGION];
} host;
static struct {
    size_t n;
    uint32_t width;
    uint64_t one[MOST], x[MOST], registers[DUSHVANETH_ARRAY_REGISTERS];
    uint8_t selectors[MOST];
} array;

/* How often a host got to an end. */
static const char *const ends[] = {"greatest", "smallest", "scaled add", "product", "resumed", "resumed in a job", "round"};
enum { RESUMED = 4, RESUMED_IN_A_JOB, ROUND, ENDS };
static unsigned long ended[ENDS];

static size_t any_size(void)
{
    return once_in(60) ? 1023 + below(2) : once_in(10) ? 1 + below(130) : 1 + below(12);
}

static uint32_t any_width(void)
{
    return once_in(4) ? 64 : (uint32_t)(1 + below(64));
}

/* COMP mostly a word or near one, now and then one syllable alone, the address now and then past the words. */
static void new_panel(void)
{
    uint64_t *p = host.panel, bits = ones(host.width);
    uint64_t near = host.words[below(host.n)];
    memset(p, 0, sizeof host.panel);
    p[DUSHVANETH_COMP] = once_in(3) ? any() & bits : once_in(2) ? near : near ^ (any() & any() & any() & any() & bits);
    p[DUSHVANETH_SDR] = once_in(6) ? 0 : any() & any() & any() & bits;
    p[DUSHVANETH_MOR] = any() & bits;
    new_codes(p, bits);
    p[DUSHVANETH_KEY] = any() & 255;
    p[DUSHVANETH_CARE] = few_bits();
    p[DUSHVANETH_TARGET] = few_bits() | (once_in(4) ? 0 : 1u << host.x);
    p[DUSHVANETH_ADDRESS] = once_in(10) ? host.n + (any() & any() & any()) : below(host.n);
}

static void new_host(void)
{
    memset(&host, 0, sizeof host);
    host.n = any_size();
    host.width = any_width();
    for (size_t i = 0; i < host.n; i++) {
        host.words[i] = (once_in(2) && i > 0 ? host.words[i - 1] ^ (any() & any() & any() & any()) : any()) & ones(host.width);
        host.responses[i] = (uint8_t)any();
    }
    host.x = (uint8_t)below(8);
    host.f = (uint8_t)((host.x + 1 + below(7)) % 8);
    new_panel();
    array.n = any_size();
    array.width = any_width();
    for (int i = 0; i < DUSHVANETH_ARRAY_REGISTERS; i++) {
        array.registers[i] = any() & ones(array.width);
    }
    for (size_t i = 0; i < array.n; i++) {
        array.x[i] = any() & any() & ones(array.width);
        array.one[i] = (array.registers[0] ^ (any() & any() & any())) & ones(array.width) & ~array.x[i];
        array.selectors[i] = (uint8_t)any();
    }
}

static void begin(int which)
{
    now.which = which;
    now.buffers = now.numbers = 0;
    now.number[0] = 0;
    now.spoilt = now.no_room = false;
}

/* Words, responses and width; what may change goes home. */
static void machine(int which, bool words, bool responses)
{
    begin(which);
    lend(8, host.words, host.n, words ? host.words : NULL);
    lend(1, host.responses, host.n, responses ? host.responses : NULL);
    give(host.width);
}

/* What a register may hold. SC3 is SC1 half of the time: at least and at most then for larger and smaller. */
static uint64_t any_value(uint8_t r)
{
    if (r == DUSHVANETH_SC3 && once_in(2)) {
        return host.panel[DUSHVANETH_SC1];
    }
    return r < DUSHVANETH_KEY || r == DUSHVANETH_SC3 ? any() & ones(host.width) : r < DUSHVANETH_ADDRESS ? any() & 255 : below(host.n);
}

static void load(void)
{
    uint8_t r = (uint8_t)below(DUSHVANETH_PANEL);
    begin(at_load);
    lend(8, host.panel, DUSHVANETH_PANEL, host.panel);
    give(r);
    give(any_value(r));
    made(false);
}

static void pulse(void)
{
    uint64_t first = once_in(2) ? 0 : below(6); /* a search, half of the time */
    if (once_in(2)) {
        new_panel();
    }
    machine(once_in(2) || (host.n > 100 && !once_in(9)) ? at_wide_pulse : at_cells_pulse, true, true);
    lend(8, host.panel, DUSHVANETH_PANEL, NULL);
    give(once_in(8) ? DUSHVANETH_COMPLEMENT : 1u << first | (once_in(2) ? 1u << below(6) : 0));
    made(false);
    count_pulse();
}

/* A number that no word has: right behind them, or one whose low bits are a word's number. */
static uint64_t no_word(void)
{
    uint64_t behind = host.n + below(3), high = below(host.n) | UINT64_C(1) << (11 + below(53));
    return once_in(2) ? behind : once_in(4) ? UINT64_MAX : high;
}

/* A word that is equal to COMP, if there is one from here on; else this one. */
static size_t equal_word(size_t from)
{
    for (size_t i = from; i < host.n; i++) {
        if (host.words[i] == host.panel[DUSHVANETH_COMP]) {
            return i;
        }
    }
    return from;
}

/* Half of the time care has many bits, and the key is this word's response in all but a few of them. */
static void aim_at(size_t word)
{
    if (once_in(2)) {
        host.panel[DUSHVANETH_KEY] = host.responses[word] ^ (once_in(2) ? 0 : few_bits());
        host.panel[DUSHVANETH_CARE] = any() & 255;
    }
}

/* A register of the panel that is lent with one bit too high for it, if it has such bits: the address has none, the others of the width have none
 * at 64 bits. */
static void stray_register(void)
{
    uint64_t k = below(DUSHVANETH_PANEL), high = k >= DUSHVANETH_KEY && k <= DUSHVANETH_TARGET ? 8 : host.width, value;
    if (k != DUSHVANETH_ADDRESS && high < 64) {
        memcpy(&value, now.lent[2].bytes + 8 * k, 8);
        value |= UINT64_C(1) << (high + below(64 - high));
        memcpy(now.lent[2].bytes + 8 * k, &value, 8);
    }
}

static void explain(void)
{
    if (!once_in(4)) {
        new_panel();
    }
    size_t word = once_in(2) ? equal_word(below(host.n)) : below(host.n);
    aim_at(word);
    machine(at_explain, false, false);
    lend(8, host.panel, DUSHVANETH_PANEL, NULL);
    if (once_in(10)) {
        stray_register();
    }
    give(once_in(8) ? no_word() : word);
    now.no_room = once_in(12);
    made(false);
}

static void resolve(void)
{
    machine(once_in(2) ? at_scan : at_network, false, false);
    give(any() & 255);
    give(few_bits());
    made(false);
}

/* The word that show would give. */
static size_t lowest(void)
{
    size_t i = 0;
    while (i < host.n && (host.responses[i] >> host.x & 1) == 0) {
        i++;
    }
    return i;
}

/* Not one of the eight response bits, now and then; then the call is refused. */
static uint8_t perhaps_no_bit(uint8_t bit) { return once_in(12) ? (uint8_t)(8 + below(248)) : bit; }

/* The round's X and F, now and then the same, which is refused too. */
static void give_bits(void)
{
    give(perhaps_no_bit(once_in(12) ? host.f : host.x));
    give(perhaps_no_bit(host.f));
}

static void show(void)
{
    machine(at_show, false, false);
    give(perhaps_no_bit(host.x));
    if (made(false)) {
        ended[ROUND] += answered(DUSHVANETH_FOUND) == 0;
    }
}

static void answer(void)
{
    machine(at_answer, false, true);
    give_bits();
    give(once_in(5) ? below(host.n + 1) : lowest());
    give(below(3));
    made(false);
}

static void whole_round(void)
{
    uint8_t verdicts[MOST];
    for (size_t i = 0; i < sizeof verdicts; i++) {
        verdicts[i] = (uint8_t)(below(9) == 0 ? any() : below(2));
    }
    machine(at_round, false, true);
    give_bits();
    lend(1, verdicts, below(host.n + 3), NULL);
    made(false);
}

static void syllable(uint8_t *job, int which, uint64_t low, uint64_t width)
{
    dushvaneth_set_syllable(job, which, (uint8_t)low, (uint8_t)width);
}

/* A job that fits, if the width has room for it: P above A and B or below them. */
static void new_job(uint8_t *job)
{
    uint64_t kind = 1 + below(4), w = host.width, cut = w > 1 ? 1 + below(w - 1) : 1, a, from = 0, top = w;
    memset(job, 0, DUSHVANETH_RECORD);
    job[DUSHVANETH_JOB_KIND] = (uint8_t)kind;
    job[DUSHVANETH_JOB_X] = host.x;
    job[DUSHVANETH_JOB_Y] = host.f;
    job[DUSHVANETH_JOB_KEY] = (uint8_t)any();
    job[DUSHVANETH_JOB_CARE] = (uint8_t)(few_bits() & ~(1u << host.x | 1u << host.f));
    if (kind >= DUSHVANETH_SCALED_ADD) {
        bool above = once_in(2);
        uint64_t low = above ? cut + below(w - cut + 1) : below(cut);
        syllable(job, DUSHVANETH_JOB_P, low, 1 + below((above ? w : cut) - low + (low == w)));
        from = above ? 0 : cut;
        top = above ? cut : w;
    }
    a = from + below(top - from + (top == from));
    syllable(job, DUSHVANETH_JOB_A, a, 1 + below(top - a + (a == top)) % (kind == DUSHVANETH_PRODUCT ? 4 : 20));
    if (kind == DUSHVANETH_PRODUCT) {
        a = from + below(top - from + (top == from));
        syllable(job, DUSHVANETH_JOB_B, a, 1 + below(top - a + (a == top)) % 4);
    }
    dushvaneth_set_c(job, once_in(2) ? any() : below(8));
    if (once_in(3)) { /* unused fields are 0 after a start, whatever they were */
        job[DUSHVANETH_JOB_PHASE + below(3)] = (uint8_t)any();
        if (kind != DUSHVANETH_PRODUCT) {
            job[DUSHVANETH_JOB_B + below(2)] = (uint8_t)any();
        }
    }
}

static void total(void)
{
    machine(at_total, false, false);
    lend(1, host.job, host.held || once_in(4) ? DUSHVANETH_RECORD : 0, NULL);
    made_with_job(2, false);
}

static void step(void)
{
    machine(at_step, true, true);
    lend(1, host.job, host.held || once_in(4) ? DUSHVANETH_RECORD : 0, host.job);
    uint8_t kind = host.job[DUSHVANETH_JOB_KIND];
    if (made_with_job(2, once_in(2))) {
        host.held = answered(DUSHVANETH_STEP_HELD) != 0;
        ended[kind - DUSHVANETH_GREATEST] += !host.held;
    }
}

static void write_image(void)
{
    size_t size = DUSHVANETH_IMAGE(host.n, host.held);
    machine(at_write, false, false);
    lend(1, host.job, host.held ? DUSHVANETH_RECORD : 0, NULL);
    memset(host.image, (int)below(256), size + 9);
    lend(1, host.image, size + below(9), host.image);
    host.image_length = made_with_job(2, false) ? (size_t)answered(DUSHVANETH_IMAGE_SIZE) : 0;
}

static void start(void)
{
    uint8_t job[DUSHVANETH_RECORD];
    new_job(job);
    machine(at_start, false, false);
    lend(1, host.job, host.held ? DUSHVANETH_RECORD : 0, NULL);
    lend(1, job, DUSHVANETH_RECORD, host.job);
    host.held = made_with_job(3, false) || host.held;
    if (host.held) { /* by chance alone these two come up mostly while none is, and then judge no job */
        total();
        write_image();
    }
}

/* Hits the counts, the width and the job more than the words. */
static void damage(struct lent *image)
{
    size_t n = image->length, k = once_in(2) ? below(n) : once_in(2) ? below(9) : n - 1 - below(n < 30 ? n : 30);
    switch (below(4)) {
    case 0: image->length = below(n); break;
    case 1: image->length += 1 + below(3); break;
    case 2: image->bytes[k] = (uint8_t)(image->bytes[k] + 1 - 2 * below(2)); break;
    default: image->bytes[k] = (uint8_t)any();
    }
}

static void read_image(void)
{
    uint8_t job[DUSHVANETH_RECORD];
    memset(job, (int)below(256), sizeof job);
    if (host.image_length == 0) {
        write_image();
        return;
    }
    begin(at_read);
    lend(1, host.image, host.image_length, NULL);
    bool damaged = once_in(2);
    if (damaged) {
        memset(now.lent[0].bytes + host.image_length, 0, 4);
        damage(&now.lent[0]);
    }
    size_t room = host.image_length / 9 + below(4);
    lend(8, host.words, room, damaged ? NULL : host.words);
    lend(1, host.responses, room, damaged ? NULL : host.responses);
    lend(1, job, DUSHVANETH_RECORD, damaged ? NULL : host.job);
    if (made(damaged) && !damaged) {
        host.n = (size_t)answered(DUSHVANETH_IMAGE_WORDS);
        host.width = (uint32_t)answered(DUSHVANETH_IMAGE_WIDTH);
        host.held = answered(DUSHVANETH_IMAGE_HELD) != 0;
        ended[host.held ? RESUMED_IN_A_JOB : RESUMED]++;
    }
}

static void operate(void)
{
    uint64_t d = any();
#define D(k, n) ((d >> 8 * (k) & 255) % (n))
    uint32_t codes[3] = {DUSHVANETH_ARRAY_SEARCH(D(0, 2), D(1, 3), D(2, 2), D(3, 2), D(4, 3)),
                         DUSHVANETH_ARRAY_READ(D(0, 3), D(1, 2), D(2, 3), D(3, 3)),
                         DUSHVANETH_ARRAY_WRITE(D(0, 2), D(1, 2), D(2, 3), D(3, 3), D(4, 2))};
    begin(once_in(2) || (array.n > 100 && !once_in(9)) ? at_array_wide : at_array_cells);
    lend(8, array.one, array.n, array.one);
    lend(8, array.x, array.n, array.x);
    lend(1, array.selectors, array.n, array.selectors);
    lend(8, array.registers, DUSHVANETH_ARRAY_REGISTERS, array.registers);
    give(array.width);
    give(codes[below(3)] ^ (once_in(10) ? 1u << below(32) : 0));
    made(false);
}
