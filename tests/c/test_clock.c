/* The time per unit, and the clocks that STCK stores: time 0 is refused, and any two clocks of a run differ, of a run that is
   cut and resumed too. Guests write every clock to a new place, and every value is known before the run. */
#include "running.h"

#define LEAST DREVOKAS_LEAST_TIME
#define MOST DREVOKAS_MOST_TIME

/* The guest: origin 0, extent 3, page n in frame 3 + n. Page 0 has the guest's tables, handlers, text and PSWs; clocks go into
   the others. The host's segment table is in frame 1, its page table in frame 2. */
#define PAGES 48u
#define FRAMES (3 + PAGES)
#define PAGE_0 (3 * 4096)
#define PAGE_ENTRY_AT(page) (0x2000 + 4 * (page))
#define FRAME_OF(page) ((3 + (page)) * 4096)
#define BEYOND (PAGES * 4096)
#define CALL_HANDLER 0x180u
#define PROGRAM_HANDLER 0x190u
#define START 0x200u
#define PLACE 0xcf8
#define PSWS 0xd00u
#define GUEST_PAGES 0xe40u
#define CLOCKS 0x1000u

#define PSW_OVERFLOW BIT(20)
#define PSW_BAD BIT(17) /* must be zero, except in BC */
#define BC_OVERFLOW BIT(4)

enum form { XA, XA_LONG, XA_DAT, EC, BC, FORMS };

/* A guest that loops, and for each unit of a pass whether it stores a clock. */
struct course {
    struct machine m;
    enum form form;
    uint64_t random;
    uint32_t text_at, psw_at, first_clock;
    int call_clock, program_clock; /* whether a handler stores a clock */
    int exits;                     /* whether other ends than budget used may come */
    uint32_t units;
    char clocks[256];
};

struct timing {
    uint64_t clock, epoch;
    uint32_t time, budget;
};

/* One of 0 to n - 1. */
static uint32_t one_of(struct course *c, uint32_t n)
{
    c->random ^= c->random << 13;
    c->random ^= c->random >> 7;
    c->random ^= c->random << 17;
    return (uint32_t)(c->random >> 24) % n;
}

/* ---- the guest ---- */

static uint32_t left_of(enum form form)
{
    if (form == BC)
        return 0;
    return PSW_BASE | PSW_OVERFLOW | (form == XA_DAT ? PSW_DAT : 0);
}

static uint32_t right_of(enum form form, uint32_t address)
{
    if (form == BC)
        return BC_OVERFLOW | address;
    return form == EC ? address : PSW_31 | address;
}

static void put_word(struct course *c, uint32_t real, uint32_t word)
{
    put32(c->m.storage.at + PAGE_0 + real, word);
}

static void put_psw(struct course *c, uint32_t real, uint32_t bits, uint32_t address)
{
    put_word(c, real, left_of(c->form) | bits);
    put_word(c, real + 4, right_of(c->form, address));
}

static void put_half(struct course *c, uint32_t text)
{
    put16(c->m.storage.at + PAGE_0 + c->text_at, text);
    c->text_at += 2;
}

static void put_full(struct course *c, uint32_t text)
{
    put_word(c, c->text_at, text);
    c->text_at += 4;
}

/* Units of a pass: * stores a clock. */
static void put_units(struct course *c, const char *units)
{
    size_t len = strlen(units);

    memcpy(c->clocks + c->units, units, len);
    c->units += (uint32_t)len;
}

enum then { GOES_ON, CALLS, EXCEPTS };

/* Parts of a text, with the units of each, and whether the last one interrupts. Registers 8, 9 and 10 have 1, the largest
   number and BEYOND. */
static const struct {
    uint16_t text[6];
    int halves;
    const char *units;
    enum then then;
} parts[] = {
    {{0xb205, 0x2000, 0x4120, 0x2008}, 4, "*.", GOES_ON},                  /* STCK 0(2); LA 2,8(2) */
    {{0xb205, 0x2000, 0xb205, 0x2008, 0x4120, 0x2010}, 6, "**.", GOES_ON}, /* STCK 0(2); STCK 8(2); LA 2,16(2) */
    {{0x0a07}, 1, ".", CALLS},                                             /* SVC 7 */
    {{0x8300, 0x0000}, 2, "", GOES_ON},                                    /* DIAGNOSE: code 4, no unit */
    {{0x0000}, 1, ".", EXCEPTS},                                           /* operation */
    {{0xd200, 0x0000, 0x0000}, 3, ".", EXCEPTS},                           /* operation */
    {{0x5850, 0xa000}, 2, ".", EXCEPTS},                                   /* L 5,0(10): addressing */
    {{0x8200, 0x0004}, 2, ".", EXCEPTS},                                   /* LPSW 4: specification */
    {{0x1879, 0x1a78}, 2, "..", EXCEPTS},                                  /* LR 7,9; AR 7,8: overflow */
    {{0x5850, PLACE, 0x1a58, 0x5050, PLACE}, 5, "...", GOES_ON},           /* L 5,PLACE; AR 5,8; ST 5,PLACE */
    {{0x4700, 0x0000}, 2, ".", GOES_ON},                                   /* BC 0,0 */
};

enum { CLOCK, TWO_CLOCKS, CALL, EXIT, PARTS = sizeof parts / sizeof *parts, LOAD_PSW = PARTS, LOAD_BAD_PSW, BRANCH, ALL_PARTS };

static void put_text(struct course *c, uint32_t part)
{
    int i;

    for (i = 0; i < parts[part].halves; i++)
        put_half(c, parts[part].text[i]);
}

/* SVC's handler goes back by its old PSW, that of program exceptions by the old PSW's address. */
static void put_handlers(struct course *c)
{
    put_psw(c, 96, 0, CALL_HANDLER);
    put_psw(c, 104, 0, PROGRAM_HANDLER);
    c->text_at = CALL_HANDLER;
    if (c->call_clock)
        put_text(c, CLOCK);
    put_full(c, 0x82000020u); /* LPSW 32 */
    c->text_at = PROGRAM_HANDLER;
    if (c->program_clock)
        put_text(c, CLOCK);
    put_full(c, 0x5860002cu); /* L 6,44 */
    put_half(c, 0x07f6);      /* BCR 15,6 */
    c->text_at = START;
}

static void put_handler_units(struct course *c, enum then then)
{
    if (then == CALLS)
        put_units(c, c->call_clock ? "*.." : ".");
    if (then == EXCEPTS)
        put_units(c, c->program_clock ? "*..." : "..");
}

/* LPSW of a PSW for the next instruction. */
static void put_load_psw(struct course *c, uint32_t bits)
{
    put_full(c, 0x82000000u | c->psw_at);
    put_psw(c, c->psw_at, bits, c->text_at);
    c->psw_at += 8;
    put_units(c, ".");
}

static void put_branch(struct course *c, uint32_t address)
{
    put_full(c, 0x47f00000u | address); /* BC 15,address */
    put_units(c, ".");
}

static void put_part(struct course *c, uint32_t part)
{
    if (part == BRANCH) {
        put_branch(c, c->text_at + 4);
    } else if (part == LOAD_PSW || (part == LOAD_BAD_PSW && c->form == BC)) {
        put_load_psw(c, 0);
    } else if (part == LOAD_BAD_PSW) {
        put_load_psw(c, PSW_BAD);
        put_units(c, ".");
        put_handler_units(c, EXCEPTS);
    } else {
        put_text(c, part);
        put_units(c, parts[part].units);
        put_handler_units(c, parts[part].then);
    }
}

/* The host's tables, and the guest's, which are for DAT: every page is its own real page. */
static void put_tables(struct course *c)
{
    uint32_t page;

    put32(c->m.storage.at + 0x1000, 0x2002);
    put_word(c, 0, GUEST_PAGES | 3);
    put_word(c, GUEST_PAGES + 4 * PAGES, BEYOND);
    for (page = 0; page < PAGES; page++) {
        put32(c->m.storage.at + PAGE_ENTRY_AT(page), FRAME_OF(page));
        put_word(c, GUEST_PAGES + 4 * page, page * 4096);
    }
}

/* A guest of this form with handlers and no text. Clocks begin at any byte, so that some of them cross a page. */
static struct course course_of(enum form form, uint32_t seed)
{
    struct course c;

    memset(&c, 0, sizeof c);
    c.m = machine_of(FRAMES);
    c.form = form;
    c.random = 0x9e3779b97f4a7c15u * (seed + 1);
    c.psw_at = PSWS;
    c.first_clock = CLOCKS + one_of(&c, 8);
    c.call_clock = (int)one_of(&c, 2);
    c.program_clock = (int)one_of(&c, 2);
    if (form != XA)
        lengthen(&c.m);
    if (form == EC || form == BC)
        c.m.record.at[AT_MODE] = MODE_370;
    put16(c.m.record.at + AT_EXTENT, PAGES / 16);
    put32(c.m.record.at + AT_PSW, left_of(form));
    put32(c.m.record.at + AT_PSW + 4, right_of(form, START));
    put32(c.m.record.at + AT_CR0, CR0_FORMAT);
    memset(c.m.record.at + AT_RESULTS, 0xee, RESULT_BYTES);
    put_general(&c.m, 2, c.first_clock);
    put_general(&c.m, 8, 1);
    put_general(&c.m, 9, 0x7fffffff);
    put_general(&c.m, 10, BEYOND);
    put_tables(&c);
    put_handlers(&c);
    return c;
}

/* A pass of STCK, LA and BC; and one with SVC between. */
static struct course loop_of(enum form form, int calls)
{
    struct course c = course_of(form, 0);

    put_part(&c, CLOCK);
    if (calls)
        put_part(&c, CALL);
    put_branch(&c, START);
    return c;
}

/* ---- the run ---- */

/* Whether a run goes on after this end: it is budget used, DIAGNOSE, or a page that the host gives now. */
static int goes_on(struct machine *m, uint64_t answer, uint64_t where)
{
    uint32_t page = drevokas_address(where) / 4096;

    if (drevokas_kind(answer) == DREVOKAS_HOST_FAULT && page < PAGES && drevokas_entry(where) == PAGE_ENTRY_AT(page)) {
        put32(m->storage.at + PAGE_ENTRY_AT(page), FRAME_OF(page));
        return 1;
    }
    return drevokas_kind(answer) == DREVOKAS_BUDGET_USED
        || (drevokas_kind(answer) == DREVOKAS_INTERCEPTED && drevokas_number(answer) == DREVOKAS_CODE_INSTRUCTION);
}

#define MOST_CALLS 10000u

/* Runs the whole budget in calls of so many units at most, each with the clock advanced by units times time. Answers how many
   calls there were; 0 where one did not go on, or too many did. */
static uint32_t run_in_calls(struct machine *m, const struct timing *t, uint32_t most)
{
    uint32_t left = t->budget, calls = 0;
    uint64_t clock = t->clock, where = 0;

    put64(m->record.at + AT_EPOCH, t->epoch);
    do {
        uint64_t answer = run(m, clock, t->time, left < most ? left : most, &where);

        if (!goes_on(m, answer, where) || calls == MOST_CALLS)
            return 0;
        clock += (uint64_t)drevokas_units(answer) * t->time;
        left -= drevokas_units(answer);
        calls++;
    } while (left > 0);
    return calls;
}

static const uint8_t *clock_at(const struct course *c, uint32_t n)
{
    return c->m.storage.at + PAGE_0 + c->first_clock + 8 * n;
}

/* How many clocks stand one behind the other, each the guest clock of its unit's start; behind them nothing. */
static uint32_t count_clocks(const struct course *c, const struct timing *t)
{
    uint32_t unit, n = 0;

    for (unit = 0; unit < t->budget; unit++) {
        if (c->clocks[unit % c->units] != '*')
            continue;
        if (!EXPECT(get64(clock_at(c, n)) == t->clock + t->epoch + (uint64_t)unit * t->time))
            return n;
        n++;
    }
    EXPECT(get64(clock_at(c, n)) == 0);
    return n;
}

static int compare_clocks(const void *a, const void *b)
{
    uint64_t x = *(const uint64_t *)a, y = *(const uint64_t *)b;

    return x < y ? -1 : x > y;
}

static int all_differ(uint64_t *values, uint32_t count)
{
    uint32_t i;

    qsort(values, count, sizeof *values, compare_clocks);
    for (i = 1; i < count; i++)
        if (values[i - 1] == values[i])
            return 0;
    return 1;
}

/* The clocks in storage are what they should be, and any two of them differ. Answers how many there are. */
static uint32_t expect_clocks(const struct course *c, const struct timing *t)
{
    static uint64_t values[PAGES * 512];
    uint32_t count = count_clocks(c, t), i;

    for (i = 0; i < count; i++)
        values[i] = get64(clock_at(c, i));
    EXPECT(all_differ(values, count));
    return count;
}

static int same_state(const struct machine *a, const struct machine *b)
{
    return memcmp(a->record.at, b->record.at, a->record.len) == 0
        && memcmp(a->storage.at, b->storage.at, a->storage.len) == 0
        && memcmp(a->keys.at, b->keys.at, a->keys.len) == 0;
}

/* ---- refusal 6 ---- */

static void test_limits(void)
{
    EXPECT(DREVOKAS_LEAST_TIME == 1 && DREVOKAS_MOST_TIME == 1048576 && DREVOKAS_REFUSAL_TIME == 6);
}

static void try_refused(struct machine *m)
{
    static const uint32_t times[] = {0, MOST + 1, 0x80000000u, 0xffffffffu};
    static const uint32_t budgets[] = {0, 1, 65535};
    size_t i;

    for (i = 0; i < 12; i++)
        RUN_REFUSED(m, times[i / 3], budgets[i % 3], 6);
}

/* With and without STCK and a stop request, and where entry fails. */
static void test_refused(void)
{
    int form;

    for (form = 0; form < FORMS; form++) {
        struct course c = loop_of((enum form)form, 1), bare = course_of((enum form)form, 0);

        put_branch(&bare, START);
        try_refused(&c.m);
        try_refused(&bare.m);
        c.m.record.at[AT_REQUESTS] = 4;
        try_refused(&c.m);
        c.m.record.at[AT_MODE] = 0;
        try_refused(&c.m);
        discard(&c.m);
        discard(&bare.m);
    }
}

static void try_accepted(enum form form, uint32_t time, uint32_t budget)
{
    struct course c = loop_of(form, 0);
    uint64_t where = NOT_TOUCHED;

    EXPECT(run(&c.m, 0, time, budget, &where) == ended(DREVOKAS_BUDGET_USED, 0, budget));
    EXPECT(where == 0);
    EXPECT(get64(c.m.record.at + AT_TIMER) == (uint64_t)0 - (uint64_t)budget * time);
    discard(&c.m);
}

static void test_accepted(void)
{
    static const uint32_t times[] = {LEAST, LEAST + 1, MOST - 1, MOST};
    static const uint32_t budgets[] = {0, 1, 65535};
    int i;

    for (i = 0; i < 12 * FORMS; i++)
        try_accepted((enum form)(i / 12), times[i / 3 % 4], budgets[i % 3]);
}

/* Time 0 among the other refusals, from the last of them to the first. */
static void try_order(enum form form)
{
    struct machine m = loop_of(form, 0).m;
    int is_long = form != XA;

    m.record.at[AT_MODE] = 0;
    RUN_REFUSED(&m, 0, 0, 6);
    m.record.at[is_long ? 203 : AT_RESERVED] = 1;
    RUN_REFUSED(&m, LEAST, 0, 7);
    RUN_REFUSED(&m, 0, 0, 6);
    RUN_REFUSED(&m, 0, 65535, 6);
    RUN_REFUSED(&m, 0, 65536, 5);
    resize(&m.keys, FRAMES - 1);
    RUN_REFUSED(&m, 0, 65536, 4);
    RUN_REFUSED(&m, 0, 1, 4);
    resize(&m.storage, FRAMES * 4096 - 1);
    RUN_REFUSED(&m, 0, 1, 3);
    m.record.at[AT_VERSION] = is_long ? 1 : 2;
    RUN_REFUSED(&m, 0, 1, 2);
    put16(m.record.at + AT_LENGTH, is_long ? 200 : 208);
    RUN_REFUSED(&m, 0, 1, 1);
    discard(&m);
}

static void test_order(void)
{
    int form;

    for (form = 0; form < FORMS; form++)
        try_order((enum form)form);
}

/* Each byte that refusal 7 is about, and a residue out of range, come behind. */
static void test_before_reserved(void)
{
    static const int bytes[] = {66, 67, 68, 69, 70, 71, 201, 202, 203};
    struct machine m = loop_of(BC, 0).m;
    size_t i;

    for (i = 0; i < 9; i++) {
        m.record.at[bytes[i]] = 0x80;
        RUN_REFUSED(&m, LEAST, 1, 7);
        RUN_REFUSED(&m, 0, 1, 6);
        m.record.at[bytes[i]] = 0;
    }
    put32(m.record.at + AT_RESIDUE, INTERVAL_PERIOD);
    RUN_REFUSED(&m, LEAST, 1, 7);
    RUN_REFUSED(&m, 0, 1, 6);
    discard(&m);
}

/* ---- clocks ---- */

/* The largest budget, in one call and in some. */
static void try_largest(enum form form, int calls, struct timing t)
{
    struct course whole = loop_of(form, calls), cut = loop_of(form, calls);
    uint32_t passes = (65535 + whole.units - 1) / whole.units;

    EXPECT(run_in_calls(&whole.m, &t, t.budget) == 1);
    EXPECT(run_in_calls(&cut.m, &t, 4095) == 17);
    EXPECT(expect_clocks(&whole, &t) >= passes);
    EXPECT(same_state(&whole.m, &cut.m));
    discard(&whole.m);
    discard(&cut.m);
}

/* The guest clock wraps in the run, in one of the two by the epoch. */
static void test_largest(void)
{
    static const struct timing least = {0x123456789abcdef0u, 0u - 0x123456789abcdef0u - 1000, LEAST, 65535};
    static const struct timing most = {0u - (uint64_t)30000 * MOST, 5, MOST, 65535};
    int form;

    for (form = 0; form < FORMS; form++) {
        try_largest((enum form)form, 0, form % 2 ? least : most);
        try_largest((enum form)form, 1, form % 2 ? most : least);
    }
}

static struct timing timing_of(struct course *c)
{
    static const uint32_t times[] = {LEAST, 2, 4096, MOST};
    static const uint64_t clocks[] = {0, 1, 0x1122334455667788u, 0x7fffffffffffffffu, 0xffffffffffffffffu, 0xfffffffffffffff0u};
    static const uint64_t epochs[] = {0, 1, 0x1000000010u, 0x8000000000000000u, 0xffffffffffffffffu};
    struct timing t;

    t.time = times[one_of(c, 4)];
    t.budget = 1 + one_of(c, 400);
    t.clock = clocks[one_of(c, 6)] - (uint64_t)one_of(c, 100) * t.time;
    t.epoch = epochs[one_of(c, 5)] - (one_of(c, 2) ? t.clock : 0);
    return t;
}

/* A guest that a seed gives, and when it runs. Some exit; for some the host has no page for clocks until it is asked for. */
static struct course seeded(uint32_t seed, struct timing *t)
{
    struct course c = course_of((enum form)(seed % FORMS), seed);
    int exits = one_of(&c, 3) == 0, absent = one_of(&c, 3) == 0;
    uint32_t count = 1 + one_of(&c, 20), part;

    c.exits = exits || absent;
    for (; count > 0; count--) {
        part = one_of(&c, ALL_PARTS);
        put_part(&c, part == EXIT && !exits ? CLOCK : part);
    }
    put_part(&c, one_of(&c, 2) ? CLOCK : TWO_CLOCKS);
    put_branch(&c, START);
    *t = timing_of(&c);
    if (absent)
        memset(c.m.storage.at + PAGE_ENTRY_AT(1), 0xff, 4 * (PAGES - 1));
    return c;
}

/* In one call if nothing ends it, in calls of one unit, and in calls of some. */
static void try_seed(uint32_t seed)
{
    struct timing t;
    struct course whole = seeded(seed, &t), single = seeded(seed, &t), some = seeded(seed, &t);
    uint32_t most = 2 + one_of(&some, 30), calls;

    calls = run_in_calls(&whole.m, &t, t.budget);
    EXPECT(whole.exits ? calls >= 1 : calls == 1);
    EXPECT(run_in_calls(&single.m, &t, 1) >= t.budget);
    EXPECT(run_in_calls(&some.m, &t, most) != 0);
    expect_clocks(&whole, &t);
    EXPECT(same_state(&whole.m, &single.m) && same_state(&whole.m, &some.m));
    discard(&whole.m);
    discard(&single.m);
    discard(&some.m);
}

static void test_seeds(void)
{
    uint32_t seed;

    for (seed = 0; seed < 400; seed++)
        try_seed(seed);
}

int main(void)
{
    test_limits();
    test_refused();
    test_accepted();
    test_order();
    test_before_reserved();
    test_largest();
    test_seeds();
    return expect_end();
}
