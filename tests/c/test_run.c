/* The run operation, called from C: its ends, what it leaves alone, a run that is cut at every unit, and the table that a host
   fault names. The setup is that of document 01's worked examples, with guest page 0 in frame 3. */
#include "running.h"
#include "ways.h"

#define PAGE_0 (3 * 4096)
#define START 0x200

static struct machine guest(const uint8_t *text, size_t len)
{
    struct machine m = machine_of(8);

    put32(m.record.at + AT_PSW, PSW_BASE);
    put32(m.record.at + AT_PSW + 4, PSW_31 | START);
    put32(m.storage.at + 4096, 0x2000);
    put32(m.storage.at + 8192, 0x3000);
    put32(m.storage.at + 8196, 0x400);
    memcpy(m.storage.at + PAGE_0 + START, text, len);
    return m;
}

static const uint8_t add_loop[] = {0x1a, 0x12, 0x47, 0xf0, 0x02, 0x00}; /* AR 1,2; BC 15,X'200' */

static void test_loop(void)
{
    struct machine m = guest(add_loop, sizeof add_loop);
    uint64_t where = NOT_TOUCHED;

    put_general(&m, 2, 3);
    EXPECT(run(&m, 0, 5, 10, &where) == ended(DREVOKAS_BUDGET_USED, 0, 10));
    EXPECT(where == 0);
    EXPECT(general(&m, 1) == 15);
    EXPECT(get32(m.record.at + AT_PSW) == (PSW_BASE | BIT(18)));
    EXPECT(get32(m.record.at + AT_PSW + 4) == (PSW_31 | START));
    EXPECT(get32(m.record.at + AT_TIMER) == 0xffffffffu && get32(m.record.at + AT_TIMER + 4) == 0xffffffceu);
    EXPECT(m.keys.at[3] == 4);
    discard(&m);
}

/* document 01: V byte 04 hex, time 1 */
static void test_stop(void)
{
    struct machine m = guest(add_loop, sizeof add_loop);
    uint64_t where = NOT_TOUCHED;

    m.record.at[AT_REQUESTS] = 4;
    EXPECT(run(&m, 0, 1, 0, &where) == ended(DREVOKAS_BUDGET_USED, 0, 0));
    EXPECT(where == 0);
    where = NOT_TOUCHED;
    EXPECT(run(&m, 0, 1, 1, &where) == ended(DREVOKAS_INTERCEPTED, DREVOKAS_CODE_STOP, 0));
    EXPECT(where == 0);
    EXPECT(m.record.at[AT_RESULTS] == DREVOKAS_CODE_STOP);
    EXPECT(get32(m.record.at + AT_TIMER + 4) == 0);
    discard(&m);
}

static void test_refusals(void)
{
    struct machine m = guest(add_loop, sizeof add_loop);

    RUN_REFUSED(&m, 1, 65536, DREVOKAS_REFUSAL_BUDGET);
    RUN_REFUSED(&m, 1048577, 1, DREVOKAS_REFUSAL_TIME);
    m.record.at[AT_RESERVED + 5] = 1;
    RUN_REFUSED(&m, 1, 1, DREVOKAS_REFUSAL_RESERVED);
    resize(&m.keys, 7);
    RUN_REFUSED(&m, 1, 1, DREVOKAS_REFUSAL_KEYS);
    resize(&m.storage, 0);
    RUN_REFUSED(&m, 1, 1, DREVOKAS_REFUSAL_STORAGE);
    m.record.at[AT_VERSION] = 2;
    RUN_REFUSED(&m, 1, 1, DREVOKAS_REFUSAL_VERSION);
    resize(&m.record, 199);
    RUN_REFUSED(&m, 1, 1, DREVOKAS_REFUSAL_LENGTH);
    resize(&m.record, 0);
    RUN_REFUSED(&m, 1, 1, DREVOKAS_REFUSAL_LENGTH);
    discard(&m);
}

/* a store whose second byte stands on a host page that is not there: the unit is undone, and goes on when the page is */
static void test_host_fault(void)
{
    static const uint8_t text[] = {0x50, 0x10, 0x0f, 0xff, 0x0a, 0x07}; /* ST 1,X'FFF'; SVC 7 */
    struct machine m = guest(text, sizeof text);
    uint64_t where = 0;

    put_general(&m, 1, 0x11223344);
    remember_all(&m);
    EXPECT(run(&m, 0, 1, 9, &where) == faulted(DREVOKAS_PAGE_TRANSLATION, 0, HOST_PAGE(8196)));
    EXPECT(where == where_in(4096, HOST_PAGE(8196)));
    EXPECT(all_unchanged(&m));
    put32(m.storage.at + 8196, 0x5000);
    EXPECT(run(&m, 0, 1, 1, &where) == ended(DREVOKAS_BUDGET_USED, 0, 1));
    EXPECT(where == 0);
    EXPECT(m.storage.at[PAGE_0 + 0xfff] == 0x11 && m.storage.at[5 * 4096] == 0x22 && m.storage.at[5 * 4096 + 2] == 0x44);
    EXPECT(m.keys.at[3] == 6 && m.keys.at[5] == 6);
    discard(&m);
}

static void test_entry_fails(void)
{
    struct machine m = guest(add_loop, sizeof add_loop);
    uint64_t where = NOT_TOUCHED;

    m.record.at[AT_MODE] = 0;
    EXPECT(run(&m, 0, 1, 1, &where) == ended(DREVOKAS_INTERCEPTED, DREVOKAS_CODE_VALIDITY, 0));
    EXPECT(where == 0);
    discard(&m);
}

static void test_supervisor_call(void)
{
    static const uint8_t text[] = {0x0a, 0x07};
    struct machine m = guest(text, sizeof text);
    uint64_t where = 0;

    put32(m.storage.at + PAGE_0 + 96, PSW_BASE | BIT(14));
    put32(m.storage.at + PAGE_0 + 100, PSW_31 | 0x300);
    EXPECT(run(&m, 0, 1, 9, &where) == ended(DREVOKAS_INTERCEPTED, DREVOKAS_CODE_WAIT, 1));
    EXPECT(get32(m.storage.at + PAGE_0 + 32) == PSW_BASE);
    EXPECT(get32(m.storage.at + PAGE_0 + 36) == (PSW_31 | (START + 2)));
    EXPECT(get32(m.storage.at + PAGE_0 + 136) == 0x00020007);
    EXPECT(get32(m.record.at + AT_PSW + 4) == (PSW_31 | 0x300));
    discard(&m);
}

static void test_operation_exception(void)
{
    static const uint8_t text[] = {0x00, 0x00};
    struct machine m = guest(text, sizeof text);
    uint64_t where = 0;

    m.record.at[AT_CONTROLS] = 0x80;
    EXPECT(run(&m, 0, 1, 9, &where) == ended(DREVOKAS_INTERCEPTED, DREVOKAS_CODE_OPERATION, 0));
    EXPECT(m.record.at[AT_RESULTS] == DREVOKAS_CODE_OPERATION && m.record.at[AT_RESULTS + 1] == 1);
    m.record.at[AT_CONTROLS] = 0x40;
    put32(m.record.at + AT_PSW + 4, PSW_31 | START);
    EXPECT(run(&m, 0, 1, 9, &where) == ended(DREVOKAS_INTERCEPTED, DREVOKAS_CODE_PROGRAM, 0));
    EXPECT(m.record.at[AT_RESULTS + 3] == 1);
    discard(&m);
}

/* The fault that started it all: a run cut at every unit and resumed is the uncut run, with the CPU timer crossing zero at
   each place once. */
static void test_cut_at_every_unit(void)
{
    uint32_t timer, cut;

    for (timer = 0; timer < 60; timer++) {
        struct machine whole = guest(add_loop, sizeof add_loop), parts = guest(add_loop, sizeof add_loop);
        uint64_t where = 0, clock = 0;

        put_general(&whole, 2, 1);
        put_general(&parts, 2, 1);
        put32(whole.record.at + AT_TIMER + 4, timer);
        put32(parts.record.at + AT_TIMER + 4, timer);
        EXPECT(run(&whole, 0, 5, 10, &where) == ended(DREVOKAS_BUDGET_USED, 0, 10));
        for (cut = 0; cut < 10; cut++) {
            EXPECT(run(&parts, clock, 5, 1, &where) == ended(DREVOKAS_BUDGET_USED, 0, 1));
            clock += 5;
        }
        EXPECT(memcmp(whole.record.at, parts.record.at, whole.record.len) == 0);
        EXPECT(memcmp(whole.storage.at, parts.storage.at, whole.storage.len) == 0);
        EXPECT(memcmp(whole.keys.at, parts.keys.at, whole.keys.len) == 0);
        discard(&whole);
        discard(&parts);
    }
}

/* A guest page that leads to the frame of the host's page table: what the guest stores there holds from the next unit on, for the pages
   that were used before, too. */
static void test_tables_stored_into(void)
{
    static const uint8_t text[] = {
        0x58, 0x10, 0x20, 0x00, /* L 1,0(2) */
        0x50, 0x00, 0x60, 0x00, /* ST 0,0(6): a store elsewhere */
        0x58, 0x30, 0x20, 0x00, /* L 3,0(2) */
        0x50, 0x70, 0x40, 0x04, /* ST 7,4(4): page 1 leads to frame 6 */
        0x58, 0x50, 0x20, 0x00, /* L 5,0(2) */
        0x50, 0x80, 0x40, 0x00, /* ST 8,0(4): page 0, with this text, leads to frame 7 */
        0x18, 0x99,             /* LR 9,9 in frame 3 */
    };
    struct machine m = guest(text, sizeof text);
    uint64_t where = NOT_TOUCHED;

    put32(m.storage.at + 8196, 0x4000); /* pages 1, 2 and 3: frames 4, 2 and 5 */
    put32(m.storage.at + 8200, 0x2000);
    put32(m.storage.at + 8204, 0x5000);
    put32(m.storage.at + 4 * 4096, 44);
    put32(m.storage.at + 6 * 4096, 66);
    m.storage.at[7 * 4096 + START + 24] = 0x18; /* LR 9,2 in frame 7 */
    m.storage.at[7 * 4096 + START + 25] = 0x92;
    put_general(&m, 2, 0x1000);
    put_general(&m, 4, 0x2000);
    put_general(&m, 6, 0x3000);
    put_general(&m, 7, 0x6000);
    put_general(&m, 8, 0x7000);
    EXPECT(run(&m, 0, 1, 7, &where) == ended(DREVOKAS_BUDGET_USED, 0, 7));
    EXPECT(general(&m, 1) == 44 && general(&m, 3) == 44 && general(&m, 5) == 66 && general(&m, 9) == 0x1000);
    discard(&m);
}

/* ---- which table was bad ---- */

/* A unit that comes to SPOT. Its text is in guest absolute page 0 at START, or begins two bytes before SPOT. `first` is the
   first byte that it accesses at SPOT, `before` that in the page before it, counted back from SPOT; 0 where there is none. */
struct unit {
    uint8_t text[4];
    uint32_t left, address, prefix, cr1, first, before;
    int store;
};

#define DAT_ON (PSW_BASE | PSW_DAT)

static const struct unit units[] = {
    /* text */
    {{0}, PSW_BASE, SPOT, 0, 0, 0, 0, 0},
    {{0}, PSW_BASE, SPOT + 0xffe, 0, 0, 0xffe, 0, 0},
    {{0}, PSW_BASE, SPOT - 2, 0, 0, 0, 2, 0},
    /* operands: L, LPSW, LCTL, SPT; ST, STCTL, STCK, STPT */
    {{0x58, 0x10, 0x20, 0x11}, PSW_BASE, START, 0, 0, 0x11, 0, 0},
    {{0x82, 0x00, 0x20, 0x10}, PSW_BASE, START, 0, 0, 0x10, 0, 0},
    {{0xb7, 0x2f, 0x20, 0x04}, PSW_BASE, START, 0, 0, 0x04, 0, 0},
    {{0xb2, 0x08, 0x20, 0x18}, PSW_BASE, START, 0, 0, 0x18, 0, 0},
    {{0x50, 0x10, 0x20, 0x13}, PSW_BASE, START, 0, 0, 0x13, 0, 1},
    {{0xb6, 0xf0, 0x20, 0x08}, PSW_BASE, START, 0, 0, 0x08, 0, 1},
    {{0xb2, 0x05, 0x20, 0x03}, PSW_BASE, START, 0, 0, 0x03, 0, 1},
    {{0xb2, 0x09, 0x20, 0x20}, PSW_BASE, START, 0, 0, 0x20, 0, 1},
    /* operands that begin before SPOT: L, LCTL; ST, STCTL, STCK */
    {{0x58, 0x10, 0x30, 0x00}, PSW_BASE, START, 0, 0, 0, 2, 0},
    {{0xb7, 0x56, 0x40, 0x00}, PSW_BASE, START, 0, 0, 0, 4, 0},
    {{0x50, 0x10, 0x30, 0x00}, PSW_BASE, START, 0, 0, 0, 2, 1},
    {{0xb6, 0x56, 0x40, 0x00}, PSW_BASE, START, 0, 0, 0, 4, 1},
    {{0xb2, 0x05, 0x30, 0x00}, PSW_BASE, START, 0, 0, 0, 2, 1},
    /* interruption areas, in the prefix page, where real SPOT is absolute 0: SVC; operation exception; malformed PSW */
    {{0x0a, 0x07}, PSW_BASE, SPOT | START, SPOT, 0, 32, 0, 1},
    {{0x00, 0x00}, PSW_BASE, SPOT | START, SPOT, 0, 40, 0, 1},
    {{0}, 0, SPOT | START, SPOT, 0, 40, 0, 1},
    /* the text's guest segment entry, its guest page entry, and itself */
    {{0}, DAT_ON, 0x900200, 0, SPOT, 9 * 4, 0, 0},
    {{0}, DAT_ON, 0x103200, 0, 0, 0x40 + 3 * 4, 0, 0},
    {{0}, DAT_ON, 0x006200, 0, 0, 0x200, 0, 0},
    /* an operand's guest segment entry, its guest page entry, and itself; itself from its second page on */
    {{0x58, 0x10, 0x50, 0x00}, DAT_ON, START, 0, (SPOT - 0x1000) | 64, 9 * 4, 0x1000, 0},
    {{0x58, 0x10, 0x60, 0x00}, DAT_ON, START, 0, 0, 0x40 + 3 * 4, 0, 0},
    {{0x58, 0x10, 0x70, 0x00}, DAT_ON, START, 0, 0, 0x678, 0, 0},
    {{0x50, 0x10, 0x70, 0x00}, DAT_ON, START, 0, 0, 0x678, 0, 1},
    {{0x58, 0x10, 0x80, 0x00}, DAT_ON, START, 0, 0, 0, 0, 0},
    {{0x50, 0x10, 0x80, 0x00}, DAT_ON, START, 0, 0, 0, 0, 1},
    /* the interruption for a guest segment entry that is invalid */
    {{0x58, 0x10, 0x90, 0x00}, DAT_ON, 0x200000 | START, SPOT, SPOT, 40, 0, 1},
};

#define UNITS (sizeof units / sizeof *units)

/* Guest tables in page 0. Segment 0: page 0 is real page 0, as page 5 is, and page 6 is SPOT. Segment 1: its page table is at
   SPOT. Segment 2, where real SPOT is absolute 0: page 0 is SPOT. Segment 3 is invalid. A table in the page before SPOT has
   segment 0, too. */
static void put_tables(struct machine *m)
{
    uint8_t *page = m->storage.at + OTHER_FRAME;

    put32(page, 0x800);
    put32(m->storage.at + BEFORE_FRAME, 0x800);
    put32(page + 4, SPOT | 0x40);
    put32(page + 8, SPOT | 0xc00);
    put32(page + 12, SEGMENT_INVALID);
    put32(page + 0x800 + 6 * 4, SPOT);
    put32(page + 0xc00, SPOT);
}

static struct machine guest_at_spot(const struct way *w, const struct unit *u)
{
    static const uint32_t addresses[] = {SPOT, SPOT - 2, SPOT - 4, 0x40900000, 0x103000, 0x6678, 0x5ffe, 0x300000};
    struct machine m = spot_guest(w);
    int i;

    put_tables(&m);
    put32(m.record.at + AT_CR0, CR0_FORMAT);
    put32(m.record.at + AT_CR1, u->cr1);
    put32(m.record.at + AT_PREFIX, u->prefix);
    put32(m.record.at + AT_PSW, u->left);
    put32(m.record.at + AT_PSW + 4, PSW_31 | u->address);
    memcpy(m.storage.at + OTHER_FRAME + START, u->text, sizeof u->text);
    put16(m.storage.at + BEFORE_FRAME + 0xffe, 0x5810);
    for (i = 0; i < 8; i++)
        put_general(&m, 2 + i, addresses[i]);
    return m;
}

static void expect_fault_at_spot(struct machine *m, const struct way *w, uint32_t virtual, uint32_t units_before)
{
    uint64_t where = NOT_TOUCHED, answer = run(m, 0, 1, 9, &where);
    uint64_t expected = faulted(w->code, units_before, w->named), expected_where = where_in(virtual, w->named);
    char what[120];

    sprintf(what, "run: %016llx at %016llx, not %016llx at %016llx", (unsigned long long)answer, (unsigned long long)where,
            (unsigned long long)expected, (unsigned long long)expected_where);
    expect_at(__FILE__, __LINE__, answer == expected && where == expected_where, what);
}

/* The unit is undone, whatever it was. */
static void try_way(const struct way *w, const struct unit *u)
{
    struct machine m = guest_at_spot(w, u);

    remember_all(&m);
    expect_fault_at_spot(&m, w, w->before && u->before ? SPOT_VIRTUAL - u->before : SPOT_VIRTUAL + u->first, 0);
    EXPECT(all_unchanged(&m));
    discard(&m);
}

static void test_ways(void)
{
    size_t w, u;

    for (w = 0; w < WAYS; w++)
        for (u = 0; u < UNITS; u++)
            if (ways[w].code != 4 || units[u].store)
                try_way(&ways[w], &units[u]);
}

/* Units come before the one that faults; and with as many as they are for a budget, there is no fault. */
static void test_ways_after_units(void)
{
    static const uint8_t text[] = {0x18, 0x99, 0x1a, 0x11, 0x50, 0x10, 0x20, 0x13}; /* LR 9,9; AR 1,1; ST 1,X'13'(2) */
    struct unit u = {{0}, PSW_BASE, START, 0, 0, 0x13, 0, 1};
    uint64_t where;
    size_t i;

    for (i = 0; i < WAYS; i++) {
        struct machine m = guest_at_spot(&ways[i], &u);

        memcpy(m.storage.at + OTHER_FRAME + START, text, sizeof text);
        where = NOT_TOUCHED;
        EXPECT(run(&m, 0, 1, 2, &where) == ended(DREVOKAS_BUDGET_USED, 0, 2));
        EXPECT(where == 0);
        put32(m.record.at + AT_PSW + 4, PSW_31 | START);
        expect_fault_at_spot(&m, &ways[i], SPOT_VIRTUAL + 0x13, 2);
        discard(&m);
    }
}

/* The guest stores the bad entry itself, behind a load that went well: guest page 1 is the frame of the host's page table. */
static void test_entry_stored_by_the_guest(void)
{
    static const uint8_t text[] = {
        0x58, 0x10, 0x20, 0x00, /* L 1,0(2) */
        0x50, 0xa0, 0xb0, 0x40, /* ST 10,X'40'(11) */
        0x58, 0x10, 0x20, 0x00, /* L 1,0(2) */
    };
    struct unit u = {{0}, PSW_BASE, START, 0, 0, 0, 0, 0};
    size_t i;

    for (i = 0; i < WAYS; i++) {
        struct machine m;
        struct way good = ways[i];

        if (ways[i].at != SPOT_ENTRY_AT || ways[i].code == 4)
            continue;
        good.word = SPOT_FRAME;
        m = guest_at_spot(&good, &u);
        put32(m.storage.at + OTHER_TABLE + 33 * 4, SPOT_ENTRY_AT & ~4095u);
        memcpy(m.storage.at + OTHER_FRAME + START, text, sizeof text);
        put_general(&m, 10, ways[i].word);
        put_general(&m, 11, 0x1000);
        expect_fault_at_spot(&m, &ways[i], SPOT_VIRTUAL, 2);
        discard(&m);
    }
}

/* An operand whose guest exception would name a table in translate, or a byte; store or fetch. */
static const struct {
    uint32_t address, code;
    uint8_t opcode;
} exceptions[] = {
    {0x41000000, 0x10, 0x58}, /* segment past the table's length */
    {0x40000000, 0x05, 0x58}, /* segment entry past the extent */
    {0x00100000, 0x10, 0x58}, /* segment invalid */
    {0x00200000, 0x12, 0x50}, /* segment malformed */
    {0x00310000, 0x11, 0x58}, /* page past the table's length */
    {0x00410000, 0x05, 0x50}, /* page entry past the extent */
    {0x00001000, 0x11, 0x58}, /* page invalid */
    {0x00002000, 0x12, 0x58}, /* page malformed */
    {0x00003000, 0x05, 0x58}, /* byte past the extent */
    {0x00004000, 0x04, 0x50}, /* page protected */
};

#define EXCEPTIONS (sizeof exceptions / sizeof *exceptions)

/* Guest page 15 is frame 3, as page 0 is. The segment table begins there, so that its second page is past the extent; segment
   4's page table begins at its end. */
static struct machine dat_guest(uint8_t opcode, uint32_t address)
{
    static const uint32_t segments[] = {0x400, SEGMENT_INVALID, BIT(0), 0x400, 0xffc0 | 15};
    static const uint32_t pages[] = {0, PAGE_INVALID, BIT(20), 0x10000, PAGE_PROTECTED};
    uint8_t text[] = {0x00, 0x10, 0x20, 0x00};
    struct machine m;
    int i;

    text[0] = opcode;
    m = guest(text, sizeof text);
    put32(m.storage.at + 8192 + 15 * 4, 0x3000);
    for (i = 0; i < 5; i++) {
        put32(m.storage.at + PAGE_0 + 4 * i, segments[i]);
        put32(m.storage.at + PAGE_0 + 0x400 + 4 * i, pages[i]);
    }
    put32(m.storage.at + PAGE_0 + 104, PSW_BASE | PSW_WAIT);
    put32(m.record.at + AT_PSW, DAT_ON);
    put32(m.record.at + AT_CR0, CR0_FORMAT);
    put32(m.record.at + AT_CR1, 0xf000 | 64);
    put_general(&m, 2, address);
    return m;
}

/* A guest exception is no host fault: answer and *where name no table, nor do the results. */
static void try_exception(uint8_t opcode, uint32_t address, uint32_t code)
{
    struct machine m = dat_guest(opcode, address);
    uint64_t where = NOT_TOUCHED;

    EXPECT(run(&m, 0, 1, 9, &where) == ended(DREVOKAS_INTERCEPTED, DREVOKAS_CODE_WAIT, 1));
    EXPECT(where == 0);
    EXPECT(get32(m.storage.at + PAGE_0 + 140) == (2u << 17 | code));
    discard(&m);

    m = dat_guest(opcode, address);
    m.record.at[AT_CONTROLS] = 0x40;
    where = NOT_TOUCHED;
    EXPECT(run(&m, 0, 1, 9, &where) == ended(DREVOKAS_INTERCEPTED, DREVOKAS_CODE_PROGRAM, 0));
    EXPECT(where == 0);
    EXPECT(get32(m.record.at + AT_RESULTS) == (8u << 24 | 2u << 16 | code));
    EXPECT(get32(m.record.at + AT_RESULTS + 4) == (code == 0x10 || code == 0x11 ? address : 0));
    EXPECT(get32(m.record.at + AT_RESULTS + 8) == 0 && get32(m.record.at + AT_RESULTS + 10) == 0);
    discard(&m);
}

static void test_exceptions(void)
{
    size_t i;

    for (i = 0; i < EXCEPTIONS; i++)
        try_exception(exceptions[i].opcode, exceptions[i].address, exceptions[i].code);
}

int main(void)
{
    test_loop();
    test_stop();
    test_refusals();
    test_host_fault();
    test_entry_fails();
    test_supervisor_call();
    test_operation_exception();
    test_cut_at_every_unit();
    test_tables_stored_into();
    test_ways();
    test_ways_after_units();
    test_entry_stored_by_the_guest();
    test_exceptions();
    return expect_end();
}
