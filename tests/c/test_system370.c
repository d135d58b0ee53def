/* System/370 guests in records of 208 bytes, called from C. What a run is to leave is written into the copies of record,
   storage and keys, and then all bytes are compared: what no test names stays as it was. */
#include "running.h"
#include "ways.h"

#define FETCH DREVOKAS_OPERAND_FETCH
#define STORE DREVOKAS_STORE

/* The guest: origin 15, extent 2, prefix 10000 hex, so that its low page, real page 0, is the first one of host segment 1.
   Real page 0 is in frame 5, with the interval timer's word; real page 1 in frame 4, with the text; real page 16 in frame 3.
   Page entries of the host stand one behind the other, over both segments. */
#define FRAMES 8
#define PREFIX 0x10000u
#define LOW_PAGE (5 * 4096)
#define TEXT_PAGE (4 * 4096)
#define LOW_VIRTUAL 0x100000u
#define LOW_SEGMENT_AT 0x1004
#define WORD_AT (LOW_PAGE + 80)
#define START 0x1200

/* Where the host entry of a guest absolute page stands. */
#define ENTRY_AT(page) (0x2000 + (240 + (page)) * 4)
#define LOW_ENTRY_AT ENTRY_AT(16)
#define TEXT_ENTRY_AT ENTRY_AT(1)

/* A BC PSW: all masks, key 0, problem state; code ABCD hex, ILC 2, condition code 1, overflow mask. */
#define BC_LEFT 0xff05abcdu
#define BC_RIGHT 0x98000000u
/* An EC PSW in supervisor state: condition code 2, all program masks. */
#define EC_LEFT (PSW_BASE | 0x2f00u)

#define MOST DREVOKAS_MOST_TIME

static void map_host(struct machine *m)
{
    int page;

    put16(m->record.at + AT_ORIGIN, 15);
    put16(m->record.at + AT_EXTENT, 2);
    put32(m->storage.at + 0x1000, 0x200f);
    put32(m->storage.at + LOW_SEGMENT_AT, 0x240f);
    for (page = 0; page < 32; page++)
        put32(m->storage.at + ENTRY_AT(page), PAGE_INVALID);
    put32(m->storage.at + ENTRY_AT(0), 0x3000);
    put32(m->storage.at + TEXT_ENTRY_AT, 0x4000);
    put32(m->storage.at + LOW_ENTRY_AT, 0x5000);
}

/* A guest with other bytes where a run is to write and where it is not: its results, and real 32-47 and 136-147. */
static struct machine guest(const uint8_t *text, size_t len, uint32_t left, uint32_t right)
{
    struct machine m = machine_of(FRAMES);

    lengthen(&m);
    map_host(&m);
    m.record.at[AT_MODE] = MODE_370;
    put32(m.record.at + AT_PREFIX, PREFIX);
    put32(m.record.at + AT_PSW, left);
    put32(m.record.at + AT_PSW + 4, right | START);
    memset(m.record.at + AT_RESULTS, 0xee, RESULT_BYTES);
    memset(m.storage.at + LOW_PAGE + 32, 0x99, 16);
    memset(m.storage.at + LOW_PAGE + 136, 0x77, 12);
    memcpy(m.storage.at + TEXT_PAGE + START % 4096, text, len);
    return m;
}

#define GUEST(text, left, right) guest(text, sizeof text, left, right)

/* Makes the record one of version 1. */
static void shorten(struct machine *m)
{
    resize(&m->record, DREVOKAS_RECORD_LENGTH);
    put16(m->record.at + AT_LENGTH, DREVOKAS_RECORD_LENGTH);
    m->record.at[AT_VERSION] = DREVOKAS_RECORD_VERSION;
}

/* The same guest as 370-XA, still in 208 bytes. */
static void make_xa(struct machine *m)
{
    m->record.at[AT_MODE] = MODE_XA;
    put32(m->record.at + AT_PSW, PSW_BASE);
    put32(m->record.at + AT_PSW + 4, PSW_31 | START);
}

static void put_interval(struct machine *m, uint32_t request, uint32_t residue, uint32_t word)
{
    m->record.at[AT_INTERVAL] = (uint8_t)request;
    put32(m->record.at + AT_RESIDUE, residue);
    put32(m->storage.at + WORD_AT, word);
}

/* ---- what is expected ---- */

/* Copies all bytes; results are zero unless a test says more. */
static void start(struct machine *m)
{
    remember_all(m);
    memset(m->record.copy + AT_RESULTS, 0, RESULT_BYTES);
}

static void leaves_psw(struct machine *m, uint32_t left, uint32_t right)
{
    put32(m->record.copy + AT_PSW, left);
    put32(m->record.copy + AT_PSW + 4, right);
}

static void leaves_general(struct machine *m, int i, uint32_t value)
{
    put32(m->record.copy + AT_GENERAL + 4 * i, value);
}

/* Interception code, ILC, interruption code, and up to four bytes of text. */
static void leaves_results(struct machine *m, uint32_t code, uint32_t ilc, uint32_t interruption, uint32_t text)
{
    uint8_t *at = m->record.copy + AT_RESULTS;

    at[0] = (uint8_t)code;
    at[1] = (uint8_t)ilc;
    put16(at + 2, interruption);
    put32(at + 8, text);
}

/* The CPU timer, and the residue where the word does not fall. */
static void leaves_time(struct machine *m, uint32_t time)
{
    uint8_t *timer = m->record.copy + AT_TIMER, *residue = m->record.copy + AT_RESIDUE;

    put64(timer, get64(timer) - time);
    put32(residue, get32(residue) + 3 * time);
}

static void leaves_interval(struct machine *m, uint32_t request, uint32_t residue, uint32_t word)
{
    m->record.copy[AT_INTERVAL] = (uint8_t)request;
    put32(m->record.copy + AT_RESIDUE, residue);
    put32(m->storage.copy + WORD_AT, word);
}

static void leaves_low(struct machine *m, uint32_t real, uint32_t word)
{
    put32(m->storage.copy + LOW_PAGE + real, word);
}

static void expect_bytes_at(const char *file, int line, const char *name, const struct bytes *b)
{
    char what[100];
    size_t i = 0;

    while (i < b->len && b->at[i] == b->copy[i])
        i++;
    if (i < b->len)
        sprintf(what, "byte %lu of the %s is %02x, not %02x", (unsigned long)i, name, b->at[i], b->copy[i]);
    expect_at(file, line, i == b->len, i == b->len ? name : what);
}

static void expect_left_at(const char *file, int line, const struct machine *m)
{
    expect_bytes_at(file, line, "record", &m->record);
    expect_bytes_at(file, line, "storage", &m->storage);
    expect_bytes_at(file, line, "keys", &m->keys);
}

/* Record, storage and keys are what the copies say. */
#define ALL_AS_SAID(m) expect_left_at(__FILE__, __LINE__, m)

static void expect_end_at(const char *file, int line, struct machine *m, uint32_t time, uint32_t budget, uint64_t expected,
                          uint64_t expected_where)
{
    uint64_t where = NOT_TOUCHED, answer = run(m, 0, time, budget, &where);
    char what[120];

    sprintf(what, "run: %016llx at %llx, not %016llx at %llx", (unsigned long long)answer, (unsigned long long)where,
            (unsigned long long)expected, (unsigned long long)expected_where);
    expect_at(file, line, answer == expected && where == expected_where, what);
}

#define USES_BUDGET(m, time, budget) \
    expect_end_at(__FILE__, __LINE__, m, time, budget, ended(DREVOKAS_BUDGET_USED, 0, budget), 0)
#define INTERCEPTED(m, time, code, units) \
    expect_end_at(__FILE__, __LINE__, m, time, (units) + 1, ended(DREVOKAS_INTERCEPTED, code, units), 0)
#define HOST_FAULT(m, time, code, host, units, table) \
    expect_end_at(__FILE__, __LINE__, m, time, (units) + 1, faulted(code, units, table), where_in(host, table))

/* ---- texts ---- */

static const uint8_t add[] = {0x1a, 0x12};                         /* AR 1,2 */
static const uint8_t call_7[] = {0x0a, 0x07};                      /* SVC 7 */
static const uint8_t store_word[] = {0x50, 0x10, 0x00, 0x50};      /* ST 1,80 */
static const uint8_t load_word[] = {0x58, 0x10, 0x00, 0x50};       /* L 1,80 */
static const uint8_t store_beside[] = {0x50, 0x10, 0x30, 0x10};    /* ST 1,16(3) */
static const uint8_t add_loop[] = {0x1a, 0x12, 0x47, 0xf0, 0x30, 0x00}; /* AR 1,2; BC 15,0(3) */

/* ---- the header ---- */

static void test_header(void)
{
    EXPECT(DREVOKAS_LONG_RECORD_LENGTH == 208 && DREVOKAS_LONG_RECORD_VERSION == 2);
    EXPECT(DREVOKAS_CODE_INSTRUCTION == 4 && DREVOKAS_CODE_PROGRAM == 8 && DREVOKAS_CODE_EXTERNAL_REQUEST == 16);
    EXPECT(DREVOKAS_CODE_EXTERNAL == 20 && DREVOKAS_CODE_IO_REQUEST == 24 && DREVOKAS_CODE_WAIT == 28);
    EXPECT(DREVOKAS_CODE_STOP == 40 && DREVOKAS_CODE_OPERATION == 44);
}

/* ---- refusals ---- */

/* A record of so many bytes, with what its length field and its version say; 370-XA, so that both sizes can be good. */
static struct machine sized(size_t len, uint32_t field, uint32_t version)
{
    struct machine m = machine_of(1);

    put32(m.storage.at, 0x40);
    m.designation = 0;
    put16(m.record.at + AT_LENGTH, field);
    m.record.at[AT_VERSION] = (uint8_t)version;
    resize(&m.record, len);
    return m;
}

static uint32_t size_refusal(size_t len, uint32_t field, uint32_t version)
{
    if (len != field || (len != 200 && len != 208))
        return 1;
    return version == (len == 200 ? 1u : 2u) ? 0 : 2;
}

static void try_size(size_t len, uint32_t field, uint32_t version)
{
    struct machine m = sized(len, field, version);
    uint32_t number = size_refusal(len, field, version);

    if (number != 0) {
        CHECK_REFUSED(&m, number);
        REFUSED(&m, STORE, 0, number);
        RUN_REFUSED(&m, 1, 1, number);
    } else {
        CHECKS_GOOD(&m);
        REACHES(&m, STORE, 0x123, 0x123);
        start(&m);
        USES_BUDGET(&m, 1, 0);
        ALL_AS_SAID(&m);
    }
    discard(&m);
}

static void test_sizes(void)
{
    uint32_t len, field, version;

    for (len = 199; len <= 209; len++)
        for (field = 199; field <= 209; field++)
            for (version = 0; version < 4; version++)
                try_size(len, field, version);
    try_size(0, 208, 2);
    try_size(1, 208, 2);
    try_size(416, 208, 2);
    try_size(208, 0xd000, 2);
    try_size(208, 0x01d0, 2);
    try_size(208, 208, 255);
}

static void refused_7(struct machine *m)
{
    CHECK_REFUSED(m, 7);
    REFUSED(m, FETCH, 0, 7);
    REFUSED(m, 3, 0, 7);
    RUN_REFUSED(m, MOST, 65535, 7);
    RUN_REFUSED(m, MOST, 65536, 5);
    RUN_REFUSED(m, MOST + 1, 1, 6);
}

/* Bytes 66-71 and 201-203 and the residue, in every mode that entry accepts, and in one that it does not. */
static void test_refused_bytes(void)
{
    static const uint32_t modes[] = {MODE_370, MODE_370 | MODE_INACTIVE, MODE_XA, 0};
    static const uint32_t residues[] = {INTERVAL_PERIOD, INTERVAL_PERIOD + 1, 0x80000000u, 0xffffffffu};
    static const int bytes[] = {66, 71, 201, 202, 203};
    struct machine m = GUEST(add, BC_LEFT, BC_RIGHT);
    size_t mode, i;
    int bit;

    for (mode = 0; mode < 4; mode++) {
        m.record.at[AT_MODE] = (uint8_t)modes[mode];
        for (i = 0; i < 5; i++) {
            for (bit = 0; bit < 8; bit++) {
                m.record.at[bytes[i]] = (uint8_t)(1 << bit);
                refused_7(&m);
            }
            m.record.at[bytes[i]] = 0;
        }
        for (i = 0; i < 4; i++) {
            put32(m.record.at + AT_RESIDUE, residues[i]);
            refused_7(&m);
        }
        put32(m.record.at + AT_RESIDUE, 0);
    }
    discard(&m);
}

/* Byte 200 may be anything, and so may a residue below the period. */
static void test_accepted_bytes(void)
{
    struct machine m = GUEST(add, BC_LEFT, BC_RIGHT);
    unsigned request;

    for (request = 0; request < 256; request++) {
        m.record.at[AT_INTERVAL] = (uint8_t)request;
        put32(m.record.at + AT_RESIDUE, INTERVAL_PERIOD - 1 - request);
        CHECKS_GOOD(&m);
        start(&m);
        USES_BUDGET(&m, 1, 0);
        ALL_AS_SAID(&m);
    }
    discard(&m);
}

/* The order of refusals, from the last of them to the first. */
static void test_refusals_in_order(void)
{
    struct machine m = GUEST(add, BC_LEFT, BC_RIGHT);

    m.record.at[203] = 1;
    RUN_REFUSED(&m, 1, 1, 7);
    RUN_REFUSED(&m, MOST + 1, 1, 6);
    RUN_REFUSED(&m, MOST + 1, 65536, 5);
    resize(&m.keys, 7);
    RUN_REFUSED(&m, 1, 65536, 4);
    resize(&m.storage, FRAMES * 4096 - 1);
    RUN_REFUSED(&m, 1, 1, 3);
    m.record.at[AT_VERSION] = 1;
    RUN_REFUSED(&m, 1, 1, 2);
    put16(m.record.at + AT_LENGTH, 200);
    RUN_REFUSED(&m, 1, 1, 1);
    discard(&m);
}

/* ---- entry ---- */

/* A run leaves code 32 in the results, and nothing else. */
static void entry_fails(struct machine *m)
{
    CHECKS_INVALID(m);
    INVALID(m, FETCH, 0);
    REFUSED(m, 3, 0, 8);
    start(m);
    leaves_results(m, 32, 0, 0, 0);
    INTERCEPTED(m, MOST, 32, 0);
    ALL_AS_SAID(m);
}

static void test_entry_mode(void)
{
    struct machine m = GUEST(add, BC_LEFT, BC_RIGHT);
    unsigned mode;

    for (mode = 0; mode < 256; mode++) {
        m.record.at[AT_MODE] = (uint8_t)mode;
        if ((mode & 0x0e) == MODE_370 || (mode & 0x0e) == MODE_XA)
            CHECKS_GOOD(&m);
        else
            entry_fails(&m);
    }
    discard(&m);
}

static void test_entry_short_record(void)
{
    struct machine m = GUEST(add, BC_LEFT, BC_RIGHT);

    shorten(&m);
    entry_fails(&m);
    m.record.at[AT_MODE] = MODE_XA;
    CHECKS_GOOD(&m);
    discard(&m);
}

/* Prefix bits 1-7 must be zero in mode 01, even where the extent has such a page. */
static void test_entry_prefix(void)
{
    struct machine m = GUEST(add, BC_LEFT, BC_RIGHT);
    int bit;

    put16(m.record.at + AT_ORIGIN, 0);
    put16(m.record.at + AT_EXTENT, 32768);
    for (bit = 0; bit < 32; bit++) {
        put32(m.record.at + AT_PREFIX, BIT(bit));
        m.record.at[AT_MODE] = MODE_370;
        if (bit >= 1 && bit <= 7)
            entry_fails(&m);
        else
            CHECKS_GOOD(&m);
        m.record.at[AT_MODE] = MODE_XA;
        CHECKS_GOOD(&m);
    }
    m.record.at[AT_MODE] = MODE_370;
    put32(m.record.at + AT_PREFIX, 0x80fff000u);
    CHECKS_GOOD(&m);
    put16(m.record.at + AT_EXTENT, 255);
    entry_fails(&m);
    discard(&m);
}

/* ---- translate ---- */

static void test_translate(void)
{
    struct machine m = GUEST(add, BC_LEFT, BC_RIGHT);

    REACHES(&m, FETCH, 0x50, 0x5050);
    REACHES(&m, STORE, 0x1234, 0x4234);
    REACHES(&m, FETCH, 0x10fff, 0x3fff);
    FAULTS_IN(&m, FETCH, 0x2000, 0x11, 0xf2000, HOST_PAGE(ENTRY_AT(2)));
    EXCEPTION(&m, FETCH, 0x20000, 5);
    /* 24 bits, whatever bit 32 is */
    put32(m.record.at + AT_PSW + 4, 0xffffffffu);
    REACHES(&m, STORE, 0xff001234u, 0x4234);
    REACHES(&m, FETCH, 0x81000050u, 0x5050);
    make_xa(&m);
    EXCEPTION(&m, FETCH, 0x01000050, 5);
    discard(&m);
}

/* Bit 5 is DAT in EC alone; what makes a PSW malformed, and PER, stop no translation. */
static void test_translate_dat(void)
{
    struct machine m = GUEST(add, PSW_DAT, 0);

    REACHES(&m, FETCH, 0x50, 0x5050);
    put32(m.record.at + AT_PSW, 0xffffffffu & ~PSW_BASE & ~PSW_KEY(15));
    REACHES(&m, STORE, 0x50, 0x5050);
    put32(m.record.at + AT_PSW, 0xffffffffu & ~PSW_DAT & ~PSW_KEY(15));
    put32(m.record.at + AT_PSW + 4, 0xffffffffu);
    REACHES(&m, STORE, 0x50, 0x5050);
    put32(m.record.at + AT_PSW, PSW_BASE | PSW_DAT);
    CHECKS_GOOD(&m);
    INVALID(&m, FETCH, 0x50);
    INVALID(&m, STORE, 0xffffffffu);
    REFUSED(&m, 3, 0x50, 8);
    put32(m.record.at + AT_CR0, CR0_FORMAT | CR0_LOW_PROTECTION);
    INVALID(&m, STORE, 0x50);
    make_xa(&m);
    put32(m.record.at + AT_PSW, PSW_DAT);
    EXCEPTION(&m, STORE, 0x50, 4);
    discard(&m);
}

static void test_translate_protection(void)
{
    struct machine m = GUEST(add, PSW_KEY(3), 0);

    m.keys.at[5] = 0x48;
    m.keys.at[4] = 0x40;
    EXCEPTION(&m, FETCH, 0x50, 4);
    REACHES(&m, FETCH, 0x1050, 0x4050);
    EXCEPTION(&m, STORE, 0x1050, 4);
    put32(m.record.at + AT_PSW, PSW_KEY(4));
    REACHES(&m, STORE, 0x1ff, 0x51ff);
    put32(m.record.at + AT_CR0, CR0_LOW_PROTECTION);
    EXCEPTION(&m, STORE, 0x1ff, 4);
    REACHES(&m, STORE, 0x200, 0x5200);
    put32(m.storage.at + TEXT_ENTRY_AT, 0x4000 | PAGE_PROTECTED);
    FAULTS(&m, STORE, 0x1050, 4, 0xf1050);
    discard(&m);
}

/* ---- BC ---- */

/* Condition code and address are all of a BC PSW that an instruction changes. */
static void test_basic_add(void)
{
    static const uint32_t sums[][3] = {{5, 0xfffffffbu, 0x88}, {1, 0xfffffffeu, 0x98}, {1, 1, 0xa8}};
    size_t i;

    for (i = 0; i < 3; i++) {
        struct machine m = GUEST(add, BC_LEFT, BC_RIGHT);

        put_interval(&m, 0x7f, 40959000, 0);
        put_general(&m, 1, sums[i][0]);
        put_general(&m, 2, sums[i][1]);
        start(&m);
        leaves_psw(&m, BC_LEFT, sums[i][2] << 24 | (START + 2));
        leaves_general(&m, 1, sums[i][0] + sums[i][1]);
        leaves_time(&m, 7);
        m.keys.copy[4] = 4;
        USES_BUDGET(&m, 7, 1);
        ALL_AS_SAID(&m);
        discard(&m);
    }
}

/* Bit 36 is the overflow mask: without it condition code 3, with it the interruption in the same unit. */
static void test_basic_overflow(void)
{
    struct machine m = GUEST(add, BC_LEFT, BC_RIGHT & ~BIT(4));

    put_general(&m, 1, 0x7fffffff);
    put_general(&m, 2, 1);
    put32(m.storage.at + LOW_PAGE + 104, 0x00021234);
    put32(m.storage.at + LOW_PAGE + 108, 0xc5001300u);
    start(&m);
    leaves_psw(&m, BC_LEFT, 0xb0000000u | (START + 2));
    leaves_general(&m, 1, 0x80000000u);
    leaves_time(&m, 1);
    m.keys.copy[4] = 4;
    USES_BUDGET(&m, 1, 1);
    ALL_AS_SAID(&m);

    put_general(&m, 1, 0x7fffffff);
    put32(m.record.at + AT_PSW + 4, BC_RIGHT | START);
    start(&m);
    leaves_psw(&m, 0x00021234, 0xc5001300u);
    leaves_general(&m, 1, 0x80000000u);
    leaves_time(&m, 1);
    leaves_low(&m, 40, 0xff050008u);
    leaves_low(&m, 44, 0x78000000u | (START + 2));
    m.keys.copy[5] = 6;
    USES_BUDGET(&m, 1, 1);
    ALL_AS_SAID(&m);
    discard(&m);
}

/* Code and ILC stand in the stored PSW; 136-147 are not stored into; the new PSW is in the record as it was loaded. */
static void test_basic_supervisor_call(void)
{
    struct machine m = GUEST(call_7, BC_LEFT, BC_RIGHT);

    put32(m.storage.at + LOW_PAGE + 96, PSW_WAIT | 0x1234);
    put32(m.storage.at + LOW_PAGE + 100, 0xd5001300u);
    start(&m);
    leaves_psw(&m, PSW_WAIT | 0x1234, 0xd5001300u);
    leaves_results(&m, 28, 0, 0, 0);
    leaves_time(&m, 9);
    leaves_low(&m, 32, 0xff050007u);
    leaves_low(&m, 36, 0x58000000u | (START + 2));
    m.keys.copy[4] = 4;
    m.keys.copy[5] = 6;
    INTERCEPTED(&m, 9, 28, 1);
    ALL_AS_SAID(&m);
    discard(&m);
}

/* An interception leaves bits 16-33 as they were loaded: code and ILC are in the results. */
static void try_interception(const uint8_t *text, uint32_t controls, uint32_t code, uint32_t ilc, uint32_t number)
{
    struct machine m = guest(text, 4, BC_LEFT & ~BIT(15), BC_RIGHT);

    m.record.at[AT_CONTROLS] = (uint8_t)controls;
    start(&m);
    leaves_psw(&m, BC_LEFT & ~BIT(15), BC_RIGHT | (START + 2 * ilc));
    leaves_results(&m, code, ilc, number, code == 8 ? 0 : ilc == 1 ? get32(text) & 0xffff0000u : get32(text));
    INTERCEPTED(&m, MOST, code, 0);
    ALL_AS_SAID(&m);
    discard(&m);
}

static void test_basic_interceptions(void)
{
    static const uint8_t none[] = {0x00, 0x12, 0x34, 0x56}, misaligned[] = {0x82, 0x00, 0x00, 0x51};
    static const uint8_t diagnose[] = {0x83, 0x12, 0x34, 0x56}, channel[] = {0x9c, 0xff, 0x34, 0x56};
    static const uint8_t last[] = {0x9f, 0x00, 0x00, 0x00}, subchannel[] = {0xb2, 0x30, 0x34, 0x56};
    static const uint8_t last_subchannel[] = {0xb2, 0x3c, 0x00, 0x01}, before[] = {0x9b, 0x00, 0x00, 0x00};

    try_interception(none, 0x80, 44, 1, 0);
    try_interception(none, 0x40, 8, 1, 1);
    try_interception(misaligned, 0x40, 8, 2, 6);
    try_interception(misaligned, 0x20, 4, 2, 0);
    try_interception(diagnose, 0, 4, 2, 0);
    try_interception(channel, 0, 4, 2, 0);
    try_interception(last, 0xc0, 4, 2, 0);
    try_interception(subchannel, 0x80, 44, 2, 0);
    try_interception(last_subchannel, 0x40, 8, 2, 1);
    try_interception(before, 0x80, 44, 2, 0);
}

/* Any one of bits 0-6 lets an I/O request in; in EC bit 6 alone. */
static void test_io_request(void)
{
    struct machine m = GUEST(add, 0, 0);
    int bit;

    m.record.at[AT_REQUESTS] = 2;
    for (bit = 0; bit < 8; bit++) {
        put32(m.record.at + AT_PSW, BIT(bit));
        put32(m.record.at + AT_PSW + 4, START);
        if (bit < 7)
            INTERCEPTED(&m, 1, 24, 0);
        else
            USES_BUDGET(&m, 1, 1);
    }
    put32(m.record.at + AT_PSW, PSW_BASE | BIT(6));
    INTERCEPTED(&m, 1, 24, 0);
    put32(m.record.at + AT_PSW, PSW_BASE | BIT(7));
    put32(m.record.at + AT_PSW + 4, START);
    USES_BUDGET(&m, 1, 1);
    discard(&m);
}

/* Addresses have 24 bits, and neither a branch nor the advance changes bits 32-39. */
static void test_basic_addresses(void)
{
    static const uint8_t text[] = {
        0x41, 0x13, 0x30, 0x01, /* LA 1,1(3,3) */
        0x07, 0xf4,             /* BCR 15,4 */
    };
    struct machine m = GUEST(text, BC_LEFT, 0xff000000u);

    put_general(&m, 3, 0xffffffffu);
    put_general(&m, 4, 0xff001300u);
    start(&m);
    leaves_psw(&m, BC_LEFT, 0xff001300u);
    leaves_general(&m, 1, 0x00ffffff);
    leaves_time(&m, 2);
    m.keys.copy[4] = 4;
    USES_BUDGET(&m, 1, 2);
    ALL_AS_SAID(&m);
    discard(&m);
}

/* ---- EC ---- */

static void test_extended_supervisor_call(void)
{
    struct machine m = GUEST(call_7, EC_LEFT, 0);

    put32(m.storage.at + LOW_PAGE + 96, PSW_WAIT | 0xffff);
    put32(m.storage.at + LOW_PAGE + 100, 0xffffffffu);
    start(&m);
    leaves_psw(&m, PSW_WAIT | 0xffff, 0xffffffffu);
    leaves_results(&m, 28, 0, 0, 0);
    leaves_time(&m, 9);
    leaves_low(&m, 32, EC_LEFT);
    leaves_low(&m, 36, START + 2);
    leaves_low(&m, 136, 0x00020007);
    m.keys.copy[4] = 4;
    m.keys.copy[5] = 6;
    INTERCEPTED(&m, 9, 28, 1);
    ALL_AS_SAID(&m);
    discard(&m);
}

/* The form of the old PSW decides: an EC PSW's program interruption to a BC PSW, whose own comes next. */
static void test_forms(void)
{
    static const uint8_t none[] = {0x00, 0x12};
    struct machine m = GUEST(none, EC_LEFT, 0);

    put32(m.storage.at + LOW_PAGE + 104, 0x00001234);
    put32(m.storage.at + LOW_PAGE + 108, 0xc5000000u | START);
    start(&m);
    leaves_psw(&m, 0x00001234, 0xc5000000u | START);
    leaves_time(&m, 3);
    leaves_low(&m, 40, EC_LEFT);
    leaves_low(&m, 44, START + 2);
    leaves_low(&m, 140, 0x00020001);
    m.keys.copy[4] = 4;
    m.keys.copy[5] = 6;
    USES_BUDGET(&m, 3, 1);
    ALL_AS_SAID(&m);

    start(&m);
    leaves_time(&m, 3);
    leaves_low(&m, 40, 0x00000001);
    leaves_low(&m, 44, 0x45000000u | (START + 2));
    USES_BUDGET(&m, 3, 1);
    ALL_AS_SAID(&m);
    discard(&m);
}

/* LPSW brings in all 64 bits, whatever they are, from either form to either. */
static void try_load_psw(uint32_t left, uint32_t right, uint32_t new_left, uint32_t new_right)
{
    static const uint8_t load[] = {0x82, 0x00, 0x01, 0x00}; /* LPSW X'100' */
    struct machine m = GUEST(load, left, right);

    put32(m.storage.at + LOW_PAGE + 0x100, new_left);
    put32(m.storage.at + LOW_PAGE + 0x104, new_right);
    start(&m);
    leaves_psw(&m, new_left, new_right);
    leaves_time(&m, MOST);
    m.keys.copy[4] = 4;
    m.keys.copy[5] = 4;
    USES_BUDGET(&m, MOST, 1);
    ALL_AS_SAID(&m);
    discard(&m);
}

static void test_load_psw(void)
{
    try_load_psw(EC_LEFT, 0, 0xfff7ffffu, 0xffffffffu);
    try_load_psw(EC_LEFT, 0, 0xffffffffu, 0xffffffffu);
    try_load_psw(0, BC_RIGHT, 0xffffffffu, 0xffffffffu);
    try_load_psw(0, BC_RIGHT, 0x00001234, 0x55000001);
}

/* Each bit of an EC PSW that is not installed is code 32 and changes nothing else; each that must be zero is a specification
   exception with ILC 0, and with two such defects code 32 comes first. */
static void try_extended_bit(int bit)
{
    uint32_t left = PSW_BASE | (bit < 32 ? BIT(bit) : 0), right = START | (bit < 32 ? 0 : BIT(bit - 32));
    struct machine m = GUEST(add, left, right);

    put32(m.storage.at + LOW_PAGE + 104, PSW_BASE);
    start(&m);
    if (bit == 1 || bit == 5 || bit == 16) {
        leaves_results(&m, 32, 0, 0, 0);
        INTERCEPTED(&m, 5, 32, 0);
        ALL_AS_SAID(&m);
        put32(m.record.at + AT_PSW, left | BIT(0));
        INTERCEPTED(&m, 5, 32, 0);
    } else {
        leaves_psw(&m, PSW_BASE, 0);
        leaves_time(&m, 5);
        leaves_low(&m, 40, left);
        leaves_low(&m, 44, right);
        leaves_low(&m, 140, 0x00000006);
        m.keys.copy[5] = 6;
        USES_BUDGET(&m, 5, 1);
        ALL_AS_SAID(&m);
    }
    discard(&m);
}

static void test_extended_bits(void)
{
    static const int bits[] = {0, 1, 2, 3, 4, 5, 16, 17};
    size_t i;
    int bit;

    for (i = 0; i < sizeof bits / sizeof *bits; i++)
        try_extended_bit(bits[i]);
    for (bit = 24; bit < 40; bit++)
        try_extended_bit(bit);
}

/* ---- the interval timer ---- */

/* What a unit of some time makes of residue, word and request. */
static const struct {
    uint32_t time, residue, word, request, residue_after, word_after, request_after;
} ticks[] = {
    {1, 0, 0, 0x00, 3, 0, 0x00},
    {1, 40959996, 0, 0x00, 40959999, 0, 0x00},
    {1, 40959997, 0, 0x00, 0, 0xffffff00u, 0x80},
    {1, 40959999, 255, 0x7f, 2, 0xffffffffu, 0xff},
    {1, 40959999, 256, 0x00, 2, 0, 0x00},
    {1, 40959999, 256, 0x80, 2, 0, 0x80},
    {1, 40959999, 0x7fffffffu, 0x55, 2, 0x7ffffeffu, 0x55},
    {1, 40959999, 0x80000000u, 0x00, 2, 0x7fffff00u, 0x00},
    {1, 40959999, 0x800000ffu, 0x00, 2, 0x7fffffffu, 0x00},
    {1, 40959999, 0x80000100u, 0x01, 2, 0x80000000u, 0x01},
    {1, 40959999, 0xffffffffu, 0x00, 2, 0xfffffeffu, 0x00},
    {MOST, 40959999, 1, 0x00, 3145727, 0xffffff01u, 0x80},
    {MOST, 40960000 - 3145728, 0x200, 0x00, 0, 0x100, 0x00},
    {MOST, 40960000 - 3145729, 0, 0x00, 40959999, 0, 0x00},
    {MOST, 0, 0, 0x00, 3145728, 0, 0x00},
};

#define TICKS (sizeof ticks / sizeof *ticks)

/* Neither the key of the word's frame nor low-address protection keeps it from falling, and that key is not marked. */
static void test_ticks(void)
{
    size_t i;

    for (i = 0; i < TICKS; i++) {
        struct machine m = GUEST(add, PSW_KEY(1), 0);

        put32(m.record.at + AT_CR0, CR0_LOW_PROTECTION);
        m.keys.at[5] = 0xf8;
        put_interval(&m, ticks[i].request, ticks[i].residue, ticks[i].word);
        start(&m);
        leaves_psw(&m, PSW_KEY(1), START + 2);
        leaves_time(&m, ticks[i].time);
        leaves_interval(&m, ticks[i].request_after, ticks[i].residue_after, ticks[i].word_after);
        m.keys.copy[4] = 4;
        USES_BUDGET(&m, ticks[i].time, 1);
        ALL_AS_SAID(&m);
        discard(&m);
    }
}

/* Inactive, in mode 01 by mode bit 7 and in mode 10 always: residue, T and word stay, and T is no interruption. */
static void try_inactive(struct machine *m, uint32_t left, uint32_t right)
{
    put32(m->record.at + AT_CR0, CR0_INTERVAL);
    put_interval(m, 0xff, INTERVAL_PERIOD - 1, 0);
    put32(m->record.at + AT_PSW, left);
    put32(m->record.at + AT_PSW + 4, right | START);
    start(m);
    leaves_psw(m, left, right | (START + 2));
    put64(m->record.copy + AT_TIMER, (uint64_t)0 - MOST);
    m->keys.copy[4] = 4;
    USES_BUDGET(m, MOST, 1);
    ALL_AS_SAID(m);
}

static void test_inactive(void)
{
    struct machine m = GUEST(add, 0, 0);

    m.record.at[AT_MODE] = MODE_370 | MODE_INACTIVE;
    try_inactive(&m, PSW_EXTERNAL, 0);
    discard(&m);
    m = GUEST(add, 0, 0);
    m.record.at[AT_MODE] = MODE_XA;
    try_inactive(&m, PSW_BASE | PSW_EXTERNAL, PSW_31);
    discard(&m);
    m = GUEST(add, 0, 0);
    m.record.at[AT_MODE] = MODE_XA | MODE_INACTIVE;
    try_inactive(&m, PSW_BASE | PSW_EXTERNAL, PSW_31);
    discard(&m);
}

/* The unit's own store comes before the fall, its own fetch too. */
static void test_word_stored_and_loaded(void)
{
    struct machine m = GUEST(store_word, 0, 0);

    put_general(&m, 1, 0xc0);
    put_interval(&m, 0, INTERVAL_PERIOD - 1, 0x12345678);
    start(&m);
    leaves_psw(&m, 0, START + 4);
    leaves_time(&m, 1);
    leaves_interval(&m, INTERVAL_T, 2, 0xffffffc0u);
    m.keys.copy[4] = 4;
    m.keys.copy[5] = 6;
    USES_BUDGET(&m, 1, 1);
    ALL_AS_SAID(&m);
    discard(&m);

    m = GUEST(load_word, 0, 0);
    put_interval(&m, 0, INTERVAL_PERIOD - 1, 0x12345678);
    start(&m);
    leaves_psw(&m, 0, START + 4);
    leaves_general(&m, 1, 0x12345678);
    leaves_time(&m, 1);
    leaves_interval(&m, 0, 2, 0x12345578);
    m.keys.copy[4] = 4;
    m.keys.copy[5] = 4;
    USES_BUDGET(&m, 1, 1);
    ALL_AS_SAID(&m);
    discard(&m);
}

/* The store reaches the word's frame by another guest page. */
static void test_word_stored_by_another_page(void)
{
    struct machine m = GUEST(store_beside, 0, 0);

    put32(m.storage.at + ENTRY_AT(2), 0x5000);
    put_general(&m, 1, 0x1000);
    put_general(&m, 3, 0x2040);
    put_interval(&m, 0, INTERVAL_PERIOD - 1, 0);
    start(&m);
    leaves_psw(&m, 0, START + 4);
    leaves_time(&m, 1);
    leaves_interval(&m, 0, 2, 0xf00);
    m.keys.copy[4] = 4;
    m.keys.copy[5] = 6;
    USES_BUDGET(&m, 1, 1);
    ALL_AS_SAID(&m);
    discard(&m);
}

/* A unit that is an interruption counts, and its fall comes behind it. */
static void test_interruption_ticks(void)
{
    struct machine m = GUEST(call_7, BC_LEFT, BC_RIGHT);

    put32(m.storage.at + LOW_PAGE + 100, START);
    put_interval(&m, 0, INTERVAL_PERIOD - 1, 0);
    start(&m);
    leaves_psw(&m, 0, START);
    leaves_time(&m, 1);
    leaves_interval(&m, INTERVAL_T, 2, 0xffffff00u);
    leaves_low(&m, 32, 0xff050007u);
    leaves_low(&m, 36, 0x58000000u | (START + 2));
    m.keys.copy[4] = 4;
    m.keys.copy[5] = 6;
    USES_BUDGET(&m, 1, 1);
    ALL_AS_SAID(&m);
    discard(&m);
}

/* ---- T ---- */

/* T is set in the first unit, ends the run before the second, and is cleared by that; then the guest goes on. */
static void test_request(void)
{
    struct machine m = GUEST(add_loop, PSW_EXTERNAL, 0);

    put32(m.record.at + AT_CR0, CR0_INTERVAL);
    put_general(&m, 2, 1);
    put_general(&m, 3, START);
    put_interval(&m, 0x2a, INTERVAL_PERIOD - 1, 0xff);
    start(&m);
    leaves_psw(&m, PSW_EXTERNAL, 0x20000000u | (START + 2));
    leaves_general(&m, 1, 1);
    leaves_time(&m, 2);
    leaves_interval(&m, 0x2a, 5, 0xffffffffu);
    leaves_results(&m, 20, 0, 0x0080, 0);
    m.keys.copy[4] = 4;
    INTERCEPTED(&m, 2, 20, 1);
    ALL_AS_SAID(&m);

    start(&m);
    leaves_psw(&m, PSW_EXTERNAL, 0x20000000u | START);
    leaves_time(&m, 2);
    USES_BUDGET(&m, 2, 1);
    ALL_AS_SAID(&m);
    discard(&m);
}

/* A guest that has T, and both masks, with the CPU timer negative. */
static struct machine requested(void)
{
    struct machine m = GUEST(add, PSW_EXTERNAL, 0);

    put32(m.record.at + AT_CR0, CR0_INTERVAL);
    put32(m.record.at + AT_TIMER, 0x80000000u);
    put_interval(&m, 0xff, 0, 0);
    return m;
}

/* Ends with this code and interruption code, and leaves all as it was but for the request byte. */
static void try_request(struct machine *m, uint32_t code, uint32_t interruption, uint32_t request_after)
{
    start(m);
    leaves_results(m, code, 0, interruption, 0);
    leaves_interval(m, request_after, 0, 0);
    INTERCEPTED(m, MOST, code, 0);
    ALL_AS_SAID(m);
    discard(m);
}

static void test_request_among_others(void)
{
    struct machine m = requested();

    start(&m);
    USES_BUDGET(&m, MOST, 0);
    ALL_AS_SAID(&m);
    try_request(&m, 20, 0x0080, 0x7f);
    m = requested();
    m.record.at[AT_REQUESTS] = 3;
    put32(m.record.at + AT_PSW, 0xff020000u);
    try_request(&m, 20, 0x0080, 0x7f);
    m = requested();
    m.record.at[AT_REQUESTS] = 4;
    try_request(&m, 40, 0, 0xff);
    m = requested();
    put32(m.record.at + AT_CR0, CR0_INTERVAL | BIT(21));
    try_request(&m, 20, 0x1005, 0xff);
    m = requested();
    put32(m.record.at + AT_CR0, BIT(21) | BIT(20) | CR0_INTERVAL);
    put32(m.record.at + 40, 1);
    try_request(&m, 20, 0x1004, 0xff);
    m = requested();
    put32(m.record.at + AT_PSW, PSW_BASE | PSW_EXTERNAL | PSW_DAT);
    try_request(&m, 32, 0, 0xff);
}

/* Without PSW bit 7, CR0 bit 24 or T the guest runs on, and T stays as it was. */
static void test_request_masked(void)
{
    struct machine m = requested();

    put32(m.record.at + AT_PSW, 0xfe000000u);
    USES_BUDGET(&m, 1, 1);
    EXPECT(m.record.at[AT_INTERVAL] == 0xff);
    discard(&m);
    m = requested();
    put32(m.record.at + AT_CR0, ~(CR0_INTERVAL | BIT(20) | BIT(21)));
    USES_BUDGET(&m, 1, 1);
    EXPECT(m.record.at[AT_INTERVAL] == 0xff);
    discard(&m);
    m = requested();
    m.record.at[AT_INTERVAL] = 0x7f;
    USES_BUDGET(&m, 1, 1);
    EXPECT(m.record.at[AT_INTERVAL] == 0x7f);
    discard(&m);
}

/* ---- host faults at the word ---- */

/* A unit that changes a register or storage, in which the word falls. */
static struct machine falling(const uint8_t *text, size_t len)
{
    struct machine m = guest(text, len, BC_LEFT, BC_RIGHT);

    put_general(&m, 1, 0x11223344);
    put_general(&m, 2, 0x01010101);
    put_general(&m, 3, 0x1800);
    put_interval(&m, 0x7f, INTERVAL_PERIOD - 1, 0);
    return m;
}

/* The host fault leaves nothing but the cleared results. */
static void try_word_fault(const uint8_t *text, size_t len, uint32_t at, uint32_t entry, uint32_t code, struct table named)
{
    struct machine m = falling(text, len);

    put32(m.storage.at + at, entry);
    start(&m);
    HOST_FAULT(&m, 1, code, LOW_VIRTUAL + 80, 0, named);
    ALL_AS_SAID(&m);
    discard(&m);
}

static void try_word_faults(const uint8_t *text, size_t len)
{
    try_word_fault(text, len, LOW_ENTRY_AT, 0x5000 | PAGE_PROTECTED, 4, NO_TABLE);
    try_word_fault(text, len, LOW_ENTRY_AT, FRAMES * 4096, 5, HOST_PAGE(LOW_ENTRY_AT));
    try_word_fault(text, len, LOW_SEGMENT_AT, SEGMENT_INVALID, 0x10, HOST_SEGMENT(LOW_SEGMENT_AT));
    try_word_fault(text, len, LOW_ENTRY_AT, PAGE_INVALID, 0x11, HOST_PAGE(LOW_ENTRY_AT));
    try_word_fault(text, len, LOW_ENTRY_AT, 0x5000 | BIT(20), 0x12, HOST_PAGE(LOW_ENTRY_AT));
}

static void test_word_faults(void)
{
    try_word_faults(add, sizeof add);
    try_word_faults(store_beside, sizeof store_beside);
}

/* A unit that interrupts meets the fault at the area of the old PSW. */
static void test_area_before_word(void)
{
    static const uint8_t none[] = {0x00, 0x12};
    struct machine m = falling(call_7, sizeof call_7);

    put32(m.storage.at + LOW_ENTRY_AT, PAGE_INVALID);
    start(&m);
    HOST_FAULT(&m, 1, 0x11, LOW_VIRTUAL + 32, 0, HOST_PAGE(LOW_ENTRY_AT));
    ALL_AS_SAID(&m);
    discard(&m);
    m = falling(none, sizeof none);
    put32(m.storage.at + LOW_ENTRY_AT, PAGE_INVALID);
    start(&m);
    HOST_FAULT(&m, 1, 0x11, LOW_VIRTUAL + 40, 0, HOST_PAGE(LOW_ENTRY_AT));
    ALL_AS_SAID(&m);
    discard(&m);
}

/* An exit is no unit, and so no fall: with the low page gone it ends as it does without an interval timer. */
static void test_exit_has_no_fall(void)
{
    static const uint8_t diagnose[] = {0x83, 0x00, 0x00, 0x00};
    struct machine m = falling(diagnose, sizeof diagnose);

    put32(m.record.at + AT_PSW, 0);
    put32(m.storage.at + LOW_ENTRY_AT, PAGE_INVALID);
    start(&m);
    leaves_psw(&m, 0, BC_RIGHT | (START + 4));
    leaves_results(&m, 4, 2, 0, 0x83000000u);
    INTERCEPTED(&m, 1, 4, 0);
    ALL_AS_SAID(&m);
    discard(&m);
}

/* STCK, ST and AR, each with its own place, and the branch back. */
static const uint8_t busy_loop[] = {
    0xb2, 0x05, 0x36, 0x00, /* STCK X'600'(3) */
    0x1a, 0x12,             /* AR 1,2 */
    0x50, 0x10, 0x37, 0x00, /* ST 1,X'700'(3) */
    0x07, 0xf4,             /* BCR 15,4 */
};

static struct machine busy(uint32_t residue, uint32_t word)
{
    struct machine m = GUEST(busy_loop, 0, 0);

    put_general(&m, 2, 1);
    put_general(&m, 3, 0x1000);
    put_general(&m, 4, START);
    put_interval(&m, 0, residue, word);
    return m;
}

static int same_state(const struct machine *a, const struct machine *b)
{
    return memcmp(a->record.at, b->record.at, a->record.len) == 0
        && memcmp(a->storage.at, b->storage.at, a->storage.len) == 0
        && memcmp(a->keys.at, b->keys.at, a->keys.len) == 0;
}

/* With the low page gone the guest runs until the word falls. When the host has mended it, the guest goes on, and is where it
   would be with a page that had been there. The word falls in the unit after `before`. */
static void try_mended(uint32_t before)
{
    uint32_t residue = INTERVAL_PERIOD - 3 * (before + 1);
    struct machine whole = busy(residue, 0), parts = busy(residue, 0);
    uint64_t where = NOT_TOUCHED;

    EXPECT(run(&whole, 1000, 1, 20, &where) == ended(DREVOKAS_BUDGET_USED, 0, 20));
    put32(parts.storage.at + LOW_ENTRY_AT, PAGE_INVALID);
    EXPECT(run(&parts, 1000, 1, 20, &where) == faulted(0x11, before, HOST_PAGE(LOW_ENTRY_AT)));
    EXPECT(where == where_in(LOW_VIRTUAL + 80, HOST_PAGE(LOW_ENTRY_AT)));
    EXPECT(get32(parts.record.at + AT_RESIDUE) == INTERVAL_PERIOD - 3 && parts.record.at[AT_INTERVAL] == 0);
    put32(parts.storage.at + LOW_ENTRY_AT, 0x5000);
    EXPECT(run(&parts, 1000 + before, 1, 20 - before, &where) == ended(DREVOKAS_BUDGET_USED, 0, 20 - before));
    EXPECT(same_state(&whole, &parts));
    EXPECT(parts.record.at[AT_INTERVAL] == INTERVAL_T && get32(parts.storage.at + WORD_AT) == 0xffffff00u);
    discard(&whole);
    discard(&parts);
}

static void test_mended(void)
{
    uint32_t before;

    for (before = 0; before < 9; before++)
        try_mended(before);
}

/* Many falls, cut at every unit: what is added is three times the time, and what falls is 256 for each period of it. */
static void test_cut_at_every_unit(void)
{
    uint32_t residue, cut;

    for (residue = 0; residue < INTERVAL_PERIOD; residue += 5119999) {
        struct machine whole = busy(residue, 0x280), parts = busy(residue, 0x280);
        uint64_t where = NOT_TOUCHED, added = residue + (uint64_t)100 * 3 * MOST;
        uint32_t falls = (uint32_t)(added / INTERVAL_PERIOD);

        EXPECT(run(&whole, 0, MOST, 100, &where) == ended(DREVOKAS_BUDGET_USED, 0, 100));
        for (cut = 0; cut < 100; cut++)
            EXPECT(run(&parts, (uint64_t)cut * MOST, MOST, 1, &where) == ended(DREVOKAS_BUDGET_USED, 0, 1));
        EXPECT(same_state(&whole, &parts));
        EXPECT(get32(whole.record.at + AT_RESIDUE) == added % INTERVAL_PERIOD);
        EXPECT(get32(whole.storage.at + WORD_AT) == 0x280 - 256 * falls);
        EXPECT(whole.record.at[AT_INTERVAL] == INTERVAL_T);
        discard(&whole);
        discard(&parts);
    }
}

/* ---- which table was bad ---- */

/* A unit in which the word falls, and the first byte that it accesses at SPOT. That is the prefix page, so that real SPOT is
   absolute 0, where the text is. */
static const struct {
    uint8_t text[4];
    uint32_t address, first;
    int store;
} at_spot[] = {
    /* the word: AR 1,2; BC 15,0(3); ST 1,X'800'(3) */
    {{0x1a, 0x12}, SPOT | 0x200, 80, 1},
    {{0x47, 0xf0, 0x30, 0x00}, SPOT | 0x200, 80, 1},
    {{0x50, 0x10, 0x38, 0x00}, SPOT | 0x200, 80, 1},
    /* operands: ST 1,80; ST 1,X'123'; L 1,X'123' */
    {{0x50, 0x10, 0x00, 0x50}, SPOT | 0x200, 80, 1},
    {{0x50, 0x10, 0x01, 0x23}, SPOT | 0x200, 0x123, 1},
    {{0x58, 0x10, 0x01, 0x23}, SPOT | 0x200, 0x123, 0},
    /* interruption areas: SVC 7; operation exception */
    {{0x0a, 0x07}, SPOT | 0x200, 32, 1},
    {{0x00, 0x00}, SPOT | 0x200, 40, 1},
    /* text: LR 1,2 at SPOT */
    {{0}, 0x200, 0x200, 0},
};

#define AT_SPOT (sizeof at_spot / sizeof *at_spot)

/* A page that the host protects can be fetched from: then it is the word's store that faults. */
static void try_way(const struct way *w, size_t i, uint32_t left)
{
    struct machine m = spot_guest(w);
    uint32_t first = w->code == 4 && !at_spot[i].store ? 80 : at_spot[i].first;

    lengthen(&m);
    m.record.at[AT_MODE] = MODE_370;
    put32(m.record.at + AT_PREFIX, SPOT);
    put32(m.record.at + AT_PSW, left);
    put32(m.record.at + AT_PSW + 4, at_spot[i].address);
    put32(m.record.at + AT_RESIDUE, INTERVAL_PERIOD - 1);
    memset(m.record.at + AT_RESULTS, 0xee, RESULT_BYTES);
    put_general(&m, 3, SPOT);
    memcpy(m.storage.at + OTHER_FRAME + 0x200, at_spot[i].text, 4);
    put16(m.storage.at + SPOT_FRAME + 0x200, 0x1812);
    start(&m);
    HOST_FAULT(&m, 1, w->code, SPOT_VIRTUAL + first, 0, w->named);
    ALL_AS_SAID(&m);
    if (w->code == 4)
        REACHES(&m, FETCH, 0x123, SPOT_FRAME | 0x123);
    else
        FAULTS_IN(&m, FETCH, 0x123, w->code, SPOT_VIRTUAL | 0x123, w->named);
    FAULTS_IN(&m, STORE, 0xff000123u, w->code, SPOT_VIRTUAL | 0x123, w->named);
    discard(&m);
}

static void test_ways(void)
{
    size_t w, i;

    for (w = 0; w < WAYS; w++)
        for (i = 0; i < AT_SPOT; i++) {
            try_way(&ways[w], i, 0);
            try_way(&ways[w], i, PSW_BASE);
        }
}

/* ---- mode 10 in 208 bytes ---- */

/* The same guest in both records: the first 200 bytes but for length and version, storage and keys come to the same, and
   bytes 200-207 stay. */
static void try_both_records(const uint8_t *text, size_t len, uint32_t controls)
{
    struct machine large = guest(text, len, 0, 0), small = guest(text, len, 0, 0);
    uint64_t where = NOT_TOUCHED, other = NOT_TOUCHED;
    uint8_t last[8];

    make_xa(&large);
    make_xa(&small);
    large.record.at[AT_CONTROLS] = small.record.at[AT_CONTROLS] = (uint8_t)controls;
    put_interval(&large, 0xff, INTERVAL_PERIOD - 1, 0);
    memcpy(last, large.record.at + 200, 8);
    shorten(&small);
    EXPECT(run(&large, 5, MOST, 4, &where) == run(&small, 5, MOST, 4, &other));
    EXPECT(where == other);
    EXPECT(memcmp(large.record.at + 3, small.record.at + 3, DREVOKAS_RECORD_LENGTH - 3) == 0);
    EXPECT(memcmp(large.record.at + 200, last, 8) == 0);
    EXPECT(memcmp(large.storage.at, small.storage.at, small.storage.len) == 0);
    EXPECT(memcmp(large.keys.at, small.keys.at, small.keys.len) == 0);
    discard(&large);
    discard(&small);
}

static void test_both_records(void)
{
    static const uint8_t channel[] = {0x9c, 0x00, 0x00, 0x00}, subchannel[] = {0xb2, 0x30, 0x00, 0x00};

    try_both_records(add_loop, sizeof add_loop, 0);
    try_both_records(busy_loop, sizeof busy_loop, 0);
    try_both_records(call_7, sizeof call_7, 0);
    try_both_records(channel, sizeof channel, 0);
    try_both_records(channel, sizeof channel, 0x80);
    try_both_records(subchannel, sizeof subchannel, 0);
}

/* 9C and B230 by the mode, in a record of 208 bytes. */
static void try_mode_opcode(const uint8_t *text, uint32_t mode, uint32_t code)
{
    struct machine m = guest(text, 4, 0, 0);

    if (mode == MODE_XA)
        make_xa(&m);
    m.record.at[AT_CONTROLS] = 0x80;
    INTERCEPTED(&m, 1, code, 0);
    EXPECT(m.record.at[AT_RESULTS] == code && m.record.at[AT_RESULTS + 1] == 2);
    EXPECT(get32(m.record.at + AT_RESULTS + 8) == get32(text));
    discard(&m);
}

static void test_opcodes_by_mode(void)
{
    static const uint8_t channel[] = {0x9d, 0x12, 0x34, 0x56}, subchannel[] = {0xb2, 0x31, 0x23, 0x45};

    try_mode_opcode(channel, MODE_370, 4);
    try_mode_opcode(channel, MODE_XA, 44);
    try_mode_opcode(subchannel, MODE_370, 44);
    try_mode_opcode(subchannel, MODE_XA, 4);
}

/* ---- the bytes around what is lent ---- */

#define MARGIN 64

struct lent {
    uint8_t *block;
    size_t len;
};

/* A copy of bytes, with others before and behind them. */
static struct lent lend(const struct bytes *b)
{
    struct lent l;

    l.len = b->len;
    l.block = block_of(b->len + 2 * MARGIN);
    memset(l.block, 0xa5, b->len + 2 * MARGIN);
    memcpy(l.block + MARGIN, b->at, b->len);
    return l;
}

static int margins_kept(const struct lent *l)
{
    size_t i;

    for (i = 0; i < MARGIN; i++)
        if (l->block[i] != 0xa5 || l->block[MARGIN + l->len + i] != 0xa5)
            return 0;
    return 1;
}

/* A run within larger blocks keeps to what it is lent, and does there what it does elsewhere. */
static void try_lent(struct machine *m, uint32_t time, uint32_t budget)
{
    struct lent record = lend(&m->record), storage = lend(&m->storage), keys = lend(&m->keys);
    uint64_t where = NOT_TOUCHED, other = NOT_TOUCHED, answer, expected;

    answer = drevokas_run(record.block + MARGIN, record.len, storage.block + MARGIN, storage.len, keys.block + MARGIN, keys.len,
                          m->designation, 0, time, budget, &where);
    expected = run(m, 0, time, budget, &other);
    EXPECT(answer == expected && where == other);
    EXPECT(margins_kept(&record) && margins_kept(&storage) && margins_kept(&keys));
    EXPECT(memcmp(record.block + MARGIN, m->record.at, record.len) == 0);
    EXPECT(memcmp(storage.block + MARGIN, m->storage.at, storage.len) == 0);
    EXPECT(memcmp(keys.block + MARGIN, m->keys.at, keys.len) == 0);
    free(record.block);
    free(storage.block);
    free(keys.block);
    discard(m);
}

static void test_lent(void)
{
    struct machine m = busy(INTERVAL_PERIOD - 1, 0);

    try_lent(&m, MOST, 40);
    m = requested();
    try_lent(&m, 1, 9);
    m = falling(store_beside, sizeof store_beside);
    put32(m.storage.at + LOW_ENTRY_AT, PAGE_INVALID);
    try_lent(&m, 1, 9);
    m = busy(INTERVAL_PERIOD, 0);
    try_lent(&m, 1, 9);
    m = busy(INTERVAL_PERIOD - 1, 0);
    make_xa(&m);
    shorten(&m);
    try_lent(&m, MOST, 40);
}

static void (*const tests[])(void) = {
    test_header,
    test_sizes,
    test_refused_bytes,
    test_accepted_bytes,
    test_refusals_in_order,
    test_entry_mode,
    test_entry_short_record,
    test_entry_prefix,
    test_translate,
    test_translate_dat,
    test_translate_protection,
    test_basic_add,
    test_basic_overflow,
    test_basic_supervisor_call,
    test_basic_interceptions,
    test_io_request,
    test_basic_addresses,
    test_extended_supervisor_call,
    test_forms,
    test_load_psw,
    test_extended_bits,
    test_ticks,
    test_inactive,
    test_word_stored_and_loaded,
    test_word_stored_by_another_page,
    test_interruption_ticks,
    test_request,
    test_request_among_others,
    test_request_masked,
    test_word_faults,
    test_area_before_word,
    test_exit_has_no_fall,
    test_mended,
    test_cut_at_every_unit,
    test_ways,
    test_both_records,
    test_opcodes_by_mode,
    test_lent,
};

int main(void)
{
    size_t i;

    for (i = 0; i < sizeof tests / sizeof *tests; i++)
        tests[i]();
    return expect_end();
}
