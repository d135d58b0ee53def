/* Tests of drevokas_check and drevokas_translate against document 01. Codes are written as its numbers. */
#include "ways.h"

#define FETCH DREVOKAS_OPERAND_FETCH
#define STORE DREVOKAS_STORE

static void set_word(struct machine *m, size_t at, uint32_t value)
{
    put32(m->storage.at + at, value);
}

static void set_field(struct machine *m, size_t at, uint32_t value)
{
    put32(m->record.at + at, value);
}

static void set_half_field(struct machine *m, size_t at, uint32_t value)
{
    put16(m->record.at + at, value);
}

/* ---- the header ---- */

static void test_header(void)
{
    uint64_t answer = 0x02110000fedcba98u, where = 0xfedcba9876543210u;

    EXPECT(drevokas_kind(answer) == 2);
    EXPECT(drevokas_number(answer) == 0x11);
    EXPECT(drevokas_units(answer) == 0xfedcba98u);
    EXPECT(drevokas_kind(0xff00000000000000u) == 255);
    EXPECT(drevokas_number(0x00ff000000000000u) == 255);
    EXPECT(drevokas_units(0xffffffff00000000u) == 0);
    EXPECT(drevokas_stage(answer) == 0 && drevokas_stage(0x0000ff0000000000u) == 255);
    EXPECT(drevokas_stage(0xffff00ffffffffffu) == 0 && drevokas_stage(0x0212040000000000u) == 4);
    EXPECT(drevokas_entry(where) == 0xfedcba98u && drevokas_address(where) == 0x76543210u);
    EXPECT(drevokas_entry(0xffffffffu) == 0 && drevokas_address(0xffffffff00000000u) == 0);
    EXPECT(DREVOKAS_STAGE_NONE == 0 && DREVOKAS_STAGE_GUEST_SEGMENT == 1 && DREVOKAS_STAGE_GUEST_PAGE == 2);
    EXPECT(DREVOKAS_STAGE_HOST_SEGMENT == 3 && DREVOKAS_STAGE_HOST_PAGE == 4);
    EXPECT(DREVOKAS_REFUSED == 0 && DREVOKAS_INTERCEPTED == 1 && DREVOKAS_HOST_FAULT == 2);
    EXPECT(DREVOKAS_BUDGET_USED == 3 && DREVOKAS_PROGRAM_EXCEPTION == 4 && DREVOKAS_GOOD == 5);
    EXPECT(DREVOKAS_REFUSAL_LENGTH == 1 && DREVOKAS_REFUSAL_VERSION == 2 && DREVOKAS_REFUSAL_STORAGE == 3);
    EXPECT(DREVOKAS_REFUSAL_KEYS == 4 && DREVOKAS_REFUSAL_BUDGET == 5 && DREVOKAS_REFUSAL_TIME == 6);
    EXPECT(DREVOKAS_REFUSAL_RESERVED == 7 && DREVOKAS_REFUSAL_ACCESS == 8 && DREVOKAS_CODE_VALIDITY == 32);
    EXPECT(DREVOKAS_PROTECTION == 4 && DREVOKAS_ADDRESSING == 5 && DREVOKAS_SEGMENT_TRANSLATION == 16);
    EXPECT(DREVOKAS_PAGE_TRANSLATION == 17 && DREVOKAS_TRANSLATION_SPECIFICATION == 18);
    EXPECT(DREVOKAS_OPERAND_FETCH == 0 && DREVOKAS_STORE == 1 && DREVOKAS_INSTRUCTION_FETCH == 2);
    EXPECT(DREVOKAS_RECORD_LENGTH == 200 && DREVOKAS_RECORD_VERSION == 1 && DREVOKAS_FRAME_BYTES == 4096);
    EXPECT(DREVOKAS_MOST_FRAMES == 4096 && DREVOKAS_MOST_UNITS == 65535 && DREVOKAS_MOST_TIME == 1048576);
}

/* ---- the worked examples ---- */

/* The setup of document 01. */
static struct machine paper(void)
{
    struct machine m = machine_of(8);

    m.designation = 0x00001000;
    set_word(&m, 4096, 0x00002000);
    set_word(&m, 8192, 0x00003000);
    set_word(&m, 8196, 0x00000400);
    return m;
}

/* Host tables and guest page 0 in one frame, which is all; guest page 1 is past it. */
static struct machine one_frame(void)
{
    struct machine m = machine_of(1);

    m.designation = 0;
    set_word(&m, 0, 0x40);
    set_word(&m, 0x44, 0x1000);
    return m;
}

static void test_paper_fetches(void)
{
    struct machine m = paper();

    CHECKS_GOOD(&m);
    REACHES(&m, FETCH, 0, 12288);
    REACHES(&m, FETCH, 4095, 16383);
    FAULTS_IN(&m, FETCH, 4096, 0x11, 4096, HOST_PAGE(8196));
    EXCEPTION(&m, FETCH, 65536, 5);
    discard(&m);
}

static void test_paper_prefix(void)
{
    struct machine m = paper();

    set_field(&m, AT_PREFIX, 0x2000);
    set_word(&m, 8196, 0x00004000);
    set_word(&m, 8200, 0x00005000);
    REACHES(&m, FETCH, 0, 0x5000);
    REACHES(&m, FETCH, 0x2010, 0x3010);
    REACHES(&m, FETCH, 0x1000, 0x4000);
    discard(&m);
}

static void test_paper_guest_length(void)
{
    struct machine m = paper();

    set_field(&m, AT_PSW, PSW_DAT);
    set_field(&m, AT_CR0, CR0_FORMAT);
    EXCEPTION_IN(&m, FETCH, 0x01000000, 0x10, GUEST_SEGMENT(UNREAD));
    /* the segment entry, a zero word, has length 0 */
    EXCEPTION_IN(&m, FETCH, 0x00ffffff, 0x11, GUEST_PAGE(UNREAD));
    /* with a page table at real 64 and all its entries zero, real page 0 */
    set_word(&m, 12288 + 15 * 4, 0x4f);
    REACHES(&m, FETCH, 0x00ffffff, 0x3fff);
    EXCEPTION_IN(&m, FETCH, 0x01000000, 0x10, GUEST_SEGMENT(UNREAD));
    discard(&m);
}

/* ---- refusals ---- */

/* Defects that can be put together, each with its number, in the order of the tests. The last is entry failing. */
#define DEFECTS 7
static const uint32_t defect_number[DEFECTS] = {1, 2, 3, 4, 7, 8, 32};

static void apply_defects(struct machine *m, unsigned defects)
{
    if (defects & 1)
        set_half_field(m, AT_LENGTH, 199);
    if (defects & 2)
        m->record.at[AT_VERSION] = 2;
    if (defects & 4)
        resize(&m->storage, m->storage.len + 1);
    if (defects & 8)
        resize(&m->keys, m->keys.len - 1);
    if (defects & 16)
        m->record.at[AT_RESERVED + 4] = 1;
    if (defects & 64)
        set_half_field(m, AT_EXTENT, 0);
}

/* The number of the first of some defects; 0 for none. */
static uint32_t first_number(unsigned defects)
{
    int i;

    for (i = 0; i < DEFECTS; i++)
        if (defects >> i & 1)
            return defect_number[i];
    return 0;
}

static void test_refusals_in_order(void)
{
    unsigned defects;

    for (defects = 0; defects < 1u << DEFECTS; defects++) {
        struct machine m = paper();
        uint32_t access = defects & 32 ? 3 : STORE, number = first_number(defects);

        apply_defects(&m, defects);
        if (number == 0)
            REACHES(&m, access, 0x123, 0x3123);
        else if (number == 32)
            INVALID(&m, access, 0x123);
        else
            REFUSED(&m, access, 0x123, number);
        number = first_number(defects & (1 | 2 | 16 | 64));
        if (number == 0)
            CHECKS_GOOD(&m);
        else if (number == 32)
            CHECKS_INVALID(&m);
        else
            CHECK_REFUSED(&m, number);
        discard(&m);
    }
}

static void test_refused_record_sizes(void)
{
    static const size_t sizes[] = {0, 1, 2, 3, 65, 66, 71, 72, 199, 201, 456, 4096, 65736};
    size_t i;

    for (i = 0; i < sizeof sizes / sizeof *sizes; i++) {
        struct machine m = paper();

        apply_defects(&m, 127 - 1);
        resize(&m.record, sizes[i]);
        CHECK_REFUSED(&m, 1);
        REFUSED(&m, 3, 0, 1);
        resize(&m.storage, 0);
        resize(&m.keys, 0);
        REFUSED(&m, FETCH, 0, 1);
        discard(&m);
    }
}

static void test_refused_length_fields(void)
{
    static const uint32_t lengths[] = {0, 1, 199, 201, 0x01c8, 0xffc8, 0xc800, 0xc8c8, 0xffff};
    size_t i;

    for (i = 0; i < sizeof lengths / sizeof *lengths; i++) {
        struct machine m = paper();

        set_half_field(&m, AT_LENGTH, lengths[i]);
        CHECK_REFUSED(&m, 1);
        REFUSED(&m, STORE, 0, 1);
        discard(&m);
    }
}

static void test_refused_versions(void)
{
    struct machine m = one_frame();
    unsigned version;

    for (version = 0; version < 256; version++) {
        m.record.at[AT_VERSION] = (uint8_t)version;
        if (version == 1) {
            CHECKS_GOOD(&m);
            REACHES(&m, STORE, 0, 0);
        } else {
            CHECK_REFUSED(&m, 2);
            REFUSED(&m, STORE, 0, 2);
        }
    }
    discard(&m);
}

/* A storage that is refused whatever the number of keys; then again with a key for each frame that is begun. */
static void refuse_storage(size_t size)
{
    struct machine m = paper();

    resize(&m.storage, size);
    REFUSED(&m, STORE, 0, 3);
    resize(&m.keys, (size + 4095) / 4096);
    REFUSED(&m, STORE, 0, 3);
    CHECKS_GOOD(&m);
    discard(&m);
}

static void test_refused_storages(void)
{
    refuse_storage(0);
    refuse_storage(1);
    refuse_storage(4095);
    refuse_storage(4097);
    refuse_storage(8 * 4096 - 1);
    refuse_storage(8 * 4096 + 4);
    refuse_storage(8 * 4096 + 2048);
    refuse_storage((size_t)4096 * 4096 + 1);
    refuse_storage((size_t)4097 * 4096);
}

static void test_refused_keys(void)
{
    static const size_t counts[] = {0, 1, 7, 9, 16, 264, 4096, 32768, 65544};
    size_t i;

    for (i = 0; i < sizeof counts / sizeof *counts; i++) {
        struct machine m = paper();

        resize(&m.keys, counts[i]);
        REFUSED(&m, FETCH, 0, 4);
        discard(&m);
    }
}

static void test_refused_reserved_bytes(void)
{
    struct machine m = paper();
    int byte, bit;

    for (byte = AT_RESERVED; byte < AT_RESERVED + RESERVED_BYTES; byte++) {
        for (bit = 0; bit < 8; bit++) {
            m.record.at[byte] = (uint8_t)(1 << bit);
            CHECK_REFUSED(&m, 7);
            REFUSED(&m, FETCH, 0, 7);
        }
        m.record.at[byte] = 0;
    }
    m.record.at[AT_RESERVED - 1] = 0xff;
    CHECKS_GOOD(&m);
    REACHES(&m, FETCH, 0, 12288);
    discard(&m);
}

static void test_refused_accesses(void)
{
    static const uint32_t kinds[] = {3, 4, 5, 0x100, 0x101, 0x102, 0x10000, 0x7fffffff, 0x80000000u, 0x80000001u,
                                     0xffffffffu};
    struct machine m = paper();
    size_t i;

    for (i = 0; i < sizeof kinds / sizeof *kinds; i++)
        REFUSED(&m, kinds[i], 0, 8);
    discard(&m);
}

/* ---- entry ---- */

/* Both operations make the test. */
static void entry_fails(struct machine *m)
{
    CHECKS_INVALID(m);
    INVALID(m, FETCH, 0);
    INVALID(m, STORE, 0xffffffffu);
}

static void test_entry_mode(void)
{
    struct machine m = one_frame();
    unsigned mode;

    for (mode = 0; mode < 256; mode++) {
        m.record.at[AT_MODE] = (uint8_t)mode;
        if ((mode & 0x0c) == 0x08 && (mode & 0x02) == 0) {
            CHECKS_GOOD(&m);
            REACHES(&m, FETCH, 0, 0);
        } else {
            entry_fails(&m);
        }
    }
    discard(&m);
}

/* For an origin other than 0, the host has no segment there. */
static void try_extent(uint32_t origin, uint32_t extent, int good)
{
    struct machine m = paper();

    set_half_field(&m, AT_ORIGIN, origin);
    set_half_field(&m, AT_EXTENT, extent);
    if (!good) {
        entry_fails(&m);
    } else if (origin == 0) {
        CHECKS_GOOD(&m);
        REACHES(&m, FETCH, 0, 12288);
    } else {
        CHECKS_GOOD(&m);
        m.designation = 0x8000;
        FAULTS_IN(&m, FETCH, 0, origin < 256 ? 5 : 0x10, origin << 16, HOST_SEGMENT(UNREAD));
    }
    discard(&m);
}

static void test_entry_extent(void)
{
    try_extent(0, 0, 0);
    try_extent(0, 1, 1);
    try_extent(0, 32767, 1);
    try_extent(0, 32768, 1);
    try_extent(0, 32769, 0);
    try_extent(0, 65535, 0);
    try_extent(1, 32767, 1);
    try_extent(1, 32768, 0);
    try_extent(1, 65535, 0);
    try_extent(255, 1, 1);
    try_extent(256, 1, 1);
    try_extent(16384, 16384, 1);
    try_extent(16384, 16385, 0);
    try_extent(32767, 0, 0);
    try_extent(32767, 1, 1);
    try_extent(32767, 2, 0);
    try_extent(32767, 32769, 0);
    try_extent(32768, 0, 0);
    try_extent(32768, 1, 0);
    try_extent(32768, 32768, 0);
    try_extent(65535, 1, 0);
    try_extent(65535, 65535, 0);
}

/* Real address `prefix` is guest absolute 0. */
static void try_prefix(uint32_t extent, uint32_t field, int good)
{
    struct machine m = paper();

    set_half_field(&m, AT_EXTENT, extent);
    set_field(&m, AT_PREFIX, field);
    if (good) {
        CHECKS_GOOD(&m);
        REACHES(&m, FETCH, field & 0x7ffff000u, 12288);
    } else {
        CHECKS_INVALID(&m);
        INVALID(&m, FETCH, 0);
    }
    discard(&m);
}

static void test_entry_prefix(void)
{
    try_prefix(1, 0, 1);
    try_prefix(1, 0xf000, 1);
    try_prefix(1, 0xffff, 1);
    try_prefix(1, 0x10000, 0);
    try_prefix(1, 0x80000fffu, 1);
    try_prefix(1, 0x8000f000u, 1);
    try_prefix(1, 0x7ffff000, 0);
    try_prefix(1, 0xffffffffu, 0);
    try_prefix(2, 0x1f000, 1);
    try_prefix(2, 0x20000, 0);
    try_prefix(32767, 0x7ffef000, 1);
    try_prefix(32767, 0x7fff0000, 0);
    try_prefix(32768, 0x7fff0000, 1);
    try_prefix(32768, 0x7ffff000, 1);
    try_prefix(32768, 0xffffffffu, 1);
}

/* ---- a guest with origin 17 and extent 2 ---- */

#define GUEST_PAGES 32
#define BACKED_PAGES 12
#define HOST_SEGMENT_AT 0x1004u

/* the host virtual address of a guest absolute one */
#define HOST_VIRTUAL(a) (0x110000u + (a))

/* Where the host entry of a guest page stands. */
static uint32_t host_entry_at(uint32_t page)
{
    return 0x2000 + (16 + page) * 4;
}

static void set_host_entry(struct machine *m, uint32_t page, uint32_t entry)
{
    set_word(m, host_entry_at(page), entry);
}

/* A word at a guest absolute address that has a host frame. */
static void set_guest_word(struct machine *m, uint32_t a, uint32_t value)
{
    set_word(m, a + 0x4000, value);
}

/* 16 frames; guest pages 0-11 are in frames 4-15, the host has no others. */
static struct machine guest(void)
{
    struct machine m = machine_of(16);
    uint32_t page;

    set_half_field(&m, AT_ORIGIN, 17);
    set_half_field(&m, AT_EXTENT, 2);
    set_word(&m, HOST_SEGMENT_AT, 0x2002);
    for (page = 0; page < GUEST_PAGES; page++)
        set_host_entry(&m, page, page < BACKED_PAGES ? (page + 4) << 12 : PAGE_INVALID);
    return m;
}

/* Segment table at real 1000 hex, page tables at 3FC0, over a page's end, and at 3800. Logical page 0 is real page 5,
   page 1 is real page 6, page 16 is real page 7; the first pages of segments 1 and 1024 are real page 6. */
#define SEGMENT_TABLE 0x1000u
#define PAGE_TABLE 0x3fc0u
#define OTHER_PAGE_TABLE 0x3800u

static struct machine dat_guest(void)
{
    struct machine m = guest();

    set_field(&m, AT_PSW, PSW_DAT);
    set_field(&m, AT_CR0, CR0_FORMAT);
    set_field(&m, AT_CR1, SEGMENT_TABLE);
    set_guest_word(&m, SEGMENT_TABLE, PAGE_TABLE | 15);
    set_guest_word(&m, SEGMENT_TABLE + 4, OTHER_PAGE_TABLE);
    set_guest_word(&m, SEGMENT_TABLE + 1024 * 4, OTHER_PAGE_TABLE);
    set_guest_word(&m, PAGE_TABLE, 0x5000);
    set_guest_word(&m, PAGE_TABLE + 4, 0x6000);
    set_guest_word(&m, PAGE_TABLE + 16 * 4, 0x7000);
    set_guest_word(&m, OTHER_PAGE_TABLE, 0x6000);
    return m;
}

static void test_guest_pages(void)
{
    struct machine m = guest();
    uint32_t page;

    for (page = 0; page < BACKED_PAGES; page++) {
        REACHES(&m, FETCH, page << 12, (page + 4) << 12);
        REACHES(&m, STORE, page << 12 | 0xabc, (page + 4) << 12 | 0xabc);
    }
    for (page = BACKED_PAGES; page < GUEST_PAGES; page++)
        FAULTS_IN(&m, FETCH, page << 12 | 0xfff, 0x11, HOST_VIRTUAL(page << 12 | 0xfff), HOST_PAGE(host_entry_at(page)));
    EXCEPTION(&m, FETCH, 0x20000, 5);
    EXCEPTION(&m, STORE, 0x7fffffff, 5);
    discard(&m);
}

/* The host has pages past the extent, which the guest must not reach. */
static void test_extent_before_origin(void)
{
    struct machine m = guest();

    set_word(&m, HOST_SEGMENT_AT, 0x200f);
    set_host_entry(&m, GUEST_PAGES, 0x5000);
    EXCEPTION(&m, FETCH, 0x20000, 5);
    EXCEPTION(&m, STORE, 0x20fff, 5);
    set_half_field(&m, AT_EXTENT, 3);
    REACHES(&m, FETCH, 0x20000, 0x5000);
    set_half_field(&m, AT_EXTENT, 1);
    EXCEPTION(&m, FETCH, 0x10000, 5);
    discard(&m);
}

static void test_dat(void)
{
    struct machine m = dat_guest();

    REACHES(&m, FETCH, 0, 0x9000);
    REACHES(&m, STORE, 0x123, 0x9123);
    REACHES(&m, FETCH, 0x1fff, 0xafff);
    REACHES(&m, FETCH, 0x10001, 0xb001);
    REACHES(&m, STORE, 0x100000, 0xa000);
    EXCEPTION_IN(&m, FETCH, 0x40000000, 0x10, GUEST_SEGMENT(UNREAD));
    set_field(&m, AT_CR1, SEGMENT_TABLE | 63);
    EXCEPTION_IN(&m, FETCH, 0x40000000, 0x10, GUEST_SEGMENT(UNREAD));
    set_field(&m, AT_CR1, SEGMENT_TABLE | 64);
    REACHES(&m, FETCH, 0x40000fed, 0xafed);
    discard(&m);
}

/* ---- wrap ---- */

/* With an extent of 257 blocks, guest absolute 01000000 hex is in frame 12 and the host lacks the page before it. */
static struct machine wide_guest(void)
{
    struct machine m = guest();

    set_half_field(&m, AT_EXTENT, 257);
    m.designation = 0x1001;
    set_word(&m, 0x1000 + 17 * 4, 0x2801);
    set_word(&m, 0x2800 + 15 * 4, PAGE_INVALID);
    set_word(&m, 0x2800 + 16 * 4, 0xc000);
    return m;
}

static void test_wrap(void)
{
    struct machine m = wide_guest();

    REACHES(&m, FETCH, 0x01000000, 0xc000);
    REACHES(&m, STORE, 0x81000123u, 0xc123);
    REACHES(&m, FETCH, 0x80000000u, 0x4000);
    EXCEPTION(&m, FETCH, 0x7fffffff, 5);
    EXCEPTION(&m, FETCH, 0xffffffffu, 5);
    m.record.at[AT_ADDRESSING_MODE] = 0x7f;
    REACHES(&m, FETCH, 0x01000000, 0x4000);
    REACHES(&m, STORE, 0x81000123u, 0x4123);
    REACHES(&m, FETCH, 0xff001234u, 0x5234);
    FAULTS_IN(&m, FETCH, 0xffffffffu, 0x11, HOST_VIRTUAL(0xffffff), HOST_PAGE(0x2800 + 15 * 4));
    discard(&m);
}

/* Virtual addresses wrap; real ones, above 2^24 too, come from the tables as they stand. */
static void test_wrap_with_dat(void)
{
    struct machine m = wide_guest();

    set_field(&m, AT_PSW, PSW_DAT);
    set_field(&m, AT_CR0, CR0_FORMAT);
    set_field(&m, AT_CR1, SEGMENT_TABLE);
    set_guest_word(&m, SEGMENT_TABLE, PAGE_TABLE | 15);
    set_guest_word(&m, PAGE_TABLE, 0x01000000);
    REACHES(&m, FETCH, 0x80000456u, 0xc456);
    EXCEPTION_IN(&m, FETCH, 0x01000456, 0x10, GUEST_SEGMENT(UNREAD));
    m.record.at[AT_ADDRESSING_MODE] = 0;
    REACHES(&m, FETCH, 0x01000456, 0xc456);
    REACHES(&m, STORE, 0xff000456u, 0xc456);
    discard(&m);
}

/* ---- the first tests of a byte ---- */

static void test_low_address_protection(void)
{
    struct machine m = guest();

    REACHES(&m, STORE, 0, 0x4000);
    set_field(&m, AT_CR0, CR0_LOW_PROTECTION);
    EXCEPTION(&m, STORE, 0, 4);
    EXCEPTION(&m, STORE, 511, 4);
    REACHES(&m, STORE, 512, 0x4200);
    REACHES(&m, FETCH, 0, 0x4000);
    EXCEPTION(&m, STORE, 0x80000000u, 4);
    m.record.at[AT_ADDRESSING_MODE] = 0;
    EXCEPTION(&m, STORE, 0xff0001ffu, 4);
    /* before the host's tests */
    set_host_entry(&m, 0, PAGE_INVALID);
    EXCEPTION(&m, STORE, 0, 4);
    FAULTS_IN(&m, STORE, 512, 0x11, HOST_VIRTUAL(512), HOST_PAGE(host_entry_at(0)));
    discard(&m);
}

/* It looks at the logical address, not at the real or absolute one. */
static void test_low_address_is_logical(void)
{
    struct machine m = dat_guest();

    set_field(&m, AT_CR0, CR0_FORMAT | CR0_LOW_PROTECTION);
    EXCEPTION(&m, STORE, 0, 4);
    REACHES(&m, STORE, 512, 0x9200);
    set_guest_word(&m, PAGE_TABLE + 4, 0);
    REACHES(&m, STORE, 0x1000, 0x4000);
    /* before CR0's format and the length of the table */
    set_field(&m, AT_CR0, CR0_LOW_PROTECTION);
    EXCEPTION(&m, STORE, 0, 4);
    EXCEPTION(&m, STORE, 512, 0x12);
    EXCEPTION(&m, FETCH, 0, 0x12);
    discard(&m);
    m = guest();
    set_field(&m, AT_CR0, CR0_LOW_PROTECTION);
    set_field(&m, AT_PREFIX, 0x2000);
    EXCEPTION(&m, STORE, 0x10, 4);
    REACHES(&m, STORE, 0x2010, 0x4010);
    discard(&m);
}

static void test_control_format(void)
{
    struct machine m = dat_guest();
    uint32_t format;

    for (format = 0; format < 32; format++) {
        set_field(&m, AT_CR0, format << 19);
        if (format == 0x16) {
            REACHES(&m, FETCH, 0, 0x9000);
        } else {
            EXCEPTION(&m, FETCH, 0, 0x12);
            EXCEPTION(&m, STORE, 0x40000000, 0x12);
        }
    }
    set_field(&m, AT_CR0, 0);
    set_field(&m, AT_PSW, 0);
    REACHES(&m, FETCH, 0, 0x4000);
    discard(&m);
}

/* ---- guest tables ---- */

/* Segment translation and specification come from the segment entry itself; what else it gives, from the page entry that is
   not read. */
static struct table segment_or_page(uint32_t code)
{
    return code == 0x10 || code == 0x12 ? GUEST_SEGMENT(SEGMENT_TABLE) : GUEST_PAGE(UNREAD);
}

/* What a segment entry gives for logical address 0 and for 10000 hex, whose page index is 16; 0 where it translates. */
static void try_segment(uint32_t entry, uint32_t code, uint32_t far_code)
{
    struct machine m = dat_guest();

    set_guest_word(&m, SEGMENT_TABLE, entry);
    if (code)
        EXCEPTION_IN(&m, FETCH, 0, code, segment_or_page(code));
    else
        REACHES(&m, FETCH, 0, 0x9000);
    if (far_code)
        EXCEPTION_IN(&m, STORE, 0x10000, far_code, segment_or_page(far_code));
    else
        REACHES(&m, STORE, 0x10000, 0xb000);
    discard(&m);
}

static void test_guest_segment_entry(void)
{
    try_segment(PAGE_TABLE | 1, 0, 0);
    try_segment(PAGE_TABLE | BIT(27) | 1, 0, 0);
    try_segment(PAGE_TABLE, 0, 0x11);
    try_segment(PAGE_TABLE | BIT(27), 0, 0x11);
    try_segment(PAGE_TABLE | SEGMENT_INVALID | 15, 0x10, 0x10);
    try_segment(PAGE_TABLE | BIT(0) | 15, 0x12, 0x12);
    try_segment(PAGE_TABLE | SEGMENT_INVALID | BIT(0) | 15, 0x10, 0x10);
    try_segment(PAGE_TABLE | BIT(0), 0x12, 0x12);
    try_segment(0x20000 | 15, 5, 5);
    try_segment(0x20000, 5, 0x11);
    try_segment(0x7fffffc0 | 15, 5, 5);
    try_segment(0xffffffffu, 0x10, 0x10);
}

/* Addressing is that of the byte. */
static void try_page(uint32_t entry, uint32_t code)
{
    struct machine m = dat_guest();
    struct table named = code == 5 ? NO_TABLE : GUEST_PAGE(PAGE_TABLE);

    set_guest_word(&m, PAGE_TABLE, entry);
    if (code) {
        EXCEPTION_IN(&m, FETCH, 0x321, code, named);
        EXCEPTION_IN(&m, STORE, 0x321, code, named);
    } else {
        REACHES(&m, FETCH, 0x321, 0x9321);
        REACHES(&m, STORE, 0x321, 0x9321);
    }
    discard(&m);
}

static void test_guest_page_entry(void)
{
    try_page(0x5000 | 0xff, 0);
    try_page(0x5000 | PAGE_INVALID, 0x11);
    try_page(0x5000 | BIT(0), 0x12);
    try_page(0x5000 | BIT(20), 0x12);
    try_page(0x5000 | BIT(23), 0x12);
    try_page(0x5000 | PAGE_INVALID | BIT(0), 0x11);
    try_page(0x5000 | PAGE_INVALID | BIT(20), 0x11);
    try_page(0x5000 | PAGE_INVALID | BIT(23), 0x11);
    try_page(0x5000 | PAGE_PROTECTED | BIT(20), 0x12);
    try_page(0x20000 | BIT(20), 0x12);
    try_page(0x20000, 5);
    try_page(0x20000 | PAGE_PROTECTED, 5);
    try_page(0x7ffff000, 5);
    try_page(0xffffffffu, 0x11);
}

/* Tables that end at or run over the extent. */
static void test_guest_tables_past_extent(void)
{
    struct machine m = dat_guest();

    set_field(&m, AT_CR1, 0x20000);
    EXCEPTION_IN(&m, FETCH, 0, 5, GUEST_SEGMENT(UNREAD));
    set_field(&m, AT_CR1, 0x1f000 | 127);
    FAULTS_IN(&m, FETCH, 0x3ff00000, 0x11, HOST_VIRTUAL(0x1fffc), HOST_PAGE(host_entry_at(31)));
    EXCEPTION_IN(&m, FETCH, 0x40000000, 5, GUEST_SEGMENT(UNREAD));
    set_field(&m, AT_CR1, 0x7ffff000 | 127);
    EXCEPTION_IN(&m, FETCH, 0, 5, GUEST_SEGMENT(UNREAD));
    EXCEPTION_IN(&m, FETCH, 0x7fffffff, 5, GUEST_SEGMENT(UNREAD));
    set_field(&m, AT_CR1, SEGMENT_TABLE);
    set_guest_word(&m, SEGMENT_TABLE, 0x1ffc0 | 15);
    FAULTS_IN(&m, STORE, 0xf000, 0x11, HOST_VIRTUAL(0x1fffc), HOST_PAGE(host_entry_at(31)));
    EXCEPTION_IN(&m, STORE, 0x10000, 5, GUEST_PAGE(UNREAD));
    discard(&m);
}

/* With the largest extent, an entry at 80000000 hex must not wrap to 0. */
static void test_guest_tables_do_not_wrap(void)
{
    struct machine m = paper();

    set_half_field(&m, AT_EXTENT, 32768);
    m.designation = 0x1000;
    set_field(&m, AT_PSW, PSW_DAT);
    set_field(&m, AT_CR0, CR0_FORMAT);
    set_field(&m, AT_CR1, 0x7ffff000 | 127);
    EXCEPTION_IN(&m, FETCH, 0x40000000, 5, GUEST_SEGMENT(UNREAD));
    FAULTS_IN(&m, FETCH, 0x3ff00000, 0x10, 0x7ffffffc, HOST_SEGMENT(UNREAD));
    set_field(&m, AT_CR1, 0);
    set_word(&m, 12288, 0x7fffffc0 | 15);
    EXCEPTION_IN(&m, FETCH, 0x10000, 5, GUEST_PAGE(UNREAD));
    FAULTS_IN(&m, FETCH, 0xf000, 0x10, 0x7ffffffc, HOST_SEGMENT(UNREAD));
    discard(&m);
}

static void test_guest_length_of_segment_table(void)
{
    struct machine m = dat_guest();
    uint32_t length;

    for (length = 0; length < 127; length++) {
        set_field(&m, AT_CR1, 0x20000 | length);
        EXCEPTION_IN(&m, FETCH, (length << 24) + 0xffffff, 5, GUEST_SEGMENT(UNREAD));
        EXCEPTION_IN(&m, FETCH, (length + 1) << 24, 0x10, GUEST_SEGMENT(UNREAD));
    }
    set_field(&m, AT_CR1, 0x20000 | 127);
    EXCEPTION_IN(&m, FETCH, 0x7fffffff, 5, GUEST_SEGMENT(UNREAD));
    discard(&m);
}

static void test_guest_length_of_page_table(void)
{
    struct machine m = dat_guest();
    uint32_t length;

    for (length = 0; length < 15; length++) {
        set_guest_word(&m, SEGMENT_TABLE, 0x20000 | length);
        EXCEPTION_IN(&m, FETCH, (length << 16) + 0xffff, 5, GUEST_PAGE(UNREAD));
        EXCEPTION_IN(&m, FETCH, (length + 1) << 16, 0x11, GUEST_PAGE(UNREAD));
    }
    set_guest_word(&m, SEGMENT_TABLE, 0x20000 | 15);
    EXCEPTION_IN(&m, FETCH, 0xfffff, 5, GUEST_PAGE(UNREAD));
    discard(&m);
}

/* ---- host tables ---- */

/* A host page entry that fails, behind the segment entry, behind the page entry and behind the byte. */
static void try_host_page(uint32_t entry, uint32_t code)
{
    static const uint32_t reached[] = {SEGMENT_TABLE, PAGE_TABLE, 0x5123};
    size_t i;

    for (i = 0; i < sizeof reached / sizeof *reached; i++) {
        struct machine m = dat_guest();
        struct table named = HOST_PAGE(host_entry_at(reached[i] >> 12));

        set_host_entry(&m, reached[i] >> 12, entry);
        FAULTS_IN(&m, FETCH, 0x123, code, HOST_VIRTUAL(reached[i]), named);
        FAULTS_IN(&m, STORE, 0x123, code, HOST_VIRTUAL(reached[i]), named);
        discard(&m);
    }
}

static void test_host_page_entry(void)
{
    try_host_page(0x5000 | PAGE_INVALID, 0x11);
    try_host_page(0x5000 | BIT(0), 0x12);
    try_host_page(0x5000 | BIT(20), 0x12);
    try_host_page(0x5000 | BIT(23), 0x12);
    try_host_page(0x5000 | PAGE_INVALID | BIT(0), 0x11);
    try_host_page(0x5000 | PAGE_INVALID | BIT(20), 0x11);
    try_host_page(0x5000 | PAGE_INVALID | BIT(23), 0x11);
    try_host_page(0x10000, 5);
    try_host_page(0x7ffff000, 5);
    try_host_page(0x10000 | PAGE_PROTECTED, 5);
    try_host_page(0x10000 | BIT(20), 0x12);
}

/* The second entry of a table that runs over a guest page's end is in another host page than the first. */
static void test_host_page_of_later_entries(void)
{
    struct machine m = dat_guest();

    set_host_entry(&m, 4, PAGE_INVALID);
    REACHES(&m, FETCH, 0, 0x9000);
    FAULTS_IN(&m, FETCH, 0x10fff, 0x11, HOST_VIRTUAL(PAGE_TABLE + 16 * 4), HOST_PAGE(host_entry_at(4)));
    set_field(&m, AT_CR1, SEGMENT_TABLE | 127);
    set_host_entry(&m, 2, BIT(23));
    FAULTS_IN(&m, STORE, 0x40000000, 0x12, HOST_VIRTUAL(SEGMENT_TABLE + 1024 * 4), HOST_PAGE(host_entry_at(2)));
    discard(&m);
}

/* What a host segment entry gives, 0 where it translates, for guest absolute 5123 hex. */
static void try_host_segment(uint32_t entry, uint32_t code)
{
    struct machine m = guest();
    struct table named = code == 0x10 || code == 0x12 ? HOST_SEGMENT(HOST_SEGMENT_AT) : HOST_PAGE(UNREAD);

    set_word(&m, HOST_SEGMENT_AT, entry);
    if (code) {
        FAULTS_IN(&m, FETCH, 0x5123, code, HOST_VIRTUAL(0x5123), named);
        FAULTS_IN(&m, STORE, 0x5123, code, HOST_VIRTUAL(0x5123), named);
    } else {
        REACHES(&m, FETCH, 0x5123, 0x9123);
    }
    discard(&m);
}

static void test_host_segment_entry(void)
{
    try_host_segment(0x2001, 0);
    try_host_segment(0x2001 | BIT(27), 0);
    try_host_segment(0x2000, 0x11);
    try_host_segment(0x2000 | BIT(27), 0x11);
    try_host_segment(0x2001 | SEGMENT_INVALID, 0x10);
    try_host_segment(0x2001 | BIT(0), 0x12);
    try_host_segment(0x2001 | SEGMENT_INVALID | BIT(0), 0x10);
    try_host_segment(0x2000 | BIT(0), 0x12);
    try_host_segment(0x10001, 5);
    try_host_segment(0x10000, 0x11);
    try_host_segment(0x7fffffc0 | 15, 5);
}

/* Host tables at the end of the storage and past it. */
static void test_host_tables_past_storage(void)
{
    struct machine m = guest();

    set_word(&m, 0xf004, 0xff80 | 15);
    set_word(&m, 0xff80 + 16 * 4, 0x6000);
    set_word(&m, 0xfffc, 0xf000);
    m.designation = 0xf000;
    REACHES(&m, FETCH, 0x7, 0x6007);
    REACHES(&m, FETCH, 0xf008, 0xf008);
    FAULTS_IN(&m, FETCH, 0x10009, 5, HOST_VIRTUAL(0x10009), HOST_PAGE(UNREAD));
    m.designation = 0x10000;
    FAULTS_IN(&m, FETCH, 0x7, 5, HOST_VIRTUAL(0x7), HOST_SEGMENT(UNREAD));
    m.designation = 0x7ffff000;
    FAULTS_IN(&m, STORE, 0x7, 5, HOST_VIRTUAL(0x7), HOST_SEGMENT(UNREAD));
    discard(&m);
}

/* Origin 32,767: host segment 2,047, whose entry is in the second page of the table. */
static void test_last_host_segment(void)
{
    struct machine m = machine_of(8);

    set_half_field(&m, AT_ORIGIN, 32767);
    m.designation = 0x1000 | 127;
    set_word(&m, 0x1000 + 2047 * 4, 0x300f);
    set_word(&m, 0x3000 + 240 * 4, 0x4000);
    set_word(&m, 0x3000 + 255 * 4, 0x5000);
    REACHES(&m, FETCH, 0x10, 0x4010);
    REACHES(&m, STORE, 0xffff, 0x5fff);
    EXCEPTION(&m, FETCH, 0x10000, 5);
    m.designation = 0x1000 | 126;
    FAULTS_IN(&m, FETCH, 0x10, 0x10, 0x7fff0010, HOST_SEGMENT(UNREAD));
    /* a table that would wrap at 2^31 */
    set_word(&m, 0xffc, 0x300f);
    m.designation = 0x7ffff000 | 127;
    FAULTS_IN(&m, FETCH, 0x10, 5, 0x7fff0010, HOST_SEGMENT(UNREAD));
    /* length before storage */
    m.designation = 0x7ffff000 | 126;
    FAULTS_IN(&m, FETCH, 0x10, 0x10, 0x7fff0010, HOST_SEGMENT(UNREAD));
    discard(&m);
}

/* A host page table that would wrap at 2^31. */
static void test_host_page_table_does_not_wrap(void)
{
    struct machine m = machine_of(8);

    set_half_field(&m, AT_EXTENT, 2);
    set_word(&m, 0x1000, 0x7fffffc0 | 15);
    FAULTS_IN(&m, FETCH, 0x10000, 5, 0x10000, HOST_PAGE(UNREAD));
    discard(&m);
}

static void test_storage_sizes(void)
{
    struct machine m = one_frame();

    REACHES(&m, FETCH, 0xfff, 0xfff);
    FAULTS_IN(&m, FETCH, 0x1abc, 5, 0x1abc, HOST_PAGE(0x44));
    discard(&m);
    /* the most frames */
    m = machine_of(4096);
    m.designation = 0xffe000;
    set_word(&m, 0xffe000, 0xffffc0);
    set_word(&m, 0xffffc0, 0xfff000);
    set_word(&m, 0xffffc4, 0x1000000);
    set_word(&m, 0xfffffc, 0x800000);
    m.keys.at[4095] = 0x38;
    set_field(&m, AT_PSW, PSW_KEY(3));
    REACHES(&m, STORE, 0xfff, 0xffffff);
    FAULTS_IN(&m, STORE, 0x1abc, 5, 0x1abc, HOST_PAGE(0xffffc4));
    set_field(&m, AT_PSW, PSW_KEY(4));
    EXCEPTION(&m, STORE, 0xfff, 4);
    REACHES(&m, FETCH, 0xf00d, 0x80000d);
    set_word(&m, 0xfffffc, PAGE_INVALID);
    FAULTS_IN(&m, STORE, 0xf00d, 0x11, 0xf00d, HOST_PAGE(0xfffffc));
    discard(&m);
}

/* ---- protection ---- */

static void test_keys(void)
{
    struct machine m = one_frame();
    unsigned access_key, key;

    for (access_key = 0; access_key < 16; access_key++) {
        set_field(&m, AT_PSW, PSW_KEY(access_key));
        for (key = 0; key < 256; key++) {
            int differs = access_key != 0 && access_key != key >> 4;

            m.keys.at[0] = (uint8_t)key;
            if (differs)
                EXCEPTION(&m, STORE, 0, 4);
            else
                REACHES(&m, STORE, 0, 0);
            if (differs && (key & 8))
                EXCEPTION(&m, FETCH, 0xfff, 4);
            else
                REACHES(&m, FETCH, 0xfff, 0xfff);
        }
    }
    discard(&m);
}

/* Keys do not guard table reads, and the key is the one of the byte's frame. */
static void test_keys_of_other_frames(void)
{
    struct machine m = dat_guest();

    memset(m.keys.at, 0x38, m.keys.len);
    m.keys.at[9] = 0x48;
    set_field(&m, AT_PSW, PSW_DAT | PSW_KEY(4));
    REACHES(&m, FETCH, 0, 0x9000);
    REACHES(&m, STORE, 0, 0x9000);
    EXCEPTION(&m, FETCH, 0x1000, 4);
    EXCEPTION(&m, STORE, 0x1000, 4);
    /* fetch-protection override is not applied */
    set_field(&m, AT_CR0, CR0_FORMAT | CR0_FETCH_OVERRIDE);
    m.keys.at[9] = 0x38;
    EXCEPTION(&m, FETCH, 0, 4);
    discard(&m);
}

static void test_page_protection(void)
{
    struct machine m = dat_guest();

    set_guest_word(&m, PAGE_TABLE, 0x5000 | PAGE_PROTECTED);
    REACHES(&m, FETCH, 0, 0x9000);
    EXCEPTION(&m, STORE, 0, 4);
    REACHES(&m, STORE, 0x1000, 0xa000);
    /* a page that the host lacks is the host fault */
    set_host_entry(&m, 5, PAGE_INVALID);
    FAULTS_IN(&m, STORE, 0, 0x11, HOST_VIRTUAL(0x5000), HOST_PAGE(host_entry_at(5)));
    /* a page that the host protects is the guest's exception */
    set_host_entry(&m, 5, 0x9000 | PAGE_PROTECTED);
    EXCEPTION(&m, STORE, 0, 4);
    REACHES(&m, FETCH, 0, 0x9000);
    discard(&m);
}

static void test_host_protection(void)
{
    struct machine m = dat_guest();

    set_host_entry(&m, 5, 0x9000 | PAGE_PROTECTED);
    REACHES(&m, FETCH, 0x123, 0x9123);
    FAULTS(&m, STORE, 0x123, 4, HOST_VIRTUAL(0x5123));
    /* the key comes first */
    m.keys.at[9] = 0x30;
    set_field(&m, AT_PSW, PSW_DAT | PSW_KEY(4));
    EXCEPTION(&m, STORE, 0x123, 4);
    set_field(&m, AT_PSW, PSW_DAT | PSW_KEY(3));
    FAULTS(&m, STORE, 0x123, 4, HOST_VIRTUAL(0x5123));
    /* tables may be in pages that the host protects */
    set_host_entry(&m, 5, 0x9000);
    set_host_entry(&m, 1, 0x5000 | PAGE_PROTECTED);
    set_host_entry(&m, 3, 0x7000 | PAGE_PROTECTED);
    REACHES(&m, STORE, 0x123, 0x9123);
    /* DAT off */
    set_field(&m, AT_PSW, 0);
    FAULTS(&m, STORE, 0x1fff, 4, HOST_VIRTUAL(0x1fff));
    set_field(&m, AT_PSW, PSW_KEY(5));
    EXCEPTION(&m, STORE, 0x1fff, 4);
    discard(&m);
}

/* The host's failures come before the key. */
static void test_host_fault_before_key(void)
{
    struct machine m = guest();

    memset(m.keys.at, 0x38, m.keys.len);
    set_field(&m, AT_PSW, PSW_KEY(4));
    EXCEPTION(&m, FETCH, 0x5000, 4);
    set_host_entry(&m, 5, 0x9000 | PAGE_INVALID);
    FAULTS_IN(&m, FETCH, 0x5000, 0x11, HOST_VIRTUAL(0x5000), HOST_PAGE(host_entry_at(5)));
    set_host_entry(&m, 5, 0x10000);
    FAULTS_IN(&m, STORE, 0x5000, 5, HOST_VIRTUAL(0x5000), HOST_PAGE(host_entry_at(5)));
    discard(&m);
}

/* ---- prefixing ---- */

static void test_prefix(void)
{
    struct machine m = guest();

    set_field(&m, AT_PREFIX, 0x80002fffu);
    REACHES(&m, FETCH, 0x5, 0x6005);
    REACHES(&m, STORE, 0xfff, 0x6fff);
    REACHES(&m, FETCH, 0x1000, 0x5000);
    REACHES(&m, FETCH, 0x2fff, 0x4fff);
    REACHES(&m, FETCH, 0x3000, 0x7000);
    /* a host fault has the address after prefixing */
    set_host_entry(&m, 2, PAGE_INVALID);
    FAULTS_IN(&m, FETCH, 0x5, 0x11, HOST_VIRTUAL(0x2005), HOST_PAGE(host_entry_at(2)));
    REACHES(&m, FETCH, 0x2005, 0x4005);
    set_host_entry(&m, 0, 0x4000 | PAGE_PROTECTED);
    FAULTS(&m, STORE, 0x2006, 4, HOST_VIRTUAL(0x6));
    /* so has the key the frame after prefixing */
    m.keys.at[4] = 0x38;
    m.keys.at[6] = 0x48;
    set_field(&m, AT_PSW, PSW_KEY(4));
    EXCEPTION(&m, FETCH, 0x2000, 4);
    discard(&m);
}

/* The segment table is in the prefix block: its entries are at absolute 0. */
static void test_prefix_of_segment_table(void)
{
    struct machine m = dat_guest();

    set_field(&m, AT_PREFIX, SEGMENT_TABLE);
    set_guest_word(&m, 0, OTHER_PAGE_TABLE);
    REACHES(&m, FETCH, 0x1, 0xa001);
    /* its second page, index 1,024 on, is not */
    set_guest_word(&m, 0x2000, PAGE_TABLE);
    set_field(&m, AT_CR1, SEGMENT_TABLE | 64);
    REACHES(&m, FETCH, 0x40000001, 0x9001);
    /* a table at real 0 is in the prefix block */
    set_field(&m, AT_CR1, 0);
    REACHES(&m, FETCH, 0x1, 0x9001);
    set_host_entry(&m, 1, PAGE_INVALID);
    FAULTS_IN(&m, FETCH, 0x100001, 0x11, HOST_VIRTUAL(SEGMENT_TABLE + 4), HOST_PAGE(host_entry_at(1)));
    discard(&m);
}

/* A table whose second page is the prefix block. */
static void test_prefix_of_later_entries(void)
{
    struct machine m = dat_guest();

    set_field(&m, AT_PREFIX, 0x2000);
    set_field(&m, AT_CR1, SEGMENT_TABLE | 64);
    set_guest_word(&m, 0, PAGE_TABLE);
    REACHES(&m, FETCH, 0x1, 0x9001);
    REACHES(&m, FETCH, 0x40000001, 0x9001);
    set_field(&m, AT_PREFIX, 0x4000);
    set_guest_word(&m, 0, 0x6000);
    REACHES(&m, FETCH, 0x1, 0x9001);
    REACHES(&m, FETCH, 0x10001, 0xa001);
    set_host_entry(&m, 0, BIT(20));
    FAULTS_IN(&m, FETCH, 0x10001, 0x12, HOST_VIRTUAL(0), HOST_PAGE(host_entry_at(0)));
    discard(&m);
}

static void test_prefix_of_page_table_and_byte(void)
{
    struct machine m = dat_guest();

    set_field(&m, AT_PREFIX, 0x3000);
    set_guest_word(&m, 0xfc0, 0x6000);
    set_guest_word(&m, 0xfc4, 0);
    set_guest_word(&m, 0xfc8, 0x3000);
    REACHES(&m, FETCH, 0x1, 0xa001);
    REACHES(&m, FETCH, 0x1001, 0x7001);
    REACHES(&m, STORE, 0x2001, 0x4001);
    REACHES(&m, FETCH, 0x10001, 0xb001);
    set_host_entry(&m, 3, PAGE_INVALID);
    FAULTS_IN(&m, FETCH, 0x1001, 0x11, HOST_VIRTUAL(0x3001), HOST_PAGE(host_entry_at(3)));
    set_host_entry(&m, 0, 0x10000);
    FAULTS_IN(&m, FETCH, 0x1001, 5, HOST_VIRTUAL(0xfc4), HOST_PAGE(host_entry_at(0)));
    discard(&m);
}

/* ---- which table was bad ---- */

/* The host cannot give the byte, or one of the guest's two entries for it. A page that it protects can be read. */
static void try_way(const struct way *w)
{
    struct machine m = spot_guest(w);

    FAULTS_IN(&m, STORE, SPOT | 0x123, w->code, SPOT_VIRTUAL | 0x123, w->named);
    if (w->code == 4)
        REACHES(&m, FETCH, SPOT | 0x123, SPOT_FRAME | 0x123);
    else
        FAULTS_IN(&m, FETCH, SPOT | 0x123, w->code, SPOT_VIRTUAL | 0x123, w->named);
    if (w->before)
        FAULTS_IN(&m, FETCH, SPOT - 1, w->code, SPOT_VIRTUAL - 1, w->named);
    else
        REACHES(&m, FETCH, SPOT - 1, BEFORE_FRAME | 0xfff);
    REACHES(&m, STORE, 0x123, OTHER_FRAME | 0x123);
    /* the byte, by tables in page 0 */
    set_field(&m, AT_PSW, PSW_DAT);
    set_field(&m, AT_CR0, CR0_FORMAT);
    set_word(&m, OTHER_FRAME, 0x800);
    set_word(&m, OTHER_FRAME + 0x800 + 5 * 4, SPOT);
    FAULTS_IN(&m, STORE, 0x5678, w->code, SPOT_VIRTUAL | 0x678, w->named);
    if (w->code != 4) {
        set_word(&m, OTHER_FRAME + 4, SPOT | 0x40);
        FAULTS_IN(&m, FETCH, 0x103678, w->code, SPOT_VIRTUAL + 0x40 + 3 * 4, w->named);
        set_field(&m, AT_CR1, SPOT);
        FAULTS_IN(&m, STORE, 0x903678, w->code, SPOT_VIRTUAL + 9 * 4, w->named);
    }
    discard(&m);
}

static void test_ways(void)
{
    size_t i;

    for (i = 0; i < WAYS; i++)
        try_way(&ways[i]);
}

/* The entry that failed, by its index: behind it and before it are others. */
static void test_entries_by_index(void)
{
    struct machine m = dat_guest();

    set_field(&m, AT_CR1, SEGMENT_TABLE | 127);
    set_guest_word(&m, SEGMENT_TABLE + 7 * 4, SEGMENT_INVALID);
    set_guest_word(&m, SEGMENT_TABLE + 2047 * 4, BIT(0));
    set_guest_word(&m, PAGE_TABLE + 9 * 4, PAGE_INVALID);
    set_guest_word(&m, PAGE_TABLE + 255 * 4, BIT(23));
    EXCEPTION_IN(&m, FETCH, 0x00700000, 0x10, GUEST_SEGMENT(SEGMENT_TABLE + 7 * 4));
    EXCEPTION_IN(&m, STORE, 0x007fffff, 0x10, GUEST_SEGMENT(SEGMENT_TABLE + 7 * 4));
    EXCEPTION_IN(&m, FETCH, 0x7fffffff, 0x12, GUEST_SEGMENT(SEGMENT_TABLE + 2047 * 4));
    EXCEPTION_IN(&m, FETCH, 0x00009000, 0x11, GUEST_PAGE(PAGE_TABLE + 9 * 4));
    EXCEPTION_IN(&m, STORE, 0x00009fff, 0x11, GUEST_PAGE(PAGE_TABLE + 9 * 4));
    EXCEPTION_IN(&m, FETCH, 0x000fffff, 0x12, GUEST_PAGE(PAGE_TABLE + 255 * 4));
    /* what the rules do not look at in CR1 and in the segment entry is no part of it */
    set_field(&m, AT_CR1, SEGMENT_TABLE | 0x80000f80u);
    set_guest_word(&m, SEGMENT_TABLE, PAGE_TABLE | BIT(27) | 15);
    EXCEPTION_IN(&m, FETCH, 0x00700000, 0x10, GUEST_SEGMENT(SEGMENT_TABLE + 7 * 4));
    EXCEPTION_IN(&m, FETCH, 0x00009000, 0x11, GUEST_PAGE(PAGE_TABLE + 9 * 4));
    /* nor in the host's designation and segment entry */
    m.designation |= 0x80000f80u;
    set_word(&m, HOST_SEGMENT_AT, 0x2002 | BIT(27));
    set_host_entry(&m, 5, PAGE_INVALID);
    FAULTS_IN(&m, FETCH, 0, 0x11, HOST_VIRTUAL(0x5000), HOST_PAGE(host_entry_at(5)));
    set_word(&m, HOST_SEGMENT_AT, SEGMENT_INVALID);
    FAULTS_IN(&m, FETCH, 0, 0x10, HOST_VIRTUAL(SEGMENT_TABLE), HOST_SEGMENT(HOST_SEGMENT_AT));
    discard(&m);
}

/* An entry that was read and stands at zero. */
static void test_entries_at_zero(void)
{
    struct machine m = one_frame();

    /* the host's segment entry, and its page entry */
    set_word(&m, 0, SEGMENT_INVALID);
    FAULTS_IN(&m, FETCH, 0x123, 0x10, 0x123, HOST_SEGMENT(0));
    set_word(&m, 0, BIT(0));
    FAULTS_IN(&m, FETCH, 0x123, 0x12, 0x123, HOST_SEGMENT(0));
    resize(&m.storage, 2 * 4096);
    resize(&m.keys, 2);
    m.designation = 0x1000;
    set_word(&m, 0, PAGE_INVALID);
    FAULTS_IN(&m, FETCH, 0x123, 0x11, 0x123, HOST_PAGE(0));
    set_word(&m, 0, BIT(23));
    FAULTS_IN(&m, FETCH, 0x123, 0x12, 0x123, HOST_PAGE(0));
    set_word(&m, 0, 2 * 4096);
    FAULTS_IN(&m, FETCH, 0x123, 5, 0x123, HOST_PAGE(0));
    set_word(&m, 0, 0x1000 | PAGE_PROTECTED);
    FAULTS(&m, STORE, 0x123, 4, 0x123);
    discard(&m);
    /* the guest's */
    m = dat_guest();
    set_field(&m, AT_CR1, 0);
    set_guest_word(&m, 0, SEGMENT_INVALID);
    EXCEPTION_IN(&m, FETCH, 0x123, 0x10, GUEST_SEGMENT(0));
    set_guest_word(&m, 0, BIT(0));
    EXCEPTION_IN(&m, FETCH, 0x123, 0x12, GUEST_SEGMENT(0));
    set_field(&m, AT_CR1, SEGMENT_TABLE);
    set_guest_word(&m, SEGMENT_TABLE, 0);
    set_guest_word(&m, 0, PAGE_INVALID);
    EXCEPTION_IN(&m, STORE, 0x123, 0x11, GUEST_PAGE(0));
    set_guest_word(&m, 0, BIT(0));
    EXCEPTION_IN(&m, STORE, 0x123, 0x12, GUEST_PAGE(0));
    discard(&m);
}

/* The last entry that a guest can have, at real 7FFFFFFC hex, and the host's for it at the end of the storage. */
static void test_last_entries(void)
{
    struct machine m = machine_of(8);

    set_half_field(&m, AT_EXTENT, 32768);
    m.designation = 0x1000 | 127;
    set_word(&m, 0x1000, 0x3000);
    set_word(&m, 0x1000 + 2047 * 4, 0x7c00 | 15);
    set_word(&m, 0x3000, 0x4000);
    set_word(&m, 0x7ffc, 0x5000);
    set_field(&m, AT_PSW, PSW_DAT);
    set_field(&m, AT_CR0, CR0_FORMAT);
    set_field(&m, AT_CR1, 0x7ffff000 | 127);
    set_word(&m, 0x5ffc, SEGMENT_INVALID);
    EXCEPTION_IN(&m, FETCH, 0x3ff00000, 0x10, GUEST_SEGMENT(0x7ffffffc));
    EXCEPTION_IN(&m, FETCH, 0x40000000, 5, GUEST_SEGMENT(UNREAD));
    set_field(&m, AT_CR1, 0);
    set_word(&m, 0x4000, 0x7fffffc0 | 15);
    set_word(&m, 0x5ffc, BIT(20));
    EXCEPTION_IN(&m, FETCH, 0x0000ffff, 0x12, GUEST_PAGE(0x7ffffffc));
    EXCEPTION_IN(&m, FETCH, 0x00010000, 5, GUEST_PAGE(UNREAD));
    set_word(&m, 0x7ffc, PAGE_INVALID);
    FAULTS_IN(&m, FETCH, 0x0000ffff, 0x11, 0x7ffffffc, HOST_PAGE(0x7ffc));
    set_word(&m, 0x1000 + 2047 * 4, 0x7c40 | 15);
    FAULTS_IN(&m, FETCH, 0x0000ffff, 5, 0x7ffffffc, HOST_PAGE(UNREAD));
    set_word(&m, 0x1000 + 2047 * 4, SEGMENT_INVALID);
    FAULTS_IN(&m, FETCH, 0x0000ffff, 0x10, 0x7ffffffc, HOST_SEGMENT(0x2ffc));
    discard(&m);
}

/* What a guest entry in block 0 or in the prefix block gives is named by its real address; what the host lacks there, by the
   host's entry for the absolute one. */
static void test_entries_before_prefixing(void)
{
    struct machine m = dat_guest();

    set_field(&m, AT_PREFIX, 0x2000);
    /* real 4 is absolute 2004 hex, real 2004 hex is absolute 4 */
    set_field(&m, AT_CR1, 0);
    set_guest_word(&m, 0x2004, SEGMENT_INVALID);
    EXCEPTION_IN(&m, FETCH, 0x100000, 0x10, GUEST_SEGMENT(4));
    set_field(&m, AT_CR1, 0x2000);
    set_guest_word(&m, 4, BIT(0));
    EXCEPTION_IN(&m, FETCH, 0x100000, 0x12, GUEST_SEGMENT(0x2004));
    set_host_entry(&m, 0, PAGE_INVALID);
    FAULTS_IN(&m, FETCH, 0x100000, 0x11, HOST_VIRTUAL(4), HOST_PAGE(host_entry_at(0)));
    set_host_entry(&m, 0, 0x4000);
    /* the same with page entries */
    set_field(&m, AT_CR1, SEGMENT_TABLE);
    set_guest_word(&m, SEGMENT_TABLE, 0x100);
    set_guest_word(&m, 0x2108, PAGE_INVALID);
    EXCEPTION_IN(&m, STORE, 0x2000, 0x11, GUEST_PAGE(0x108));
    set_guest_word(&m, SEGMENT_TABLE, 0x2100);
    set_guest_word(&m, 0x108, BIT(20));
    EXCEPTION_IN(&m, STORE, 0x2000, 0x12, GUEST_PAGE(0x2108));
    set_host_entry(&m, 0, BIT(20));
    FAULTS_IN(&m, STORE, 0x2000, 0x12, HOST_VIRTUAL(0x108), HOST_PAGE(host_entry_at(0)));
    discard(&m);
}

/* The guest's tables and those of the host fail at once: the host's come first wherever the guest's entry has to be read. */
static void test_both_tables_bad(void)
{
    struct machine m = dat_guest();

    set_guest_word(&m, SEGMENT_TABLE, SEGMENT_INVALID);
    EXCEPTION_IN(&m, FETCH, 0, 0x10, GUEST_SEGMENT(SEGMENT_TABLE));
    set_host_entry(&m, 1, PAGE_INVALID);
    FAULTS_IN(&m, FETCH, 0, 0x11, HOST_VIRTUAL(SEGMENT_TABLE), HOST_PAGE(host_entry_at(1)));
    EXCEPTION_IN(&m, FETCH, 0x01000000, 0x10, GUEST_SEGMENT(UNREAD));
    set_field(&m, AT_CR1, 0x20000);
    EXCEPTION_IN(&m, FETCH, 0, 5, GUEST_SEGMENT(UNREAD));
    set_field(&m, AT_CR0, 0);
    EXCEPTION(&m, FETCH, 0, 0x12);
    discard(&m);
    m = dat_guest();
    set_guest_word(&m, SEGMENT_TABLE, PAGE_TABLE);
    set_guest_word(&m, PAGE_TABLE, BIT(20));
    EXCEPTION_IN(&m, FETCH, 0, 0x12, GUEST_PAGE(PAGE_TABLE));
    set_host_entry(&m, 3, PAGE_INVALID);
    FAULTS_IN(&m, FETCH, 0, 0x11, HOST_VIRTUAL(PAGE_TABLE), HOST_PAGE(host_entry_at(3)));
    EXCEPTION_IN(&m, FETCH, 0x10000, 0x11, GUEST_PAGE(UNREAD));
    discard(&m);
}

/* ---- what has no effect ---- */

static void fill(uint8_t *bytes, size_t first, size_t last)
{
    memset(bytes + first, 0xff, last - first + 1);
}

/* All bits that the rules do not name, in the record and in the tables. */
static void ignore_all(struct machine *m)
{
    uint8_t *record = m->record.at;

    fill(record, 3, 3);
    record[AT_MODE] |= 0xf1;
    fill(record, 5, 7);
    set_field(m, AT_PREFIX, get32(record + AT_PREFIX) | 0x80000fffu);
    set_field(m, AT_PSW, get32(record + AT_PSW) | ~(PSW_DAT | PSW_KEY(15)));
    set_field(m, AT_PSW + 4, get32(record + AT_PSW + 4) | 0x7fffffff);
    fill(record, 24, 65);
    set_field(m, AT_CR0, get32(record + AT_CR0) | ~(CR0_FORMAT_BITS | CR0_LOW_PROTECTION));
    set_field(m, AT_CR1, get32(record + AT_CR1) | 0x80000f80u);
    fill(record, 80, 199);
    m->designation |= 0x80000f80u;
    set_word(m, HOST_SEGMENT_AT, get32(m->storage.at + HOST_SEGMENT_AT) | BIT(27));
    set_host_entry(m, 5, 0x9000 | 0xff);
    memset(m->keys.at, 0x07, m->keys.len);
}

static void test_ignored(void)
{
    struct machine m = dat_guest();

    ignore_all(&m);
    set_guest_word(&m, SEGMENT_TABLE, PAGE_TABLE | BIT(27) | 15);
    set_guest_word(&m, PAGE_TABLE, 0x5000 | 0xff);
    CHECKS_GOOD(&m);
    REACHES(&m, FETCH, 0x1ff, 0x91ff);
    REACHES(&m, STORE, 0x1ff, 0x91ff);
    EXCEPTION_IN(&m, FETCH, 0x01000000, 0x10, GUEST_SEGMENT(UNREAD));
    discard(&m);
    m = guest();
    ignore_all(&m);
    REACHES(&m, STORE, 0x5000, 0x9000);
    REACHES(&m, FETCH, 0x80005000u, 0x9000);
    m.record.at[AT_ADDRESSING_MODE] = 0x7f;
    REACHES(&m, STORE, 0xff005000u, 0x9000);
    discard(&m);
}

static void (*const tests[])(void) = {
    test_header,
    test_paper_fetches,
    test_paper_prefix,
    test_paper_guest_length,
    test_refusals_in_order,
    test_refused_record_sizes,
    test_refused_length_fields,
    test_refused_versions,
    test_refused_storages,
    test_refused_keys,
    test_refused_reserved_bytes,
    test_refused_accesses,
    test_entry_mode,
    test_entry_extent,
    test_entry_prefix,
    test_guest_pages,
    test_extent_before_origin,
    test_dat,
    test_wrap,
    test_wrap_with_dat,
    test_low_address_protection,
    test_low_address_is_logical,
    test_control_format,
    test_guest_segment_entry,
    test_guest_page_entry,
    test_guest_tables_past_extent,
    test_guest_tables_do_not_wrap,
    test_guest_length_of_segment_table,
    test_guest_length_of_page_table,
    test_host_page_entry,
    test_host_page_of_later_entries,
    test_host_segment_entry,
    test_host_tables_past_storage,
    test_last_host_segment,
    test_host_page_table_does_not_wrap,
    test_storage_sizes,
    test_keys,
    test_keys_of_other_frames,
    test_page_protection,
    test_host_protection,
    test_host_fault_before_key,
    test_prefix,
    test_prefix_of_segment_table,
    test_prefix_of_later_entries,
    test_prefix_of_page_table_and_byte,
    test_ways,
    test_entries_by_index,
    test_entries_at_zero,
    test_last_entries,
    test_entries_before_prefixing,
    test_both_tables_bad,
    test_ignored,
};

int main(void)
{
    size_t i;

    for (i = 0; i < sizeof tests / sizeof *tests; i++)
        tests[i]();
    return expect_end();
}
