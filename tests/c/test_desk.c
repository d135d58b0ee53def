/* Tests of the page desk against document 01 and request 3/12. Refusals are written as their numbers. Where one is for every
   operation, that of request 4/12 is tried here too; test_unbacked.c has its other tests. */
#include "desk_guests.h"

/* ---- the header ---- */

static void test_header(void)
{
    EXPECT(DREVOKAS_REFUSAL_PAGE == 10 && DREVOKAS_REFUSAL_VALID == 11 && DREVOKAS_REFUSAL_INVALID == 12);
    EXPECT(DREVOKAS_REFUSAL_FRAME == 13 && DREVOKAS_REFUSAL_ENTRY == 14 && DREVOKAS_REFUSAL_WORDS == 15);
    EXPECT(DREVOKAS_NO_FRAME == 0xffffffffu);
    EXPECT(DREVOKAS_BLOCK_PAGES == 16 && DREVOKAS_MOST_PAGES == 524288);
    EXPECT(drevokas_valid_pages(0x05000000fedcba98u) == 0xfedcba98u);
    EXPECT(drevokas_valid_pages(0xffffffff00000000u) == 0);
}

/* ---- changes of the guest with origin 15 and extent 2 ---- */

/* Every change is refused: of a page that is not valid, with a free frame, and of one that is. */
static void refuses(struct machine *m, uint32_t bare, uint32_t backed, uint32_t number)
{
    CHANGE_REFUSED(m, ADD, bare, 12, number);
    CHANGE_REFUSED(m, REMOVE, backed, 0, number);
    CHANGE_REFUSED(m, PROTECT, backed, 0, number);
}

/* Every change is done; then the entries are as they were. */
static void allows_at(struct machine *m, uint32_t bare, uint32_t bare_at, uint32_t backed, uint32_t backed_at)
{
    uint32_t bare_entry = get32(m->storage.at + bare_at), backed_entry = get32(m->storage.at + backed_at);

    DONE(m, ADD, bare, 12, bare_at);
    set_word(m, bare_at, bare_entry);
    DONE(m, PROTECT, backed, 0, backed_at);
    DONE(m, REMOVE, backed, 0, backed_at);
    set_word(m, backed_at, backed_entry);
}

static void allows(struct machine *m, uint32_t bare, uint32_t backed)
{
    allows_at(m, bare, entry_at(bare), backed, entry_at(backed));
}

static void test_every_page(void)
{
    struct machine m = guest();
    uint32_t page, words[PAGES];

    for (page = 0; page < PAGES; page++)
        words[page] = page % 2 ? NO_PAGE : frame_of(page);
    LISTS(&m, words, PAGES, 16, PAGES);
    for (page = 0; page < PAGES; page += 2) {
        allows(&m, page + 1, page);
        CHANGE_REFUSED(&m, ADD, page, 12, 11);
        CHANGE_REFUSED(&m, REMOVE, page + 1, 0, 12);
        CHANGE_REFUSED(&m, PROTECT, page + 1, 0, 12);
    }
    LISTS(&m, words, PAGES, 16, PAGES);
    discard(&m);
}

/* What is done stays, page after page. */
static void test_one_after_the_other(void)
{
    struct machine m = guest();
    uint32_t page, words[PAGES];

    for (page = 0; page < PAGES; page++) {
        if (page % 2) {
            DONE(&m, ADD, page, 15 - page % 4, entry_at(page));
            DONE(&m, PROTECT, page, 0, entry_at(page));
        } else {
            DONE(&m, REMOVE, page, 0, entry_at(page));
        }
        words[page] = page % 2 ? 15 - page % 4 : NO_PAGE;
    }
    LISTS(&m, words, PAGES, 16, PAGES);
    for (page = 0; page < PAGES; page += 2) {
        DONE(&m, ADD, page, frame_of(page), entry_at(page));
        words[page] = frame_of(page);
    }
    LISTS(&m, words, PAGES, 32, PAGES);
    discard(&m);
}

/* ---- refusals 1 to 4 and 7, entry, and 10 to 15 ---- */

/* Defects of a call, each with its number, in the order of the tests; those of a page that is asked for, then those of 14. */
enum { NO_SUCH_PAGE = 6, WRONG_STATE, NO_SUCH_FRAME, IN_GUEST_FRAME, SECOND_PAGE, IS_SEGMENT, DEFECTS };

static uint32_t number_of(enum change change, int defect)
{
    static const uint32_t numbers[DEFECTS] = {1, 2, 3, 4, 7, 32, 10, 0, 13, 14, 14, 14};

    if (defect == WRONG_STATE)
        return change == ADD ? 11 : 12;
    return defect == NO_SUCH_FRAME && change != ADD ? 0 : numbers[defect];
}

/* Page 1 is valid or not. Its entry is also segment 1's, an invalid one; or page 17's; and page 5 may be in the frame of the
   segment table. */
static void apply_tables(struct machine *m, unsigned defects, int valid)
{
    uint32_t entry = valid ? 0xd000 : 0xd000 | PAGE_INVALID;

    if (defects >> SECOND_PAGE & 1)
        set_word(m, SEGMENT_1_AT, PART_0(TABLE_0));
    if (defects >> IN_GUEST_FRAME & 1)
        set_word(m, entry_at(5), 0x1000);
    if (defects >> IS_SEGMENT & 1) {
        set_word(m, SEGMENT_0_AT, 0xc40 | 15);
        set_word(m, SEGMENT_1_AT, entry | SEGMENT_INVALID);
        if (defects >> IN_GUEST_FRAME & 1)
            set_word(m, 0x1014, 0x1000);
    } else {
        set_word(m, entry_at(1), entry);
    }
}

static uint32_t first_number(enum change change, unsigned defects)
{
    int i;

    for (i = 0; i < DEFECTS; i++)
        if ((defects >> i & 1) && number_of(change, i) != 0)
            return number_of(change, i);
    return 0;
}

static void try_defects(enum change change, unsigned defects)
{
    struct machine m = guest();
    uint32_t number = first_number(change, defects), page = defects >> NO_SUCH_PAGE & 1 ? PAGES : 1;
    uint32_t frame = defects >> NO_SUCH_FRAME & 1 ? FRAMES : 12;

    apply_tables(&m, defects, (change != ADD) ^ (defects >> WRONG_STATE & 1));
    apply_head(&m, defects);
    if (number == 0)
        DONE(&m, change, page, frame, entry_at(1));
    else if (number == 32)
        CHANGE_INVALID(&m, change, page, frame);
    else
        CHANGE_REFUSED(&m, change, page, frame, number);
    discard(&m);
}

/* Each defect by itself, and each two of them. */
static void test_refusals_in_order(void)
{
    int i, j, change;

    for (change = 0; change < CHANGES; change++) {
        try_defects((enum change)change, 0);
        try_defects((enum change)change, (1u << DEFECTS) - 1);
        for (i = 0; i < DEFECTS; i++)
            for (j = 0; j <= i; j++)
                try_defects((enum change)change, 1u << i | 1u << j);
    }
}

/* The list is refused in the same order; its workspace is the last that is looked at. */
static void test_list_refusals_in_order(void)
{
    unsigned defects;

    for (defects = 0; defects < 128; defects++) {
        struct machine m = guest();
        size_t count = defects & 64 ? PAGES - 1 : PAGES + 1;
        uint32_t number = first_number(ADD, defects & 63), words[PAGES], page;

        for (page = 0; page < PAGES; page++)
            words[page] = page % 2 ? NO_PAGE : frame_of(page);
        apply_head(&m, defects);
        if (number == 32)
            LIST_INVALID(&m, count);
        else if (number != 0)
            LIST_REFUSED(&m, count, number);
        else if (defects & 64)
            LIST_REFUSED(&m, count, 15);
        else
            LISTS(&m, words, PAGES, 16, count);
        discard(&m);
    }
}

static void refused_head(struct machine *m, uint32_t number)
{
    refuses(m, BARE, BACKED, number);
    LIST_REFUSED(m, PAGES, number);
    FIRST_REFUSED(m, 0, PAGES, number);
}

static void test_refused_heads(void)
{
    static const size_t records[] = {0, 1, 199, 201, 207, 208, 209}, storages[] = {0, 1, 4095, 16 * 4096 - 1, 16 * 4096 + 2048};
    static const size_t keys[] = {0, 1, 15, 17, 4096};
    struct machine m;
    size_t i;

    for (i = 0; i < sizeof records / sizeof *records; i++) {
        m = guest();
        resize(&m.record, records[i]);
        refused_head(&m, 1);
        discard(&m);
    }
    for (i = 0; i < sizeof storages / sizeof *storages; i++) {
        m = guest();
        resize(&m.storage, storages[i]);
        refused_head(&m, 3);
        discard(&m);
    }
    for (i = 0; i < sizeof keys / sizeof *keys; i++) {
        m = guest();
        resize(&m.keys, keys[i]);
        refused_head(&m, 4);
        discard(&m);
    }
    m = guest();
    resize(&m.storage, (size_t)4097 * 4096);
    resize(&m.keys, 4097);
    refused_head(&m, 3);
    discard(&m);
}

static void test_refused_bytes(void)
{
    struct machine m = guest();
    int byte;

    for (byte = AT_RESERVED; byte < AT_RESERVED + RESERVED_BYTES; byte++) {
        m.record.at[byte] = 0x10;
        refused_head(&m, 7);
        m.record.at[byte] = 0;
    }
    m.record.at[AT_VERSION] = 2;
    refused_head(&m, 2);
    lengthen(&m);
    allows(&m, BARE, BACKED);
    m.record.at[AT_VERSION] = 1;
    refused_head(&m, 2);
    lengthen(&m);
    for (byte = AT_INTERVAL + 1; byte < AT_RESIDUE; byte++) {
        m.record.at[byte] = 1;
        refused_head(&m, 7);
        m.record.at[byte] = 0;
    }
    put32(m.record.at + AT_RESIDUE, INTERVAL_PERIOD);
    refused_head(&m, 7);
    put32(m.record.at + AT_RESIDUE, INTERVAL_PERIOD - 1);
    m.record.at[AT_INTERVAL] = 0xff;
    allows(&m, BARE, BACKED);
    discard(&m);
}

static void fails_entry(struct machine *m)
{
    CHANGE_INVALID(m, ADD, BARE, 12);
    CHANGE_INVALID(m, REMOVE, BACKED, 0);
    CHANGE_INVALID(m, PROTECT, BACKED, 0);
    LIST_INVALID(m, PAGES);
    LIST_INVALID(m, 0);
    FIRST_INVALID(m, 0, PAGES);
    FIRST_INVALID(m, 1, 0);
}

/* Both records and both modes; a System/370 guest in the longer record alone. */
static void test_entry_mode(void)
{
    struct machine m = guest(), other = guest();
    unsigned mode;

    lengthen(&other);
    for (mode = 0; mode < 256; mode += mode % 16 == 15 ? 17 : 1) {
        m.record.at[AT_MODE] = other.record.at[AT_MODE] = (uint8_t)mode;
        if ((mode & 0x0e) == MODE_XA)
            allows(&m, BARE, BACKED);
        else
            fails_entry(&m);
        if ((mode & 0x0e) == MODE_XA || (mode & 0x0e) == MODE_370)
            allows(&other, BARE, BACKED);
        else
            fails_entry(&other);
    }
    discard(&m);
    discard(&other);
}

static void test_entry_fields(void)
{
    struct machine m = guest();

    set_extent(&m, 15, 0);
    fails_entry(&m);
    set_extent(&m, 32768, 1);
    fails_entry(&m);
    set_extent(&m, 32767, 2);
    fails_entry(&m);
    set_extent(&m, 15, 2);
    put32(m.record.at + AT_PREFIX, 0x20000);
    fails_entry(&m);
    put32(m.record.at + AT_PREFIX, 0x1f000);
    allows(&m, BARE, BACKED);
    /* bits 1-7 of the prefix of a System/370 guest */
    lengthen(&m);
    m.record.at[AT_MODE] = MODE_370;
    allows(&m, BARE, BACKED);
    set_extent(&m, 0, 32768);
    put32(m.record.at + AT_PREFIX, 0x01000000);
    fails_entry(&m);
    discard(&m);
}

/* ---- 10: outside the extent, out of reach ---- */

static void test_outside_extent(void)
{
    /* the last ones would come back into the extent if sums or products of 32 bits were cut */
    static const uint32_t pages[] = {32, 33, 255, 256, 4096, 0x7fffffff, 0x80000000u, 0x80000002u, 0xffffffffu,
                                     0u - 240, 2u - 240, 0x100002, 0x40000002, 0x10000002};
    struct machine m = guest();
    size_t i;

    m.designation |= 127;
    set_word(&m, SEGMENT_1_AT, TABLE_1 | 15);
    for (i = 0; i < sizeof pages / sizeof *pages; i++)
        refuses(&m, pages[i], pages[i], 10);
    set_extent(&m, 15, 1);
    allows(&m, 15, 14);
    refuses(&m, 17, 16, 10);
    discard(&m);
}

static void try_way_changes(const struct way *w)
{
    struct machine m = spot_guest(w);

    /* the page before it leaves the frame of a page table */
    set_word(&m, SPOT_ENTRY_AT - 4, 0x7000);
    if (!in_reach(w)) {
        refuses(&m, SPOT_PAGE, SPOT_PAGE, 10);
        CHANGE_REFUSED(&m, ADD, SPOT_PAGE, 8, 10);
    } else if (has_valid(w)) {
        CHANGE_REFUSED(&m, ADD, SPOT_PAGE, 3, 11);
        CHANGE_REFUSED(&m, ADD, SPOT_PAGE, 8, 11);
        DONE(&m, PROTECT, SPOT_PAGE, 0, SPOT_ENTRY_AT);
        DONE(&m, REMOVE, SPOT_PAGE, 0, SPOT_ENTRY_AT);
    } else {
        CHANGE_REFUSED(&m, REMOVE, SPOT_PAGE, 0, 12);
        CHANGE_REFUSED(&m, PROTECT, SPOT_PAGE, 0, 12);
        CHANGE_REFUSED(&m, ADD, SPOT_PAGE, 8, 13);
        DONE(&m, ADD, SPOT_PAGE, 3, SPOT_ENTRY_AT);
    }
    discard(&m);
}

static void try_way_list(const struct way *w)
{
    struct machine m = spot_guest(w);
    uint32_t words[SPOT_PAGES], page, valid = 0;

    for (page = 0; page < SPOT_PAGES; page++) {
        words[page] = way_word(w, page, get32(m.storage.at + SPOT_ENTRY_AT));
        valid += words[page] != NO_PAGE;
    }
    LISTS(&m, words, SPOT_PAGES, valid, SPOT_PAGES);
    discard(&m);
}

static void test_ways(void)
{
    size_t i;

    for (i = 0; i < WAYS; i++) {
        try_way_changes(&ways[i]);
        try_way_list(&ways[i]);
    }
}

/* The last entry of the storage, and of the table; addresses past 2^24 and at the end of 31 bits are past every storage. */
static void test_last_entries(void)
{
    struct machine m = machine_of(8);

    m.designation = 0x6000 | 127;
    set_extent(&m, 32767, 1);
    set_word(&m, 0x7ffc, 0x5c00 | 15);
    set_word(&m, 0x5ffc, 0x3000);
    DONE(&m, PROTECT, 15, 0, 0x5ffc);
    set_word(&m, 0x7ffc, 0x7c00 | 15); /* the last page's entry is the segment's own */
    CHANGE_REFUSED(&m, ADD, 15, 3, 14);
    set_word(&m, 0x7ffc, 0x7c40 | 15);
    refuses(&m, 15, 15, 10);
    set_word(&m, 0x7ffc, 0x7fffffc0 | 15);
    refuses(&m, 0, 0, 10);
    m.designation = 0x7000 | 127;
    refuses(&m, 0, 0, 10);
    m.designation = 0x7ffff000 | 127;
    refuses(&m, 0, 0, 10);
    discard(&m);
}

/* ---- 11, 12, 13: valid or not, and the frame ---- */

/* Malformed, with bit 21 zero: not valid, and its frame is none of the guest's. */
static void test_malformed(void)
{
    static const uint32_t bits[] = {BIT(0), BIT(20), BIT(23), BIT(0) | BIT(20) | BIT(23)};
    uint32_t words[PAGES], page;
    size_t i;

    for (i = 0; i < sizeof bits / sizeof *bits; i++) {
        struct machine m = guest();

        for (page = 0; page < PAGES; page++) {
            set_word(&m, entry_at(page), page % 2 ? 0x3000 | bits[i] : 0x4000);
            words[page] = page % 2 ? NO_PAGE : 4;
        }
        LISTS(&m, words, PAGES, 16, PAGES);
        CHANGE_REFUSED(&m, REMOVE, 3, 0, 12);
        CHANGE_REFUSED(&m, PROTECT, 3, 0, 12);
        CHANGE_REFUSED(&m, ADD, 3, FRAMES, 13);
        DONE(&m, ADD, 3, 15, entry_at(3));
        DONE(&m, PROTECT, 4, 0, entry_at(4));
        discard(&m);
    }
}

/* Bits that are ignored: none makes an entry invalid. Removing and protecting keep all of them. */
static void test_kept_bits(void)
{
    struct machine m = guest();
    uint32_t bit;

    for (bit = 0; bit < 32; bit++) {
        set_word(&m, entry_at(2), 0xd000 | BIT(bit));
        if (bit == 0 || bit == 20 || bit == 21 || bit == 23) {
            CHANGE_REFUSED(&m, REMOVE, 2, 0, 12);
            CHANGE_REFUSED(&m, PROTECT, 2, 0, 12);
            DONE(&m, ADD, 2, 14, entry_at(2));
            continue;
        }
        CHANGE_REFUSED(&m, ADD, 2, 14, 11);
        DONE(&m, PROTECT, 2, 0, entry_at(2));
        DONE(&m, REMOVE, 2, 0, entry_at(2));
        CHANGE_REFUSED(&m, PROTECT, 2, 0, 12);
    }
    set_word(&m, entry_at(2), 0x7fffe000u | 0x2ff);
    DONE(&m, PROTECT, 2, 0, entry_at(2));
    EXPECT(get32(m.storage.at + entry_at(2)) == 0x7fffe2ffu);
    DONE(&m, REMOVE, 2, 0, entry_at(2));
    EXPECT(get32(m.storage.at + entry_at(2)) == 0x7fffe6ffu);
    /* what is added has no other bits */
    set_word(&m, entry_at(2), 0xffffffffu);
    DONE(&m, ADD, 2, 13, entry_at(2));
    EXPECT(get32(m.storage.at + entry_at(2)) == 0xd000);
    discard(&m);
}

/* A page that is protected is protected again; it is removed as any other. */
static void test_protect_twice(void)
{
    struct machine m = guest();

    DONE(&m, PROTECT, BACKED, 0, entry_at(BACKED));
    EXPECT(get32(m.storage.at + entry_at(BACKED)) == (frame_of(BACKED) << 12 | PAGE_PROTECTED));
    DONE(&m, PROTECT, BACKED, 0, entry_at(BACKED));
    EXPECT(get32(m.storage.at + entry_at(BACKED)) == (frame_of(BACKED) << 12 | PAGE_PROTECTED));
    DONE(&m, REMOVE, BACKED, 0, entry_at(BACKED));
    CHANGE_REFUSED(&m, REMOVE, BACKED, 0, 12);
    discard(&m);
}

/* Frames past the storage leave a page valid, and are no guest frames. */
static void test_frames_past_storage(void)
{
    static const uint32_t frames[] = {16, 17, 4095, 4096, 0x1001, 0x7fffe, 0x7ffff};
    struct machine m = guest();
    uint32_t words[PAGES], page, i;

    for (page = 0; page < PAGES; page++)
        words[page] = page % 2 ? NO_PAGE : frame_of(page);
    for (i = 0; i < sizeof frames / sizeof *frames; i++) {
        set_word(&m, entry_at(2 * i), frames[i] << 12);
        words[2 * i] = frames[i];
        CHANGE_REFUSED(&m, ADD, 2 * i, 12, 11);
        CHANGE_REFUSED(&m, ADD, 2 * i, frames[i], 11);
    }
    LISTS(&m, words, PAGES, 16, PAGES);
    for (i = 0; i < sizeof frames / sizeof *frames; i++) {
        DONE(&m, PROTECT, 2 * i, 0, entry_at(2 * i));
        DONE(&m, REMOVE, 2 * i, 0, entry_at(2 * i));
        words[2 * i] = NO_PAGE;
    }
    LISTS(&m, words, PAGES, 9, PAGES);
    discard(&m);
}

/* A frame handed in that is past the storage, also where its product with 4,096 would come back into it. */
static void test_frames_handed_in(void)
{
    static const uint32_t frames[] = {16, 17, 0x7ffff, 0x80000, 0x10000c, 0x80000000u, 0x8000000cu, 0xffffffffu};
    struct machine m = guest();
    uint32_t i;

    for (i = 0; i < sizeof frames / sizeof *frames; i++)
        CHANGE_REFUSED(&m, ADD, BARE, frames[i], 13);
    DONE(&m, ADD, BARE, 15, entry_at(BARE));
    DONE(&m, ADD, 3, 0, entry_at(3));
    /* a frame that another page has */
    DONE(&m, ADD, 5, frame_of(2), entry_at(5));
    discard(&m);
}

/* ---- the number of valid pages ---- */

static uint32_t number_after(struct machine *m, enum change change, uint32_t page, uint32_t valid)
{
    struct handed h = handed_of(m);

    EXPECT(change_page(&drevokas_desk, &h, change, page, 12, &valid) == answer_of(DREVOKAS_GOOD, 0));
    return valid;
}

static void test_number_wraps(void)
{
    struct machine m = guest();

    EXPECT(number_after(&m, ADD, 1, 0xffffffffu) == 0);
    EXPECT(number_after(&m, REMOVE, 1, 0) == 0xffffffffu);
    EXPECT(number_after(&m, ADD, 1, 0) == 1);
    EXPECT(number_after(&m, REMOVE, 1, 1) == 0);
    EXPECT(number_after(&m, ADD, 1, 0x7fffffff) == 0x80000000u);
    EXPECT(number_after(&m, PROTECT, 1, 0xffffffffu) == 0xffffffffu);
    EXPECT(number_after(&m, PROTECT, 1, 0) == 0);
    EXPECT(number_after(&m, REMOVE, 1, 0x80000000u) == 0x7fffffff);
    discard(&m);
}

/* ---- 14: an entry in a guest frame, after the call ---- */

/* What is added may not be a frame with an entry in it: a segment's, a page's, the page's own, an invalid one. */
static void test_add_frames_of_tables(void)
{
    struct machine m = guest();
    uint32_t page;

    for (page = 1; page < PAGES; page += 2) {
        CHANGE_REFUSED(&m, ADD, page, 1, 14);
        CHANGE_REFUSED(&m, ADD, page, 2, 14);
        CHANGE_REFUSED(&m, ADD, page, 3, 14);
        DONE(&m, ADD, page, 0, entry_at(page));
    }
    discard(&m);
}

/* A page in such a frame: it may be removed, which mends it; nothing else is done till then. */
static void try_offending(uint32_t page, uint32_t entry)
{
    struct machine m = guest();

    set_word(&m, entry_at(page), entry);
    refuses(&m, BARE, BACKED, 14);
    refuses(&m, 29, 30, 14);
    CHANGE_REFUSED(&m, PROTECT, page, 0, 14);
    DONE(&m, REMOVE, page, 0, entry_at(page));
    allows(&m, BARE, BACKED);
    allows(&m, 29, 30);
    discard(&m);
}

static void test_offending_page(void)
{
    uint32_t page;

    for (page = 4; page < 24; page++) {
        try_offending(page, 0x1000);
        try_offending(page, 0x2000 | PAGE_PROTECTED);
        try_offending(page, 0x30ff);
    }
}

/* Two such pages: removing one is not enough. The list is given all the same. */
static void test_two_offending_pages(void)
{
    struct machine m = guest();
    uint32_t page, words[PAGES];

    set_word(&m, entry_at(4), 0x1000);
    set_word(&m, entry_at(20), 0x2000);
    for (page = 0; page < PAGES; page++)
        words[page] = page == 4 ? 1 : page == 20 ? 2 : page % 2 ? NO_PAGE : frame_of(page);
    LISTS(&m, words, PAGES, 16, PAGES + 3);
    refuses(&m, BARE, 4, 14);
    refuses(&m, BARE, 20, 14);
    set_word(&m, entry_at(20), PAGE_INVALID);
    DONE(&m, REMOVE, 4, 0, entry_at(4));
    discard(&m);
}

/* Entries that are not valid name no guest frame; nor do those of pages outside the extent, or out of reach. */
static void test_frames_that_are_none(void)
{
    struct machine m = guest();

    set_word(&m, entry_at(5), 0x1000 | PAGE_INVALID);
    set_word(&m, entry_at(7), 0x2000 | BIT(20));
    set_word(&m, PART_0(TABLE_0) - 4, 0x1000);
    set_word(&m, TABLE_1 + 64, 0x1000);
    set_word(&m, SEGMENT_1_AT, TABLE_1 | 15);
    set_word(&m, SEGMENT_2_AT, 0xf000 | 15);
    set_word(&m, 0xf000, 0x1000);
    allows(&m, BARE, BACKED);
    set_word(&m, entry_at(20), 0x2000);
    refuses(&m, BARE, BACKED, 14);
    set_word(&m, SEGMENT_1_AT, TABLE_1 | SEGMENT_INVALID);
    allows(&m, BARE, BACKED);
    set_word(&m, SEGMENT_1_AT, TABLE_1 | BIT(0));
    allows(&m, BARE, BACKED);
    discard(&m);
}

/* The segment before the one that breaks it has no page in reach. */
static void test_offending_page_behind_no_segment(void)
{
    struct machine m = guest();

    set_word(&m, entry_at(20), 0x1000);
    set_word(&m, SEGMENT_0_AT, SEGMENT_INVALID);
    refuses(&m, 17, 18, 14);
    DONE(&m, REMOVE, 20, 0, entry_at(20));
    allows(&m, 17, 18);
    discard(&m);
}

/* Page entries that describe the extent are those in reach: where the segment is invalid or malformed there are none. */
static void test_page_entries_in_guest_frames(void)
{
    struct machine m = guest();
    uint32_t page;

    for (page = 16; page < PAGES; page++)
        set_word(&m, entry_at(page), PAGE_INVALID);
    CHANGE_REFUSED(&m, ADD, BARE, 3, 14);
    set_word(&m, SEGMENT_1_AT, TABLE_1 | SEGMENT_INVALID);
    DONE(&m, ADD, BARE, 3, entry_at(BARE));
    set_word(&m, SEGMENT_1_AT, TABLE_1 | BIT(0));
    DONE(&m, ADD, 3, 3, entry_at(3));
    set_word(&m, SEGMENT_1_AT, TABLE_1);
    refuses(&m, 5, BACKED, 14);
    refuses(&m, 5, BARE, 14);
    /* a page table past the storage */
    set_word(&m, SEGMENT_1_AT, FRAMES << 12);
    allows(&m, 5, BACKED);
    discard(&m);
}

/* Segment entries are in reach even if invalid or malformed, up to the table's length and the storage's end. Segment 1023 has
   its entry in frame 1, segment 1024 in frame 2. */
static void test_segment_entries_in_guest_frames(void)
{
    static const uint32_t entries[] = {0x4000, SEGMENT_INVALID, BIT(0), 0xffffffffu, 0x7fffffc0};
    struct machine m = machine_of(8);
    uint32_t i, page_0 = 0x3000 + 240 * 4;

    set_extent(&m, 0x3fff, 2);
    set_word(&m, 0x1ffc, 0x3000 | 15);
    for (i = 0; i < sizeof entries / sizeof *entries; i++) {
        m.designation = 0x1000 | 127;
        set_word(&m, 0x2000, entries[i]);
        set_word(&m, page_0, 0x5000);
        DONE(&m, PROTECT, 0, 0, page_0);
        set_word(&m, page_0, 0x2000);
        CHANGE_REFUSED(&m, PROTECT, 0, 0, 14);
        CHANGE_REFUSED(&m, PROTECT, 1, 0, 14);
        m.designation = 0x1000 | 64;
        CHANGE_REFUSED(&m, PROTECT, 0, 0, 14);
        m.designation = 0x1000 | 63;
        DONE(&m, PROTECT, 0, 0, page_0);
    }
    /* the table's other half past the storage */
    set_word(&m, 0x7ffc, 0x3000 | 15);
    m.designation = 0x7000 | 127;
    DONE(&m, PROTECT, 0, 0, page_0);
    discard(&m);
}

/* Segment entries that the extent does not touch may lie in a guest frame, and page entries outside the extent. */
static void test_other_entries_in_guest_frames(void)
{
    struct machine m = guest();
    uint32_t page;

    /* segments 1024 and up have theirs in frame 2 */
    m.designation |= 127;
    set_word(&m, SEGMENT_0_AT, 0x3400 | 15);
    for (page = 0; page < 16; page++)
        set_word(&m, PART_0(0x3400u) + page * 4, page % 2 ? PAGE_INVALID : 0x2000);
    allows_at(&m, BARE, PART_0(0x3400u) + 4, BACKED, PART_0(0x3400u) + 8);
    allows(&m, 17, 18);
    discard(&m);
    /* page 16 of segment 1 and those after it have theirs in frame 4 */
    m = guest();
    set_word(&m, SEGMENT_1_AT, 0x3fc0 | 15);
    EXPECT(frame_of(0) == 4);
    allows(&m, BARE, BACKED);
    set_extent(&m, 15, 3);
    refuses(&m, BARE, BACKED, 14);
    discard(&m);
}

/* A page table over the end of a frame: the entries in the second frame are in reach by the table's length. */
static void test_table_over_two_frames(void)
{
    struct machine m = machine_of(8);
    uint32_t page;

    set_extent(&m, 16, 2);
    set_word(&m, SEGMENT_1_AT, 0x2fc0 | 1);
    for (page = 0; page < PAGES; page++)
        set_word(&m, 0x2fc0 + page * 4, page == 0 ? 0x3000 : PAGE_INVALID);
    CHANGE_REFUSED(&m, PROTECT, 0, 0, 14);
    CHANGE_REFUSED(&m, ADD, 31, 5, 14);
    set_word(&m, SEGMENT_1_AT, 0x2fc0);
    DONE(&m, PROTECT, 0, 0, 0x2fc0);
    set_word(&m, SEGMENT_1_AT, 0x2fc0 | 15);
    DONE(&m, REMOVE, 0, 0, 0x2fc0);
    DONE(&m, ADD, 31, 5, 0x303c);
    CHANGE_REFUSED(&m, ADD, 30, 2, 14);
    discard(&m);
}

/* ---- 14: the entry serves twice ---- */

/* Segments 0 and 1 in one page table, a page of each with one entry; nothing lies in a guest frame. */
static void test_second_page(void)
{
    struct machine m = guest();
    uint32_t page;

    set_word(&m, SEGMENT_1_AT, PART_0(TABLE_0));
    for (page = 1; page < 16; page += 2) {
        refuses(&m, page, page - 1, 14);
        refuses(&m, page + 16, page + 15, 14);
    }
    /* of the extent's first half alone, the second page is none */
    set_extent(&m, 15, 1);
    allows(&m, BARE, BACKED);
    set_extent(&m, 15, 2);
    /* an invalid or malformed segment has no pages in reach */
    set_word(&m, SEGMENT_1_AT, PART_0(TABLE_0) | SEGMENT_INVALID);
    allows(&m, BARE, BACKED);
    set_word(&m, SEGMENT_1_AT, PART_0(TABLE_0) | BIT(0));
    allows(&m, BARE, BACKED);
    discard(&m);
}

/* Tables that overlap in part: page 16 + i of segment 1 has the entry of page 240 + i of segment 0, if the length allows it. */
static void test_overlapping_tables(void)
{
    struct machine m = guest();

    set_extent(&m, 15, 3);
    set_word(&m, SEGMENT_1_AT, (PART_0(TABLE_0) - 64) | 1);
    refuses(&m, BARE, BACKED, 14);
    refuses(&m, 32 + BARE, 32 + BACKED, 14);
    /* those of the first half of segment 1 serve once; zero is a valid entry */
    DONE(&m, PROTECT, 17, 0, PART_0(TABLE_0) - 60);
    set_word(&m, SEGMENT_1_AT, PART_0(TABLE_0) - 64);
    allows(&m, BARE, BACKED);
    set_word(&m, SEGMENT_1_AT, (PART_0(TABLE_0) - 64) | 1);
    set_extent(&m, 15, 2);
    allows(&m, BARE, BACKED);
    discard(&m);
}

/* Pages outside the extent that have the same entry: before it, behind it, in a segment that it does not touch. */
static void test_pages_outside_extent(void)
{
    struct machine m = guest();

    m.designation |= 127;
    set_word(&m, SEGMENT_2_AT, TABLE_0 | 15);
    set_word(&m, 0x1ffc, TABLE_0 | 15);
    allows(&m, BARE, BACKED);
    set_word(&m, SEGMENT_1_AT, (PART_0(TABLE_0) - 64) | 15);
    allows(&m, BARE, BACKED);
    /* page 224 of segment 0 at the entry of page 0 of segment 1 */
    set_word(&m, SEGMENT_1_AT, PART_0(TABLE_0) - 64);
    DONE(&m, PROTECT, 16, 0, PART_0(TABLE_0) - 64);
    discard(&m);
}

/* The entry of page p of the extent stands at 1000 hex plus 4p: page 0's is the entry of its own segment, page 1's that of
   segment 1, page 2's that of segment 2. */
static struct machine tables_in_one(uint32_t segment_1)
{
    struct machine m = guest();
    uint32_t page;

    set_word(&m, SEGMENT_0_AT, 0xc40 | 15);
    set_word(&m, SEGMENT_1_AT, segment_1);
    for (page = 2; page < 16; page++)
        set_word(&m, 0x1000 + page * 4, page % 2 ? PAGE_INVALID : 0xd000);
    return m;
}

/* Segment 1 is invalid, with no pages in reach; still its entry describes the extent. */
static void test_segment_entry(void)
{
    struct machine m = tables_in_one(0xd000 | SEGMENT_INVALID);

    CHANGE_REFUSED(&m, REMOVE, 1, 0, 14);
    CHANGE_REFUSED(&m, PROTECT, 1, 0, 14);
    set_word(&m, SEGMENT_1_AT, 0xd000 | SEGMENT_INVALID | PAGE_INVALID);
    CHANGE_REFUSED(&m, ADD, 1, 12, 14);
    set_word(&m, SEGMENT_1_AT, BIT(0));
    CHANGE_REFUSED(&m, ADD, 1, 12, 14);
    /* the segment's own, which then would have no page in reach */
    CHANGE_REFUSED(&m, ADD, 0, 12, 14);
    CHANGE_REFUSED(&m, ADD, 0, 1, 14);
    /* segment 2 is not of the extent */
    allows_at(&m, 3, 0x100c, 2, 0x1008);
    set_word(&m, 0x1008, PAGE_INVALID | 0xd000);
    DONE(&m, ADD, 2, 12, 0x1008);
    /* nor is segment 1 of the first half */
    set_word(&m, SEGMENT_1_AT, 0xd000);
    CHANGE_REFUSED(&m, REMOVE, 1, 0, 14);
    set_extent(&m, 15, 1);
    DONE(&m, PROTECT, 1, 0, SEGMENT_1_AT);
    DONE(&m, REMOVE, 1, 0, SEGMENT_1_AT);
    discard(&m);
}

/* A segment's own entry as that of one of its pages, and valid as both. */
static void test_own_segment_entry(void)
{
    struct machine m = machine_of(8);

    m.designation = 0;
    CHANGE_REFUSED(&m, PROTECT, 0, 0, 14);
    CHANGE_REFUSED(&m, REMOVE, 0, 0, 14);
    CHANGE_REFUSED(&m, ADD, 0, 5, 11);
    discard(&m);
}

/* A segment whose entry is out of reach does not count: the chosen entry may stand where it would be. */
static void test_segment_entry_out_of_reach(void)
{
    struct machine m = machine_of(8);
    uint32_t at = 0x2000;

    /* segments 1023 and 1024, whose entry would be at 2000 hex, that of page 0 */
    set_extent(&m, 0x3fff, 2);
    set_word(&m, 0x1ffc, (at - 240 * 4) | 15);
    set_word(&m, at, 0x5000 | SEGMENT_INVALID);
    m.designation = 0x1000 | 64;
    CHANGE_REFUSED(&m, PROTECT, 0, 0, 14);
    CHANGE_REFUSED(&m, REMOVE, 0, 0, 14);
    m.designation = 0x1000 | 63;
    DONE(&m, PROTECT, 0, 0, at);
    DONE(&m, REMOVE, 0, 0, at);
    DONE(&m, ADD, 0, 6, at);
    discard(&m);
}

/* ---- list ---- */

static void test_workspaces(void)
{
    static const size_t counts[] = {32, 33, 47, 64, 1000}, less[] = {0, 1, 16, 30, 31};
    struct machine m = guest();
    uint32_t words[PAGES], page;
    size_t i;

    for (page = 0; page < PAGES; page++)
        words[page] = page % 2 ? NO_PAGE : frame_of(page);
    for (i = 0; i < sizeof counts / sizeof *counts; i++)
        LISTS(&m, words, PAGES, 16, counts[i]);
    for (i = 0; i < sizeof less / sizeof *less; i++)
        LIST_REFUSED(&m, less[i], 15);
    set_extent(&m, 15, 1);
    LISTS(&m, words, 16, 8, 16);
    LIST_REFUSED(&m, 15, 15);
    m.designation = 0x7ffff000;
    for (page = 0; page < PAGES; page++)
        words[page] = NO_PAGE;
    LISTS(&m, words, 16, 0, 17);
    discard(&m);
}

/* Extents from every block of a segment on, over up to four segments; the third has half of its pages, the fourth none. */
static void test_list_extents(void)
{
    struct machine m = four_segments(16, 5, 0);
    static uint32_t words[40 * 16];
    uint32_t origin, extent, page, host, valid;

    for (origin = 0; origin < 20; origin++) {
        for (extent = 1; extent < 40; extent += 1 + origin % 4) {
            set_extent(&m, origin, extent);
            for (page = 0, valid = 0; page < extent * 16; page++) {
                host = origin * 16 + page;
                words[page] = host % 5 && host < 640 ? host : NO_PAGE;
                valid += words[page] != NO_PAGE;
            }
            LISTS(&m, words, extent * 16, valid, extent * 16 + extent % 2);
        }
    }
    discard(&m);
}

/* ---- the largest extent ---- */

static void test_largest(void)
{
    static uint32_t words[DREVOKAS_MOST_PAGES];
    struct machine m = large_guest();
    uint32_t i, last = DREVOKAS_MOST_PAGES - 1, last_at = 0x2000 + 4 * last;

    for (i = 0; i <= last; i++)
        words[i] = LARGE_TABLES + i % (LARGE_FRAMES - LARGE_TABLES);
    LISTS(&m, words, DREVOKAS_MOST_PAGES, DREVOKAS_MOST_PAGES, DREVOKAS_MOST_PAGES);
    LIST_REFUSED(&m, DREVOKAS_MOST_PAGES - 1, 15);
    CHANGE_REFUSED(&m, PROTECT, last + 1, 0, 10);
    CHANGE_REFUSED(&m, ADD, last, 600, 11);
    DONE(&m, PROTECT, last, 0, last_at);
    DONE(&m, REMOVE, last, 0, last_at);
    DONE(&m, REMOVE, 0, 0, 0x2000);
    CHANGE_REFUSED(&m, ADD, last, 4096, 13);
    CHANGE_REFUSED(&m, ADD, last, 513, 14);
    CHANGE_REFUSED(&m, ADD, 0, 0, 14);
    DONE(&m, ADD, last, 4095, last_at);
    words[0] = NO_PAGE;
    words[last] = 4095;
    LISTS(&m, words, DREVOKAS_MOST_PAGES, last, DREVOKAS_MOST_PAGES + 1);
    discard(&m);
}

/* The last page alone is in the frame of the first table, or shares the first page's entry. */
static void test_largest_refused(void)
{
    struct machine m = large_guest();
    uint32_t last = DREVOKAS_MOST_PAGES - 1, last_at = 0x2000 + 4 * last;

    set_word(&m, last_at, 0x1000);
    CHANGE_REFUSED(&m, PROTECT, 0, 0, 14);
    DONE(&m, REMOVE, last, 0, last_at);
    set_word(&m, 2047 * 4, 0x2000 | 15);
    CHANGE_REFUSED(&m, PROTECT, 255, 0, 14);
    CHANGE_REFUSED(&m, PROTECT, last, 0, 14);
    DONE(&m, PROTECT, 256, 0, 0x2400);
    discard(&m);
}

/* ---- what has no effect, and what is seen of it ---- */

/* Prefix, PSW, control registers, keys and the bits of the designation that are ignored. */
static void test_ignored(void)
{
    struct machine m = guest();
    uint32_t words[PAGES], page;

    for (page = 0; page < PAGES; page++)
        words[page] = page % 2 ? NO_PAGE : frame_of(page);
    m.record.at[3] = 0xff;
    m.record.at[AT_MODE] |= 0xf1;
    memset(m.record.at + 5, 0xff, 3);
    put32(m.record.at + AT_PREFIX, 0x80003fffu);
    memset(m.record.at + AT_PSW, 0xff, AT_RESERVED - AT_PSW);
    memset(m.record.at + AT_CR0, 0xff, DREVOKAS_RECORD_LENGTH - AT_CR0);
    memset(m.keys.at, 0xff, m.keys.len);
    m.designation |= 0x80000f80u;
    set_word(&m, SEGMENT_0_AT, TABLE_0 | BIT(27) | 15);
    LISTS(&m, words, PAGES, 16, PAGES);
    allows(&m, BARE, BACKED);
    discard(&m);
}

/* Translate sees what the desk did; a run leaves the number true. */
static void test_seen_by_others(void)
{
    struct machine m = guest();
    struct handed h = handed_of(&m);
    uint32_t valid = 16, words[PAGES];
    uint64_t where = 0;

    FAULTS_IN(&m, DREVOKAS_OPERAND_FETCH, 0x1234, 0x11, 0xf1234, HOST_PAGE(entry_at(1)));
    EXPECT(drevokas_kind(change_page(&drevokas_desk, &h, ADD, 1, 12, &valid)) == DREVOKAS_GOOD);
    REACHES(&m, DREVOKAS_OPERAND_FETCH, 0x1234, 0xc234);
    REACHES(&m, DREVOKAS_STORE, 0x1234, 0xc234);
    EXPECT(drevokas_kind(change_page(&drevokas_desk, &h, PROTECT, 1, 0, &valid)) == DREVOKAS_GOOD);
    REACHES(&m, DREVOKAS_OPERAND_FETCH, 0x1234, 0xc234);
    FAULTS(&m, DREVOKAS_STORE, 0x1234, 4, 0xf1234);
    /* ST 1,0(2) at 100 hex of page 0: into page 2 */
    put32(m.record.at + AT_PSW, PSW_BASE);
    put32(m.record.at + AT_PSW + 4, PSW_31 | 0x100);
    put_general(&m, 1, 0xffffffffu);
    put_general(&m, 2, 0x2000);
    set_word(&m, frame_of(0) << 12 | 0x100, 0x50102000);
    EXPECT(run(&m, 0, 1, 1, &where) == ended(DREVOKAS_BUDGET_USED, 0, 1));
    EXPECT(get32(m.storage.at + (frame_of(2) << 12)) == 0xffffffffu);
    EXPECT(drevokas_kind(change_page(&drevokas_desk, &h, REMOVE, 0, 0, &valid)) == DREVOKAS_GOOD);
    EXPECT(valid == 16 && list_pages(&drevokas_desk, &h, words, PAGES) == listed(16));
    FAULTS_IN(&m, DREVOKAS_OPERAND_FETCH, 0x10, 0x11, 0xf0010, HOST_PAGE(entry_at(0)));
    discard(&m);
}

/* One frame has everything: no page of it can be the guest's; but a frame past the storage names none. */
static void test_one_frame(void)
{
    struct machine m = machine_of(1);
    uint32_t page;

    m.designation = 0;
    set_word(&m, 0, 0x40);
    for (page = 0; page < 16; page++)
        set_word(&m, 0x40 + page * 4, page % 2 ? PAGE_INVALID : 0x1000);
    CHANGE_REFUSED(&m, ADD, 1, 0, 14);
    CHANGE_REFUSED(&m, ADD, 1, 1, 13);
    DONE(&m, PROTECT, 2, 0, 0x48);
    DONE(&m, REMOVE, 2, 0, 0x48);
    set_word(&m, 0x44, 0);
    CHANGE_REFUSED(&m, PROTECT, 4, 0, 14);
    DONE(&m, REMOVE, 1, 0, 0x44);
    discard(&m);
}

static void (*const tests[])(void) = {
    test_header,
    test_every_page,
    test_one_after_the_other,
    test_refusals_in_order,
    test_list_refusals_in_order,
    test_refused_heads,
    test_refused_bytes,
    test_entry_mode,
    test_entry_fields,
    test_outside_extent,
    test_ways,
    test_last_entries,
    test_malformed,
    test_kept_bits,
    test_protect_twice,
    test_frames_past_storage,
    test_frames_handed_in,
    test_number_wraps,
    test_add_frames_of_tables,
    test_offending_page,
    test_two_offending_pages,
    test_frames_that_are_none,
    test_offending_page_behind_no_segment,
    test_page_entries_in_guest_frames,
    test_segment_entries_in_guest_frames,
    test_other_entries_in_guest_frames,
    test_table_over_two_frames,
    test_second_page,
    test_overlapping_tables,
    test_pages_outside_extent,
    test_segment_entry,
    test_own_segment_entry,
    test_segment_entry_out_of_reach,
    test_workspaces,
    test_list_extents,
    test_largest,
    test_largest_refused,
    test_ignored,
    test_seen_by_others,
    test_one_frame,
};

int main(void)
{
    size_t i;

    for (i = 0; i < sizeof tests / sizeof *tests; i++)
        tests[i]();
    return expect_end();
}
