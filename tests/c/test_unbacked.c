/* Tests of the first unbacked page against document 01 and request 4/12. Refusals are written as their numbers. */
#include "desk_guests.h"

/* What a range is answered when the pages' words in a list are these. */
static void answers_by(struct machine *m, const uint32_t *words, uint32_t from, uint32_t to)
{
    uint32_t page = from;

    while (page < to && words[page] != NO_PAGE)
        page++;
    if (page < to)
        FINDS(m, from, to, page);
    else
        FINDS_NONE(m, from, to);
}

/* The guest with origin 15 and extent 2, all of its pages valid. */
static struct machine backed_guest(void)
{
    struct machine m = guest();
    uint32_t page;

    for (page = 0; page < PAGES; page++)
        set_word(&m, entry_at(page), frame_of(page) << 12);
    return m;
}

/* ---- the header ---- */

static void test_header(void)
{
    EXPECT(DREVOKAS_NONE == 6 && DREVOKAS_REFUSAL_RANGE == 16);
    EXPECT(drevokas_kind(0x0600000000000000u) == DREVOKAS_NONE);
    EXPECT(drevokas_page(0x00000000fedcba98u) == 0xfedcba98u && drevokas_page(0xffffffff00000000u) == 0);
}

/* ---- ranges ---- */

/* Every range of a guest whose odd pages are not valid. */
static void test_every_range(void)
{
    struct machine m = guest();
    uint32_t from, to, words[PAGES], page;

    for (page = 0; page < PAGES; page++)
        words[page] = page % 2 ? NO_PAGE : frame_of(page);
    for (from = 0; from <= PAGES; from++)
        for (to = 0; to <= PAGES; to++) {
            if (from > to)
                FIRST_REFUSED(&m, from, to, 16);
            else
                answers_by(&m, words, from, to);
        }
    discard(&m);
}

/* One page is not valid: it is found by every range that has it, and by no other. */
static void test_one_page(void)
{
    struct machine m = backed_guest();
    uint32_t page;

    FINDS_NONE(&m, 0, PAGES);
    for (page = 0; page < PAGES; page++) {
        set_word(&m, entry_at(page), frame_of(page) << 12 | PAGE_INVALID);
        FINDS(&m, 0, PAGES, page);
        FINDS(&m, 0, page + 1, page);
        FINDS(&m, page, page + 1, page);
        FINDS(&m, page, PAGES, page);
        FINDS_NONE(&m, 0, page);
        FINDS_NONE(&m, page + 1, PAGES);
        set_word(&m, entry_at(page), frame_of(page) << 12);
    }
    FINDS_NONE(&m, 0, PAGES);
    discard(&m);
}

/* None of no pages, whatever the tables are: here no entry is in reach. */
static void test_empty_ranges(void)
{
    static const uint32_t pages[] = {0, 1, 15, 16, 17, 31, 32};
    struct machine m = guest(), bare = guest();
    size_t i;

    bare.designation = 0x7ffff000u;
    for (i = 0; i < sizeof pages / sizeof *pages; i++) {
        FINDS_NONE(&m, pages[i], pages[i]);
        FINDS_NONE(&bare, pages[i], pages[i]);
        if (pages[i] < PAGES)
            FINDS(&bare, pages[i], PAGES, pages[i]);
    }
    discard(&m);
    discard(&bare);
}

/* Above one another, and past the extent; the last ones would come back into it if sums or products of 32 bits were cut. */
static void test_refused_ranges(void)
{
    static const uint32_t past[] = {33, 34, 255, 256, 4096, 524288, 524289, 0x7fffffff, 0x80000000u, 0x80000020u, 0xffffffffu,
                                    0u - 240, 32u - 240, 0x100020, 0x40000020, 0x10000020};
    static const uint32_t froms[] = {0, 1, 16, 31, 32};
    struct machine m = backed_guest();
    size_t i, j;

    for (i = 0; i < sizeof past / sizeof *past; i++) {
        for (j = 0; j < sizeof froms / sizeof *froms; j++) {
            FIRST_REFUSED(&m, froms[j], past[i], 16);
            FIRST_REFUSED(&m, past[i], froms[j], 16);
        }
        FIRST_REFUSED(&m, past[i], past[i], 16);
        FIRST_REFUSED(&m, past[i] - 1, past[i], 16);
    }
    FIRST_REFUSED(&m, 0xffffffffu, 0, 16);
    FIRST_REFUSED(&m, 0xffffffffu, 0xfffffffeu, 16);
    FIRST_REFUSED(&m, 1, 0, 16);
    FIRST_REFUSED(&m, 32, 31, 16);
    FINDS_NONE(&m, 32, 32);
    discard(&m);
}

/* A page that is found does not keep a range from being refused: the range is looked at first. */
static void test_range_before_pages(void)
{
    struct machine m = guest();

    FINDS(&m, 0, 32, 1);
    FIRST_REFUSED(&m, 0, 33, 16);
    FIRST_REFUSED(&m, 2, 1, 16);
    set_extent(&m, 15, 1);
    FINDS(&m, 0, 16, 1);
    FIRST_REFUSED(&m, 0, 17, 16);
    FIRST_REFUSED(&m, 17, 17, 16);
    FINDS_NONE(&m, 16, 16);
    discard(&m);
}

/* ---- refusals 1 to 4 and 7, entry, and 16 ---- */

#define RANGE_ABOVE 64u
#define RANGE_PAST 128u

static uint32_t first_number(unsigned defects)
{
    static const uint32_t numbers[] = {1, 2, 3, 4, 7, 32, 16, 16};
    size_t i;

    for (i = 0; i < sizeof numbers / sizeof *numbers; i++)
        if (defects >> i & 1)
            return numbers[i];
    return 0;
}

/* Any of the defects together. */
static void test_refusals_in_order(void)
{
    unsigned defects;

    for (defects = 0; defects < 256; defects++) {
        struct machine m = guest();
        uint32_t number = first_number(defects), to = defects & RANGE_PAST ? PAGES + 1 : PAGES;
        uint32_t from = defects & RANGE_ABOVE ? to + 1 : 2;

        apply_head(&m, defects);
        if (number == 0)
            FINDS(&m, from, to, 3);
        else if (number == 32)
            FIRST_INVALID(&m, from, to);
        else
            FIRST_REFUSED(&m, from, to, number);
        discard(&m);
    }
}

/* Both records and both modes; what differs between them has no part in it. */
static void test_records(void)
{
    struct machine m = backed_guest();

    set_word(&m, entry_at(20), PAGE_INVALID);
    FINDS(&m, 0, PAGES, 20);
    lengthen(&m);
    FINDS(&m, 0, PAGES, 20);
    m.record.at[AT_INTERVAL] = 0xff;
    put32(m.record.at + AT_RESIDUE, INTERVAL_PERIOD - 1);
    FINDS(&m, 0, PAGES, 20);
    FINDS_NONE(&m, 21, PAGES);
    FIRST_REFUSED(&m, 0, PAGES + 1, 16);
    m.record.at[AT_MODE] = MODE_370;
    FINDS(&m, 0, PAGES, 20);
    FINDS_NONE(&m, 0, 20);
    FIRST_REFUSED(&m, 21, 20, 16);
    put32(m.record.at + AT_RESIDUE, INTERVAL_PERIOD);
    FIRST_REFUSED(&m, 0, PAGES, 7);
    discard(&m);
}

/* ---- segments ---- */

/* Segment 0 or 1 is invalid or malformed, or its table is past the storage: the first page asked about is answered. Bits of the
   entry that are ignored change nothing. */
static void test_segment_entries(void)
{
    static const uint32_t bad[] = {TABLE_0 | SEGMENT_INVALID | 15, TABLE_0 | BIT(0) | 15, 0xffffffffu, SEGMENT_INVALID, BIT(0),
                                   FRAMES * 4096 | 15, 0x7fffffc0u | 15};
    struct machine m = backed_guest();
    uint32_t from;
    size_t i;

    for (i = 0; i < sizeof bad / sizeof *bad; i++) {
        set_word(&m, SEGMENT_0_AT, bad[i]);
        for (from = 0; from < 16; from++)
            FINDS(&m, from, PAGES, from);
        FINDS_NONE(&m, 16, PAGES);
        FINDS_NONE(&m, 3, 3);
        set_word(&m, SEGMENT_0_AT, TABLE_0 | 15);
        set_word(&m, SEGMENT_1_AT, bad[i]);
        FINDS(&m, 0, PAGES, 16);
        FINDS(&m, 20, PAGES, 20);
        FINDS_NONE(&m, 0, 16);
        set_word(&m, SEGMENT_1_AT, TABLE_1);
    }
    set_word(&m, SEGMENT_0_AT, TABLE_0 | BIT(27) | 15);
    FINDS_NONE(&m, 0, PAGES);
    discard(&m);
}

/* A page that is not valid stands in front of an invalid segment, and behind one. */
static void test_page_and_segment(void)
{
    struct machine m = backed_guest();

    set_word(&m, SEGMENT_1_AT, TABLE_1 | SEGMENT_INVALID);
    set_word(&m, entry_at(15), PAGE_INVALID);
    FINDS(&m, 0, PAGES, 15);
    FINDS(&m, 15, PAGES, 15);
    set_word(&m, entry_at(15), 0x4000);
    FINDS(&m, 0, PAGES, 16);
    set_word(&m, SEGMENT_0_AT, TABLE_0 | BIT(0) | 15);
    FINDS(&m, 0, PAGES, 0);
    set_word(&m, SEGMENT_1_AT, TABLE_1);
    set_word(&m, entry_at(31), PAGE_INVALID);
    FINDS(&m, 9, PAGES, 9);
    FINDS(&m, 16, PAGES, 31);
    discard(&m);
}

/* Pages of one segment past its table's length, and past the storage's end. */
static void test_table_lengths(void)
{
    static const uint32_t ends[] = {0, 1, 100, 255, 256};
    struct machine m = machine_of(8);
    uint32_t blocks, words[256], page;
    size_t i, j;

    set_extent(&m, 16, 16);
    for (blocks = 1; blocks <= 16; blocks++) {
        for (page = 0; page < 256; page++)
            words[page] = page < blocks * 16 ? 0 : NO_PAGE;
        set_word(&m, SEGMENT_1_AT, 0x2000 | (blocks - 1));
        for (i = 0; i < sizeof ends / sizeof *ends; i++)
            for (j = i; j < sizeof ends / sizeof *ends; j++)
                answers_by(&m, words, ends[i], ends[j]);
        answers_by(&m, words, blocks * 16 - 1, blocks * 16);
        answers_by(&m, words, blocks * 16 - 1, 256);
        answers_by(&m, words, 0, blocks * 16);
        /* the same entries are the last ones of the storage */
        set_word(&m, SEGMENT_1_AT, (0x8000 - blocks * 64) | 15);
        answers_by(&m, words, 0, 256);
        answers_by(&m, words, blocks * 16 - 1, 256);
        answers_by(&m, words, 0, blocks * 16);
    }
    discard(&m);
}

/* The end of the segment table between two segments, by its length and by the storage; page 16 is the first of the second. */
static void test_segment_table_lengths(void)
{
    struct machine m = machine_of(8);

    set_extent(&m, 255, 2);
    set_word(&m, 0x103c, 0x2000 | 15);
    set_word(&m, 0x1040, 0x2000 | 15);
    m.designation = 0x1000;
    FINDS(&m, 0, PAGES, 16);
    FINDS_NONE(&m, 0, 16);
    FINDS(&m, 30, PAGES, 30);
    m.designation = 0x1001;
    FINDS_NONE(&m, 0, PAGES);
    discard(&m);
    /* segments 1023 and 1024 */
    m = machine_of(8);
    set_extent(&m, 0x3fff, 2);
    m.designation = 0x7000 | 127;
    set_word(&m, 0x7ffc, 0x2000 | 15);
    FINDS(&m, 0, PAGES, 16);
    FINDS_NONE(&m, 2, 16);
    m.designation = 0x8000 | 127;
    FINDS(&m, 2, 16, 2);
    m.designation = 0x7ffff000 | 127;
    FINDS(&m, 0, PAGES, 0);
    discard(&m);
}

/* Every way in which the host cannot give a page. */
static void test_ways(void)
{
    static const uint32_t ends[] = {0, 1, 15, 16, 17, 223, 224, 225, 239, 240, 241, 255, 256};
    uint32_t words[SPOT_PAGES], page;
    size_t w, i, j;

    for (w = 0; w < WAYS; w++) {
        struct machine m = spot_guest(&ways[w]);

        for (page = 0; page < SPOT_PAGES; page++)
            words[page] = way_word(&ways[w], page, get32(m.storage.at + SPOT_ENTRY_AT));
        for (i = 0; i < sizeof ends / sizeof *ends; i++)
            for (j = i; j < sizeof ends / sizeof *ends; j++)
                answers_by(&m, words, ends[i], ends[j]);
        discard(&m);
    }
}

/* ---- page entries ---- */

/* Bits 0, 20, 21 and 23 make an entry invalid or malformed, the others do not. */
static void test_entry_bits(void)
{
    struct machine m = backed_guest();
    uint32_t bit;

    for (bit = 0; bit < 32; bit++) {
        set_word(&m, entry_at(7), BIT(bit));
        if (bit == 0 || bit == 20 || bit == 21 || bit == 23) {
            FINDS(&m, 0, PAGES, 7);
            FINDS(&m, 7, 8, 7);
        } else {
            FINDS_NONE(&m, 0, PAGES);
        }
    }
    set_word(&m, entry_at(7), 0x7ffff2ffu);
    FINDS_NONE(&m, 0, PAGES);
    set_word(&m, entry_at(7), 0xffffffffu);
    FINDS(&m, 0, PAGES, 7);
    discard(&m);
}

/* Frames past the storage back a page. */
static void test_frames_past_storage(void)
{
    static const uint32_t frames[] = {16, 17, 4095, 4096, 0x1001, 0x7fffe, 0x7ffff};
    struct machine m = backed_guest();
    size_t i;

    for (i = 0; i < sizeof frames / sizeof *frames; i++)
        set_word(&m, entry_at(3 * (uint32_t)i), frames[i] << 12);
    FINDS_NONE(&m, 0, PAGES);
    set_word(&m, entry_at(18), 0x10000 | PAGE_INVALID);
    FINDS(&m, 0, PAGES, 18);
    discard(&m);
}

/* What refusal 14 is for does not matter: tables in guest frames, an entry of two pages, one that is a segment's too. */
static void test_misplaced_entries(void)
{
    struct machine m = backed_guest();

    set_word(&m, entry_at(5), 0x1000);
    set_word(&m, entry_at(6), TABLE_0);
    set_word(&m, entry_at(7), TABLE_1);
    FINDS_NONE(&m, 0, PAGES);
    /* pages 0 and 16 have one entry, and so on */
    set_word(&m, SEGMENT_1_AT, PART_0(TABLE_0));
    FINDS_NONE(&m, 0, PAGES);
    set_word(&m, entry_at(9), PAGE_INVALID);
    FINDS(&m, 0, PAGES, 9);
    FINDS(&m, 10, PAGES, 25);
    FINDS_NONE(&m, 26, PAGES);
    discard(&m);
    /* page 0's entry is that of its segment, valid as both */
    m = machine_of(8);
    m.designation = 0;
    FINDS_NONE(&m, 0, 16);
    discard(&m);
    /* page 1's is that of segment 1, invalid, but valid as a page's; page 0's is that of segment 0, malformed as a page's */
    m = machine_of(8);
    set_extent(&m, 15, 2);
    set_word(&m, SEGMENT_0_AT, 0xc40 | 15);
    set_word(&m, SEGMENT_1_AT, 0xd000 | SEGMENT_INVALID);
    FINDS(&m, 0, PAGES, 0);
    FINDS(&m, 1, PAGES, 16);
    FINDS_NONE(&m, 1, 16);
    discard(&m);
}

/* ---- extents ---- */

/* Extents from every block of a segment on, over up to four segments; the third has half of its pages, the fourth none. */
static void test_extents(void)
{
    struct machine m = four_segments(8, 300, 299);
    static uint32_t words[40 * 16];
    uint32_t origin, extent, page, pages, host;

    for (origin = 0; origin < 20; origin++) {
        for (extent = 1; extent < 40; extent += 1 + origin % 4) {
            set_extent(&m, origin, extent);
            pages = extent * 16;
            for (page = 0; page < pages; page++) {
                host = origin * 16 + page;
                words[page] = host % 300 != 299 && host < 640 ? host : NO_PAGE;
            }
            answers_by(&m, words, 0, pages);
            answers_by(&m, words, pages / 3, pages);
            answers_by(&m, words, pages / 2, pages - 1);
            FINDS_NONE(&m, pages, pages);
            FIRST_REFUSED(&m, 0, pages + 1, 16);
        }
    }
    discard(&m);
}

static void test_largest(void)
{
    struct machine m = large_guest();
    uint32_t last = DREVOKAS_MOST_PAGES - 1, last_at = 0x2000 + 4 * last;

    FINDS_NONE(&m, 0, DREVOKAS_MOST_PAGES);
    FINDS_NONE(&m, DREVOKAS_MOST_PAGES, DREVOKAS_MOST_PAGES);
    FIRST_REFUSED(&m, 0, DREVOKAS_MOST_PAGES + 1, 16);
    set_word(&m, last_at, PAGE_INVALID);
    FINDS(&m, 0, DREVOKAS_MOST_PAGES, last);
    FINDS_NONE(&m, 0, last);
    set_word(&m, 2047 * 4, SEGMENT_INVALID);
    FINDS(&m, 1, DREVOKAS_MOST_PAGES, last - 255);
    set_word(&m, 0x2000, PAGE_INVALID);
    FINDS(&m, 0, DREVOKAS_MOST_PAGES, 0);
    discard(&m);
}

/* Origin 32767, the last block there is. */
static void test_last_block(void)
{
    struct machine m = machine_of(8);

    m.designation = 0x6000 | 127;
    set_extent(&m, 32767, 1);
    set_word(&m, 0x7ffc, 0x5c00 | 15);
    FINDS_NONE(&m, 0, 16);
    set_word(&m, 0x5ffc, PAGE_INVALID);
    FINDS(&m, 0, 16, 15);
    FINDS_NONE(&m, 0, 15);
    FIRST_REFUSED(&m, 0, 17, 16);
    m.designation = 0x6000 | 126;
    FINDS(&m, 4, 16, 4);
    discard(&m);
}

/* ---- what has no effect, and what is seen of it ---- */

/* Prefix, PSW, control registers, keys and the bits of the designation that are ignored. */
static void test_ignored(void)
{
    struct machine m = backed_guest();

    set_word(&m, entry_at(22), PAGE_INVALID);
    m.record.at[AT_REQUESTS] = 0xff;
    m.record.at[AT_MODE] |= 0xf1;
    memset(m.record.at + AT_CONTROLS, 0xff, 3);
    put32(m.record.at + AT_PREFIX, 0x80003fffu);
    memset(m.record.at + AT_PSW, 0xff, AT_RESERVED - AT_PSW);
    memset(m.record.at + AT_CR0, 0xff, DREVOKAS_RECORD_LENGTH - AT_CR0);
    memset(m.keys.at, 0xff, m.keys.len);
    m.designation |= 0x80000f80u;
    FINDS(&m, 0, PAGES, 22);
    FINDS_NONE(&m, 0, 22);
    FIRST_REFUSED(&m, 1, 0, 16);
    discard(&m);
}

/* The desk backs what is found, until there is none; then every page can be reached. */
static void test_until_none(void)
{
    struct machine m = guest();
    struct handed h = handed_of(&m);
    uint32_t page, added = 0, valid = 16;
    uint64_t where = UNTOUCHED, answer;

    while ((answer = first_unbacked(&drevokas_desk, &h, 0, PAGES, &where)) == answer_of(DREVOKAS_GOOD, 0)
           && change_page(&drevokas_desk, &h, ADD, drevokas_page(where), 12, &valid) == answer_of(DREVOKAS_GOOD, 0))
        EXPECT(drevokas_page(where) == 2 * added++ + 1);
    EXPECT(answer == answer_of(DREVOKAS_NONE, 0) && where == 0);
    EXPECT(added == 16 && valid == PAGES);
    for (page = 0; page < PAGES; page++)
        REACHES(&m, DREVOKAS_STORE, page << 12, (page % 2 ? 12 : frame_of(page)) << 12);
    discard(&m);
}

/* One frame has everything. */
static void test_one_frame(void)
{
    struct machine m = machine_of(1);

    m.designation = 0;
    set_word(&m, 0, 0x40);
    FINDS_NONE(&m, 0, 16);
    set_word(&m, 0x48, PAGE_INVALID);
    FINDS(&m, 0, 16, 2);
    /* the last sixteen entries of the storage; then none */
    set_word(&m, 0, 0xfc0);
    FINDS_NONE(&m, 0, 16);
    set_word(&m, 0, 0x1000);
    FINDS(&m, 0, 16, 0);
    m.designation = 0x1000;
    FINDS(&m, 8, 16, 8);
    discard(&m);
}

static void (*const tests[])(void) = {
    test_header,
    test_every_range,
    test_one_page,
    test_empty_ranges,
    test_refused_ranges,
    test_range_before_pages,
    test_refusals_in_order,
    test_records,
    test_segment_entries,
    test_page_and_segment,
    test_table_lengths,
    test_segment_table_lengths,
    test_ways,
    test_entry_bits,
    test_frames_past_storage,
    test_misplaced_entries,
    test_extents,
    test_largest,
    test_last_block,
    test_ignored,
    test_until_none,
    test_one_frame,
};

int main(void)
{
    size_t i;

    for (i = 0; i < sizeof tests / sizeof *tests; i++)
        tests[i]();
    return expect_end();
}
