/* Compares the first unbacked page with the plain C version, with the words of request 4/12 and with the library's own list, on
   pseudo-random tables, and sees that every answer is among them, and each reason for which a page is not valid: of the first
   page asked about, of a later one of its segment, and in a later segment.
   Usage: compare_unbacked [cases [seed]] */
#include "../../bench/plain_desk.h"
#include "desk_cases.h"

#define CASES 300000ul
#define SEED 412
#define CALLS_OF_A_GUEST 12

/* What is answered: a refusal by its number, the last one for either reason; code 32; none, of no pages, of pages of one
   segment and of several; found. */
enum { AS_ABOVE = 16, AS_PAST, AS_CODE_32, AS_EMPTY, AS_NONE, AS_NONE_OF_SEVERAL, AS_FOUND, ANSWERS };

/* Why a page is not valid, and where it was found. */
enum {
    NO_SEGMENT_ENTRY,
    SEGMENT_ENTRY_INVALID,
    SEGMENT_ENTRY_MALFORMED,
    PAST_PAGE_TABLE,
    PAST_STORAGE,
    PAGE_ENTRY_INVALID,
    PAGE_ENTRY_MALFORMED,
    REASONS
};
enum { AS_FIRST, IN_ITS_SEGMENT, IN_A_LATER_SEGMENT, PLACES };

struct tally {
    unsigned long given[ANSWERS], because[REASONS][PLACES];
};

/* A call, and what is expected of it. */
struct asked {
    uint32_t from, to;
    uint64_t answer, where;
};

/* ---- request 4/12 by its words ---- */

static int reason_of(const struct desk_case *c, uint32_t page)
{
    uint32_t host = c->first + page, at = segment_at(c, host / 256), entry;

    if (at == NOWHERE)
        return NO_SEGMENT_ENTRY;
    entry = get32(c->storage + at);
    if (entry & SEGMENT_INVALID)
        return SEGMENT_ENTRY_INVALID;
    if (entry & BIT(0))
        return SEGMENT_ENTRY_MALFORMED;
    if (host % 256 / 16 > (entry & 15))
        return PAST_PAGE_TABLE;
    if (page_at(c, page) == NOWHERE)
        return PAST_STORAGE;
    return get32(c->storage + page_at(c, page)) & PAGE_INVALID ? PAGE_ENTRY_INVALID : PAGE_ENTRY_MALFORMED;
}

static int place_of(const struct desk_case *c, uint32_t from, uint32_t page)
{
    if (page == from)
        return AS_FIRST;
    return (c->first + from) / 256 == (c->first + page) / 256 ? IN_ITS_SEGMENT : IN_A_LATER_SEGMENT;
}

/* Sets what is expected: an answer and *where. */
static void expect_by_words(const struct desk_case *c, struct asked *a)
{
    a->where = UNTOUCHED;
    a->answer = head_answer(c);
    if (drevokas_kind(a->answer) == DREVOKAS_INTERCEPTED)
        a->where = 0;
    if (a->answer != answer_of(DREVOKAS_GOOD, 0))
        return;
    a->answer = answer_of(DREVOKAS_REFUSED, 16);
    if (a->from > a->to || a->to > c->pages)
        return;
    for (a->where = a->from; a->where < a->to && valid_page(c, (uint32_t)a->where); a->where++)
        ;
    a->answer = answer_of(a->where < a->to ? DREVOKAS_GOOD : DREVOKAS_NONE, 0);
    if (a->where == a->to)
        a->where = 0;
}

static int answer_given(const struct desk_case *c, const struct asked *a)
{
    switch (drevokas_kind(a->answer)) {
    case DREVOKAS_REFUSED:
        return drevokas_number(a->answer) < 16 ? (int)drevokas_number(a->answer) : a->from > a->to ? AS_ABOVE : AS_PAST;
    case DREVOKAS_INTERCEPTED:
        return AS_CODE_32;
    case DREVOKAS_GOOD:
        return AS_FOUND;
    default:
        if (a->from == a->to)
            return AS_EMPTY;
        return place_of(c, a->from, a->to - 1) == IN_A_LATER_SEGMENT ? AS_NONE_OF_SEVERAL : AS_NONE;
    }
}

static void count_answer(struct tally *t, const struct desk_case *c, const struct asked *a)
{
    uint32_t page = drevokas_page(a->where);

    t->given[answer_given(c, a)]++;
    if (answer_given(c, a) == AS_FOUND)
        t->because[reason_of(c, page)][place_of(c, a->from, page)]++;
}

/* ---- the call ---- */

/* Every page in reach becomes valid, but for a few. */
static void back_pages(struct desk_case *c)
{
    uint32_t page, at, few;

    for (page = 0; page < c->pages; page++) {
        at = page_at(c, page);
        if (at != NOWHERE && !is_segment_entry(c, at) && !valid_page(c, page))
            put32(c->storage + at, one_of(c, c->frames) << 12);
    }
    for (few = one_of(c, 3); few > 0; few--)
        put_page(c, one_of(c, c->pages), one_of(c, c->frames));
}

/* A guest, most of whose pages are valid three times out of four. Now and then the segment table's length leaves out segments
   whose entries are good. */
static void next_tables(struct desk_case *c)
{
    uint32_t last;

    next_guest(c);
    if (one_of(c, 4))
        back_pages(c);
    last = (c->first + c->pages - 1) / 4096;
    if (last > 0 && one_of(c, 8) == 0)
        c->designation = (c->designation & ~127u) | (last - 1);
}

/* Any page, or one at the end of the extent or near that of a segment. */
static uint32_t some_end(struct desk_case *c)
{
    uint32_t page = one_of(c, c->pages + 1);

    switch (one_of(c, 4)) {
    case 0:
        page = 256 - c->first % 256 + 255 + one_of(c, 3) - 256 * one_of(c, 2);
        return page <= c->pages ? page : c->pages;
    case 1:
        return one_of(c, 2) ? 0 : c->pages;
    default:
        return page;
    }
}

/* A number that no page has. */
static uint32_t past_extent(struct desk_case *c)
{
    switch (one_of(c, 4)) {
    case 0:
        return 0xffffffffu - one_of(c, 2);
    case 1:
        return 0u - c->first + one_of(c, c->pages);
    default:
        return c->pages + 1 + one_of(c, 2);
    }
}

static void next_range(struct desk_case *c, struct asked *a)
{
    uint32_t one = some_end(c), other = some_end(c);

    a->from = one < other ? one : other;
    a->to = one < other ? other : one;
    switch (one_of(c, 16)) {
    case 0:
        a->to = a->from;
        break;
    case 1:
        a->to = past_extent(c);
        break;
    case 2:
        a->from = one_of(c, 2) ? a->to + 1 : past_extent(c);
        break;
    default:
        break;
    }
}

/* ---- comparing ---- */

static int differs(const char *who, uint64_t answer, uint64_t where, const struct asked *a)
{
    printf("%s: %016llx at %llx, not %016llx at %llx, or bytes were changed\n", who, (unsigned long long)answer,
           (unsigned long long)where, (unsigned long long)a->answer, (unsigned long long)a->where);
    return 0;
}

/* Whether the call answers what is expected, and leaves every byte. */
static int same_first(const struct desk *d, struct desk_case *c, const struct asked *a)
{
    struct handed h = {c->record, c->storage, c->keys, c->record_len, c->storage_len, c->keys_len, c->designation};
    static struct desk_case before;
    uint64_t where = UNTOUCHED, answer;

    memcpy(&before, c, sizeof before);
    answer = first_unbacked(d, &h, a->from, a->to, &where);
    if (answer == a->answer && where == a->where && memcmp(&before, c, sizeof before) == 0)
        return 1;
    return differs(d == &plain_desk ? "plain" : "drevokas", answer, where, a);
}

/* Whether the list has its first page that is not valid where that is expected. */
static int same_listed(struct desk_case *c, const struct asked *a)
{
    struct handed h = {c->record, c->storage, c->keys, c->record_len, c->storage_len, c->keys_len, c->designation};
    static uint32_t words[CASE_PAGES];
    uint64_t answer = list_pages(&drevokas_desk, &h, words, CASE_PAGES);
    uint32_t page = a->from;

    if (drevokas_kind(a->answer) != DREVOKAS_GOOD && drevokas_kind(a->answer) != DREVOKAS_NONE)
        return 1;
    while (page < a->to && words[page] != DREVOKAS_NO_FRAME)
        page++;
    if (page < a->to ? a->answer == answer_of(DREVOKAS_GOOD, 0) && page == a->where : a->answer == answer_of(DREVOKAS_NONE, 0))
        return 1;
    return differs("list", answer, page, a);
}

/* One case, whose head has a defect now and then. */
static int compare_one(struct desk_case *c, struct tally *t)
{
    uint8_t record[DREVOKAS_LONG_RECORD_LENGTH];
    size_t record_len = c->record_len;
    struct asked a;
    int same;

    next_call(c);
    next_range(c, &a);
    memcpy(record, c->record, sizeof record);
    break_some_heads(c);
    expect_by_words(c, &a);
    count_answer(t, c, &a);
    same = same_first(&drevokas_desk, c, &a) & same_first(&plain_desk, c, &a) & same_listed(c, &a);
    if (!same)
        printf("frames %lu, designation %08lx, first host page %lu, pages %lu; from %lu to %lu\n", (unsigned long)c->frames,
               (unsigned long)c->designation, (unsigned long)c->first, (unsigned long)c->pages, (unsigned long)a.from,
               (unsigned long)a.to);
    memcpy(c->record, record, sizeof record);
    c->record_len = record_len;
    return same;
}

/* ---- all answers ---- */

/* Prints how often each answer was given; whether all that are possible were. */
static int all_given(const struct tally *t)
{
    static const char *const names[ANSWERS] = {[1] = "refused 1", [2] = "refused 2", [3] = "refused 3", [4] = "refused 4",
        [7] = "refused 7", [AS_ABOVE] = "refused 16, A above B", [AS_PAST] = "refused 16, B past the extent",
        [AS_CODE_32] = "code 32", [AS_EMPTY] = "none of no pages", [AS_NONE] = "none of one segment",
        [AS_NONE_OF_SEVERAL] = "none of several segments", [AS_FOUND] = "found"};
    int answer, all = 1;

    for (answer = 0; answer < ANSWERS; answer++) {
        if (names[answer] != NULL)
            printf("%-30s %10lu\n", names[answer], t->given[answer]);
        all &= (t->given[answer] != 0) == (names[answer] != NULL);
    }
    return all;
}

/* Prints how often a page was found for each reason, by its place; whether all that are possible were. A page after the first
   of its segment that is asked about is not found because of the segment's entry. */
static int all_reasons(const struct tally *t)
{
    static const char *const names[REASONS] = {"segment entry out of reach", "segment entry invalid", "segment entry malformed",
                                               "past the page table's length", "page entry past the storage",
                                               "page entry invalid", "page entry malformed"};
    int reason, place, all = 1;

    printf("%-30s %10s %10s %10s\n", "found because of", "first", "same", "later");
    for (reason = 0; reason < REASONS; reason++) {
        printf("%-30s", names[reason]);
        for (place = 0; place < PLACES; place++) {
            printf(" %10lu", t->because[reason][place]);
            all &= (t->because[reason][place] != 0) == (place != IN_ITS_SEGMENT || reason >= PAST_PAGE_TABLE);
        }
        printf("\n");
    }
    return all;
}

static struct tally told;

static int compare_next(struct desk_case *c)
{
    return compare_one(c, &told);
}

int main(int argc, char **argv)
{
    if (!all_the_same(argc, argv, CASES, SEED, CALLS_OF_A_GUEST, next_tables, compare_next))
        return 1;
    if (!all_given(&told)) {
        printf("an answer is missing, or one that the operation cannot give was given\n");
        return 1;
    }
    if (!all_reasons(&told)) {
        printf("a reason for which a page is not valid is missing\n");
        return 1;
    }
    return 0;
}
