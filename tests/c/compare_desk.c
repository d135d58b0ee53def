/* Compares the page desk with the plain C version and with the words of request 3/12, on pseudo-random tables, and sees that
   every answer of each operation is among them, and each of the three reasons of refusal 14 by itself.
   Usage: compare_desk [cases [seed]] */
#include "../../bench/plain_desk.h"
#include "desk_cases.h"

#define CASES 300000ul
#define SEED 312
#define CALLS_OF_A_GUEST 12

#define LIST CHANGES
#define OPERATIONS (CHANGES + 1)

static const char *const names[OPERATIONS] = {"add", "remove", "protect", "list"};

/* The reasons of refusal 14, as bits. */
enum { IN_GUEST_FRAME = 1, SECOND_PAGE = 2, SEGMENT_ENTRY = 4, REASONS = 8 };

/* How often each answer was given: by refusal, done, or code 32; and how often for these reasons. */
enum { AS_DONE = 16, AS_CODE_32, ANSWERS };

struct tally {
    unsigned long given[OPERATIONS][ANSWERS], because[CHANGES][REASONS];
};

/* ---- request 3/12 by its words ---- */

static uint32_t frame_named(const struct desk_case *c, uint32_t page)
{
    return (get32(c->storage + page_at(c, page)) & 0x7ffff000u) >> 12;
}

static uint32_t valid_pages(const struct desk_case *c)
{
    uint32_t page, valid = 0;

    for (page = 0; page < c->pages; page++)
        valid += (uint32_t)valid_page(c, page);
    return valid;
}

/* Whether an entry that describes the extent lies in a guest frame. */
static int entry_in_guest_frame(const struct desk_case *c)
{
    int describing[CASE_FRAMES] = {0};
    uint32_t i;

    for (i = 0; i < c->frames; i++)
        describing[i] = describes(c, i);
    for (i = 0; i < c->pages; i++)
        if (valid_page(c, i) && frame_named(c, i) < c->frames && describing[frame_named(c, i)])
            return 1;
    return 0;
}

/* The reasons that there are to refuse a change of an entry, which makes another of it. */
static unsigned reasons(struct desk_case *c, uint32_t at, uint32_t entry)
{
    uint32_t before = get32(c->storage + at), page;
    unsigned found = is_segment_entry(c, at) ? SEGMENT_ENTRY : 0;

    for (page = 0; page < c->pages; page++)
        if (page != c->page && page_at(c, page) == at)
            found |= SECOND_PAGE;
    put32(c->storage + at, entry);
    if (entry_in_guest_frame(c))
        found |= IN_GUEST_FRAME;
    put32(c->storage + at, before);
    return found;
}

/* The answer of a change; the entry and what becomes of it where that is asked. */
static uint64_t change_answer(struct desk_case *c, enum change change, uint32_t *at, uint32_t *entry, struct tally *t)
{
    uint64_t head = head_answer(c);
    unsigned found;

    if (head != answer_of(DREVOKAS_GOOD, 0))
        return head;
    *at = c->page < c->pages ? page_at(c, c->page) : NOWHERE;
    if (*at == NOWHERE)
        return answer_of(DREVOKAS_REFUSED, 10);
    if (valid_page(c, c->page) != (change != ADD))
        return answer_of(DREVOKAS_REFUSED, change == ADD ? 11 : 12);
    if (change == ADD && c->frame >= c->frames)
        return answer_of(DREVOKAS_REFUSED, 13);
    *entry = changed_entry(change, get32(c->storage + *at), c->frame);
    found = reasons(c, *at, *entry);
    t->because[change][found]++;
    return found ? answer_of(DREVOKAS_REFUSED, 14) : head;
}

/* ---- comparing ---- */

/* What one of the two is handed, with a storage and a number of its own. */
struct side {
    uint8_t storage[CASE_BYTES];
    uint32_t valid, words[CASE_PAGES + 4];
};

static struct handed handed_to(struct desk_case *c, struct side *s)
{
    struct handed h = {c->record, s->storage, c->keys, c->record_len, c->storage_len, c->keys_len, c->designation};

    return h;
}

static int differs(const char *who, const char *operation, uint64_t answer, uint64_t expected)
{
    printf("%s, %s: %016llx, not %016llx, or what it leaves is not as expected\n", who, operation,
           (unsigned long long)answer, (unsigned long long)expected);
    return 0;
}

/* Whether a change answers and leaves what is expected. */
static int same_change(const struct desk *d, struct side *s, struct desk_case *c, enum change change, uint64_t expected)
{
    int done = expected == answer_of(DREVOKAS_GOOD, 0);
    struct handed h = handed_to(c, s);
    uint64_t answer;

    s->valid = c->valid;
    answer = change_page(d, &h, change, c->page, c->frame, &s->valid);
    if (answer == expected && s->valid == (done ? changed_number(change, c->valid) : c->valid)
        && memcmp(s->storage, c->storage, CASE_BYTES) == 0)
        return 1;
    return differs(d == &plain_desk ? "plain" : "drevokas", names[change], answer, expected);
}

static int same_list(const struct desk *d, struct side *s, struct desk_case *c, uint64_t expected)
{
    uint32_t page, pages = drevokas_kind(expected) == DREVOKAS_GOOD ? c->pages : 0;
    struct handed h = handed_to(c, s);
    uint64_t answer;
    int same;

    for (page = 0; page < CASE_PAGES + 4; page++)
        s->words[page] = WORD_BEFORE(page);
    answer = list_pages(d, &h, s->words, c->count);
    same = answer == expected && memcmp(s->storage, c->storage, CASE_BYTES) == 0;
    for (page = 0; page < pages; page++)
        same &= s->words[page] == (valid_page(c, page) ? frame_named(c, page) : DREVOKAS_NO_FRAME);
    for (; page < CASE_PAGES + 4; page++)
        same &= s->words[page] == WORD_BEFORE(page);
    return same ? 1 : differs(d == &plain_desk ? "plain" : "drevokas", "list", answer, expected);
}

static void count_answer(struct tally *t, int operation, uint64_t answer)
{
    uint32_t kind = drevokas_kind(answer);

    t->given[operation][kind == DREVOKAS_REFUSED ? drevokas_number(answer) : kind == DREVOKAS_GOOD ? AS_DONE : AS_CODE_32]++;
}

/* A change by both, and whether the number of valid pages stays true. */
static int compare_change(struct desk_case *c, struct side *sides, enum change change, struct tally *t)
{
    uint32_t at = NOWHERE, entry = 0, before = valid_pages(c);
    uint64_t expected = change_answer(c, change, &at, &entry, t);

    count_answer(t, change, expected);
    if (expected == answer_of(DREVOKAS_GOOD, 0)) {
        put32(c->storage + at, entry);
        if (valid_pages(c) != changed_number(change, before)) {
            printf("%s: the number of valid pages is not true\n", names[change]);
            return 0;
        }
    }
    return same_change(&drevokas_desk, &sides[0], c, change, expected)
           & same_change(&plain_desk, &sides[1], c, change, expected);
}

static int compare_list(struct desk_case *c, struct side *sides, struct tally *t)
{
    uint64_t expected = head_answer(c);

    if (expected == answer_of(DREVOKAS_GOOD, 0))
        expected = c->count < c->pages ? answer_of(DREVOKAS_REFUSED, 15) : listed(valid_pages(c));
    count_answer(t, LIST, expected);
    return same_list(&drevokas_desk, &sides[0], c, expected) & same_list(&plain_desk, &sides[1], c, expected);
}

/* One case, whose head has a defect now and then. */
static int compare_one(struct desk_case *c, struct tally *t)
{
    static struct side sides[2];
    uint8_t record[DREVOKAS_LONG_RECORD_LENGTH];
    size_t record_len = c->record_len;
    uint32_t operation = one_of(c, OPERATIONS);
    int same;

    next_call(c);
    memcpy(record, c->record, sizeof record);
    break_some_heads(c);
    memcpy(sides[0].storage, c->storage, CASE_BYTES);
    memcpy(sides[1].storage, c->storage, CASE_BYTES);
    same = operation == LIST ? compare_list(c, sides, t) : compare_change(c, sides, (enum change)operation, t);
    if (!same)
        printf("frames %lu, designation %08lx, first host page %lu, pages %lu; page %lu, frame %lu, words %lu\n",
               (unsigned long)c->frames, (unsigned long)c->designation, (unsigned long)c->first, (unsigned long)c->pages,
               (unsigned long)c->page, (unsigned long)c->frame, (unsigned long)c->count);
    memcpy(c->record, record, sizeof record);
    c->record_len = record_len;
    return same;
}

/* ---- all answers ---- */

static int possible(int operation, int answer)
{
    if (answer >= AS_DONE || (answer >= 1 && answer <= 4) || answer == 7)
        return 1;
    if (operation == LIST)
        return answer == 15;
    return answer == 10 || answer == 14 || (operation == ADD ? answer == 11 || answer == 13 : answer == 12);
}

/* Prints how often each answer was given; whether all that are possible were, and no others. */
static int all_given(const struct tally *t)
{
    int answer, operation, all = 1;

    printf("%-12s %10s %10s %10s %10s\n", "", names[0], names[1], names[2], names[3]);
    for (answer = 1; answer < ANSWERS; answer++) {
        if (answer == 5 || answer == 6 || answer == 8 || answer == 9)
            continue;
        if (answer < AS_DONE)
            printf("refused %4d", answer);
        else
            printf("%-12s", answer == AS_DONE ? "done" : "code 32");
        for (operation = 0; operation < OPERATIONS; operation++) {
            printf(" %10lu", t->given[operation][answer]);
            all &= (t->given[operation][answer] != 0) == possible(operation, answer);
        }
        printf("\n");
    }
    return all;
}

/* Prints how often 14 was given for each of its reasons; whether each was one by itself. */
static int all_reasons(const struct tally *t)
{
    static const char *const which[REASONS] = {"none", "frame", "page", "frame, page", "segment", "frame, segment",
                                               "page, segment", "all three"};
    int all = 1, change;
    unsigned found;

    printf("14 because of\n");
    for (found = 1; found < REASONS; found++) {
        printf("%-14s", which[found]);
        for (change = 0; change < CHANGES; change++) {
            printf(" %10lu", t->because[change][found]);
            all &= t->because[change][found] != 0 || (found & (found - 1)) != 0;
        }
        printf("\n");
    }
    return all;
}

static struct tally told;

static int compare_next(struct desk_case *c)
{
    return compare_one(c, &told);
}

int main(int argc, char **argv)
{
    if (!all_the_same(argc, argv, CASES, SEED, CALLS_OF_A_GUEST, next_guest, compare_next))
        return 1;
    if (!all_given(&told)) {
        printf("an answer is missing, or one that an operation cannot give was given\n");
        return 1;
    }
    if (!all_reasons(&told)) {
        printf("a reason of refusal 14 is missing\n");
        return 1;
    }
    return 0;
}
