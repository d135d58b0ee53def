/* Calls per second of the page desk and of its plain C version, one after the other in each round, after checking that both
   leave the same. A change is taken back after each call, so that every call does the same.
 *
 *   bench_desk                                 all rows, as a table
 *   bench_desk ROW PAGES plain|drevokas CALLS  so many calls of one row and nothing else, for an instruction counter
 */
#define _POSIX_C_SOURCE 199309L
#include <time.h>

#include "plain_desk.h"

#define ROUNDS 15
#define SLICE_SECONDS 0.004

/* The segment table in frames 0 and 1, the page tables in the next 512; the others are the guest's. */
#define FRAMES 4096u
#define TABLES 514u
#define PAGE_TABLES 0x2000u

#define SMALL 16u
#define LARGE DREVOKAS_MOST_PAGES

#define LIST CHANGES
#define FIRST (CHANGES + 1)

/* Which operation, on an extent of which all pages are valid (but for the one to be added), or every second: then the first
   unbacked page is page 1. */
struct row {
    const char *name;
    int operation, half;
};

static const struct row rows[] = {
    {"list", LIST, 0},
    {"list, half valid", LIST, 1},
    {"add", ADD, 0},
    {"add, half valid", ADD, 1},
    {"remove", REMOVE, 0},
    {"remove, half valid", REMOVE, 1},
    {"protect", PROTECT, 0},
    {"protect, half valid", PROTECT, 1},
    {"first unbacked", FIRST, 0},
    {"first unbacked, half valid", FIRST, 1},
};

#define ROWS (sizeof rows / sizeof *rows)

/* What the calls of one row are made with. */
struct rig {
    uint8_t record[DREVOKAS_RECORD_LENGTH], *storage, *keys;
    struct handed handed;
    uint32_t pages, page, valid, *words;
    uint64_t where;
};

static void *memory(size_t bytes)
{
    void *p = calloc(1, bytes);

    if (p == NULL) {
        fputs("bench_desk: no memory\n", stderr);
        exit(2);
    }
    return p;
}

static void build_record(struct rig *r)
{
    memset(r->record, 0, sizeof r->record);
    put16(r->record + AT_LENGTH, DREVOKAS_RECORD_LENGTH);
    r->record[AT_VERSION] = DREVOKAS_RECORD_VERSION;
    r->record[AT_MODE] = MODE_XA;
    put16(r->record + AT_EXTENT, r->pages / DREVOKAS_BLOCK_PAGES);
}

/* The page that is added, removed or protected is in the middle of the extent; those that are not valid are odd. */
static void build_tables(struct rig *r, const struct row *row)
{
    uint32_t i;

    for (i = 0; i < LARGE / 256; i++)
        put32(r->storage + i * 4, (PAGE_TABLES + i * 0x400) | 15);
    for (i = 0; i < r->pages; i++)
        put32(r->storage + PAGE_TABLES + i * 4, row->half && i % 2 ? PAGE_INVALID : (TABLES + i % (FRAMES - TABLES)) << 12);
    r->page = r->pages / 2 + (row->operation == ADD);
    if (row->operation == ADD)
        put32(r->storage + PAGE_TABLES + r->page * 4, PAGE_INVALID);
}

static void build(struct rig *r, const struct row *row, uint32_t pages)
{
    r->pages = pages;
    r->valid = 0;
    r->where = 0;
    r->storage = memory((size_t)FRAMES * DREVOKAS_FRAME_BYTES);
    r->keys = memory(FRAMES);
    r->words = memory(pages * sizeof *r->words);
    build_record(r);
    build_tables(r, row);
    r->handed.record = r->record;
    r->handed.record_len = sizeof r->record;
    r->handed.storage = r->storage;
    r->handed.storage_len = (size_t)FRAMES * DREVOKAS_FRAME_BYTES;
    r->handed.keys = r->keys;
    r->handed.keys_len = FRAMES;
    r->handed.designation = 127;
}

static void tear_down(struct rig *r)
{
    free(r->storage);
    free(r->keys);
    free(r->words);
}

static uint64_t call(const struct desk *d, const struct row *row, struct rig *r)
{
    if (row->operation == LIST)
        return list_pages(d, &r->handed, r->words, r->pages);
    if (row->operation == FIRST)
        return first_unbacked(d, &r->handed, 0, r->pages, &r->where);
    return change_page(d, &r->handed, (enum change)row->operation, r->page, TABLES, &r->valid);
}

static double now(void)
{
    struct timespec t;

    clock_gettime(CLOCK_MONOTONIC, &t);
    return (double)t.tv_sec + (double)t.tv_nsec * 1e-9;
}

/* Keeps the answers from being thrown away. */
static volatile uint64_t sink;

/* The seconds that so many calls take. */
static double time_calls(const struct desk *d, const struct row *row, struct rig *r, unsigned long calls)
{
    uint8_t *at = r->storage + PAGE_TABLES + r->page * 4;
    uint32_t entry = get32(at);
    double start = now();
    uint64_t sum = 0;
    unsigned long i;

    for (i = 0; i < calls; i++) {
        sum += call(d, row, r);
        put32(at, entry);
    }
    sink = sum;
    return now() - start;
}

/* A number of calls that takes a slice of time at least. */
static unsigned long slice_of(const struct desk *d, const struct row *row, struct rig *r)
{
    unsigned long calls = 1;

    while (time_calls(d, row, r, calls) < SLICE_SECONDS)
        calls *= 2;
    return calls;
}

/* The answer that a row is to have. */
static uint64_t answer_to(const struct row *row, uint32_t pages)
{
    if (row->operation == LIST)
        return listed(row->half ? pages / 2 : pages);
    return answer_of(row->operation == FIRST && !row->half ? DREVOKAS_NONE : DREVOKAS_GOOD, 0);
}

/* Whether both do the call, and leave the same. */
static int row_is_true(const struct row *row, uint32_t pages)
{
    struct rig a, b;
    uint64_t ours, plain;
    int same;

    build(&a, row, pages);
    build(&b, row, pages);
    ours = call(&drevokas_desk, row, &a);
    plain = call(&plain_desk, row, &b);
    same = ours == plain && ours == answer_to(row, pages) && a.valid == b.valid
           && memcmp(a.storage, b.storage, a.handed.storage_len) == 0
           && memcmp(a.words, b.words, pages * sizeof *a.words) == 0 && a.where == b.where
           && a.where == (row->operation == FIRST && row->half);
    tear_down(&a);
    tear_down(&b);
    if (!same)
        printf("%s, %lu pages: %016llx, plain %016llx, or they leave different bytes\n", row->name, (unsigned long)pages,
               (unsigned long long)ours, (unsigned long long)plain);
    return same;
}

static void compare(const struct row *row, uint32_t pages)
{
    struct rig r;
    unsigned long our_calls, plain_calls;
    double ours = 1e9, plain = 1e9, time;
    int i;

    build(&r, row, pages);
    our_calls = slice_of(&drevokas_desk, row, &r);
    plain_calls = slice_of(&plain_desk, row, &r);
    for (i = 0; i < ROUNDS; i++) {
        time = time_calls(&drevokas_desk, row, &r, our_calls) / (double)our_calls;
        ours = time < ours ? time : ours;
        time = time_calls(&plain_desk, row, &r, plain_calls) / (double)plain_calls;
        plain = time < plain ? time : plain;
    }
    printf("%-30s %6lu %14.0f %14.0f %7.2f\n", row->name, (unsigned long)pages, 1 / ours, 1 / plain, plain / ours);
    fflush(stdout);
    tear_down(&r);
}

/* So many calls of one row. */
static int count(const char *name, uint32_t pages, const char *who, unsigned long calls)
{
    struct rig r;
    size_t i;

    for (i = 0; i < ROWS && strcmp(rows[i].name, name) != 0; i++)
        ;
    if (i == ROWS || pages == 0 || pages > LARGE || pages % DREVOKAS_BLOCK_PAGES != 0) {
        fputs("bench_desk: no such row\n", stderr);
        return 2;
    }
    build(&r, &rows[i], pages);
    time_calls(strcmp(who, "plain") == 0 ? &plain_desk : &drevokas_desk, &rows[i], &r, calls);
    tear_down(&r);
    return 0;
}

int main(int argc, char **argv)
{
    static const uint32_t sizes[] = {SMALL, LARGE};
    size_t i;

    if (argc == 5)
        return count(argv[1], (uint32_t)strtoul(argv[2], NULL, 10), argv[3], strtoul(argv[4], NULL, 10));
    for (i = 0; i < 2 * ROWS; i++)
        if (!row_is_true(&rows[i / 2], sizes[i % 2]))
            return 1;
    printf("Calls per second on %u frames, best of %d rounds; the ratio is drevokas/plain.\n\n", FRAMES, ROUNDS);
    printf("%-30s %6s %14s %14s %7s\n", "case", "pages", "drevokas", "plain", "ratio");
    for (i = 0; i < 2 * ROWS; i++)
        compare(&rows[i / 2], sizes[i % 2]);
    return 0;
}
