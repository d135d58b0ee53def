/* Calls per second of drevokas and of the plain C versions, side by side. In each round every row is timed for both,
   one after the other, and the best of a row's rounds counts. Before that, both must give the same on pseudo-random
   cases. */
#define _POSIX_C_SOURCE 199309L
#include <time.h>

#include "../tests/c/compare.h"

#define COMPARED 100000
#define SEED 7095

#define ROUNDS 25
#define SLICE_SECONDS 0.005
#define ADDRESSES 256

/* What the calls of one row are made with. */
struct rig {
    uint8_t record[DREVOKAS_RECORD_LENGTH], *storage, *keys;
    size_t record_len, frames;
    uint32_t designation, access, addresses[ADDRESSES];
};

/* The guest, with DAT on: page 2 has the segment table, pages 4 and 6 have a page table each, pages 8 to 11 the data.
   Used frames: 0 host segment table, 1 host page tables, 2 to 4 guest tables, 5 to 7 data. */
#define ORIGIN 17u
#define EXTENT 16u
#define SEGMENT_TABLE_PAGE 2u
#define PAGE_TABLE_PAGE 4u
#define DATA_PAGE 8u
#define DATA_PAGES 4u
#define ACCESS_KEY 3u

/* The i-th frame that is used, of 8: one after the other in a small storage, far apart in a large one. */
static uint32_t used_frame(const struct rig *r, uint32_t i)
{
    return r->frames == 8 ? i : i * 577 + 29;
}

/* Gives a guest page an entry in the host's page tables, which share one frame. */
static void map_page(struct rig *r, uint32_t page, uint32_t entry)
{
    uint32_t host = ORIGIN * 16 + page, segment = host / 256;
    uint32_t table = used_frame(r, 1) * 4096 + segment * 1024;

    put32(r->storage + used_frame(r, 0) * 4096 + segment * 4, table | 15);
    put32(r->storage + table + host % 256 * 4, entry);
}

/* A word of the guest page that is in used frame i. */
static void guest_word(struct rig *r, uint32_t i, uint32_t offset, uint32_t value)
{
    put32(r->storage + used_frame(r, i) * 4096 + offset, value);
}

/* Logical segments 0 and 17 have page tables; logical pages 0 to 3 of each are the data pages. */
static void build_guest_tables(struct rig *r)
{
    uint32_t i;

    guest_word(r, 2, 0, PAGE_TABLE_PAGE << 12 | 15);
    guest_word(r, 2, 17 * 4, (PAGE_TABLE_PAGE + 2) << 12 | 15);
    guest_word(r, 2, 5 * 4, SEGMENT_INVALID);
    for (i = 0; i < DATA_PAGES; i++) {
        guest_word(r, 3, i * 4, (DATA_PAGE + i) << 12);
        guest_word(r, 4, i * 4, (DATA_PAGE + i) << 12);
    }
}

static void build_record(struct rig *r)
{
    memset(r->record, 0, sizeof r->record);
    r->record_len = sizeof r->record;
    put16(r->record + AT_LENGTH, DREVOKAS_RECORD_LENGTH);
    r->record[AT_VERSION] = DREVOKAS_RECORD_VERSION;
    r->record[AT_MODE] = MODE_XA;
    put32(r->record + AT_PREFIX, 0x1000);
    put16(r->record + AT_ORIGIN, ORIGIN);
    put16(r->record + AT_EXTENT, EXTENT);
    put32(r->record + AT_PSW, PSW_DAT | PSW_KEY(ACCESS_KEY));
    put32(r->record + AT_PSW + 4, PSW_31);
    put32(r->record + AT_CR0, CR0_FORMAT);
    put32(r->record + AT_CR1, SEGMENT_TABLE_PAGE << 12 | 127);
}

/* Addresses in the data pages of logical segments 0 and 17. */
static void choose_addresses(struct rig *r)
{
    uint32_t i;

    for (i = 0; i < ADDRESSES; i++)
        r->addresses[i] = (i % 2 ? 17u << 20 : 0) + i / 2 % DATA_PAGES * 4096 + i * 1237 % 4096;
}

static int build(struct rig *r, size_t frames)
{
    uint32_t i;

    r->frames = frames;
    r->storage = calloc(frames, DREVOKAS_FRAME_BYTES);
    r->keys = malloc(frames);
    if (r->storage == NULL || r->keys == NULL)
        return 0;
    memset(r->keys, ACCESS_KEY << 4 | 8, frames);
    build_record(r);
    r->designation = used_frame(r, 0) << 12;
    r->access = DREVOKAS_OPERAND_FETCH;
    map_page(r, SEGMENT_TABLE_PAGE, used_frame(r, 2) << 12);
    map_page(r, PAGE_TABLE_PAGE, used_frame(r, 3) << 12);
    map_page(r, PAGE_TABLE_PAGE + 2, used_frame(r, 4) << 12);
    for (i = 0; i < DATA_PAGES; i++)
        map_page(r, DATA_PAGE + i, used_frame(r, 5 + i % 3) << 12);
    build_guest_tables(r);
    choose_addresses(r);
    return 1;
}

static void tear_down(struct rig *r)
{
    free(r->storage);
    free(r->keys);
}

/* ---- what the rows change ---- */

static void as_built(struct rig *r)
{
    (void)r;
}

/* Real addresses of the data pages. */
static void dat_off(struct rig *r)
{
    uint32_t i;

    put32(r->record + AT_PSW, PSW_KEY(ACCESS_KEY));
    for (i = 0; i < ADDRESSES; i++)
        r->addresses[i] = (r->addresses[i] & 0x3fff) + (DATA_PAGE << 12);
}

/* The guest's page tables in another host segment than its segment table and data: each of the three host walks of a call
   needs another host segment entry than the one before it. */
static void two_host_segments(struct rig *r)
{
    const uint32_t far_page = 242;

    map_page(r, far_page, used_frame(r, 3) << 12);
    map_page(r, far_page + 2, used_frame(r, 4) << 12);
    guest_word(r, 2, 0, far_page << 12 | 15);
    guest_word(r, 2, 17 * 4, (far_page + 2) << 12 | 15);
}

static void store(struct rig *r)
{
    r->access = DREVOKAS_STORE;
}

static void no_host_page(struct rig *r)
{
    uint32_t i;

    for (i = 0; i < DATA_PAGES; i++)
        map_page(r, DATA_PAGE + i, PAGE_INVALID);
}

static void no_segment(struct rig *r)
{
    uint32_t i;

    for (i = 0; i < ADDRESSES; i++)
        r->addresses[i] = (r->addresses[i] & 0xfffff) + (5u << 20);
}

static void other_key(struct rig *r)
{
    put32(r->record + AT_PSW, PSW_DAT | PSW_KEY(ACCESS_KEY + 1));
}

static void bad_length(struct rig *r)
{
    r->record_len = DREVOKAS_RECORD_LENGTH - 1;
}

static void bad_access(struct rig *r)
{
    r->access = 3;
}

/* Entries of both of the guest's segments, and of its pages in both tables. */

static void put_segments(struct rig *r, uint32_t entry)
{
    guest_word(r, 2, 0, entry);
    guest_word(r, 2, 17 * 4, entry);
}

static void put_pages(struct rig *r, uint32_t entry)
{
    uint32_t i;

    for (i = 0; i < DATA_PAGES; i++) {
        guest_word(r, 3, i * 4, entry);
        guest_word(r, 4, i * 4, entry);
    }
}

static void map_data(struct rig *r, uint32_t entry)
{
    uint32_t i;

    for (i = 0; i < DATA_PAGES; i++)
        map_page(r, DATA_PAGE + i, entry);
}

static void segment_past_table(struct rig *r)
{
    uint32_t i;

    put32(r->record + AT_CR1, SEGMENT_TABLE_PAGE << 12);
    for (i = 0; i < ADDRESSES; i++)
        r->addresses[i] |= 17u << 20;
}

static void segment_past_extent(struct rig *r)
{
    put32(r->record + AT_CR1, EXTENT << 16 | 127);
}

static void no_host_segment_entry(struct rig *r)
{
    map_page(r, SEGMENT_TABLE_PAGE, PAGE_INVALID);
}

static void segment_malformed(struct rig *r)
{
    put_segments(r, BIT(0));
}

static void page_past_table(struct rig *r)
{
    uint32_t i;

    put_segments(r, PAGE_TABLE_PAGE << 12);
    for (i = 0; i < ADDRESSES; i++)
        r->addresses[i] += 1u << 16;
}

static void page_past_extent(struct rig *r)
{
    put_segments(r, EXTENT << 16 | 15);
}

static void no_host_page_entry(struct rig *r)
{
    map_page(r, PAGE_TABLE_PAGE, PAGE_INVALID);
    map_page(r, PAGE_TABLE_PAGE + 2, PAGE_INVALID);
}

static void no_page(struct rig *r)
{
    put_pages(r, PAGE_INVALID);
}

static void page_malformed(struct rig *r)
{
    put_pages(r, BIT(20));
}

static void byte_past_extent(struct rig *r)
{
    put_pages(r, EXTENT << 16);
}

static void no_frame(struct rig *r)
{
    map_data(r, (uint32_t)r->frames << 12);
}

static void host_page_malformed(struct rig *r)
{
    map_data(r, BIT(20));
}

static void real_no_host_page(struct rig *r)
{
    dat_off(r);
    no_host_page(r);
}

/* Origin 256, the first block that a host segment table of length 0 lacks. */
static void real_no_host_segment(struct rig *r)
{
    dat_off(r);
    put16(r->record + AT_ORIGIN, 256);
}

static void real_past_extent(struct rig *r)
{
    uint32_t i;

    dat_off(r);
    for (i = 0; i < ADDRESSES; i++)
        r->addresses[i] += EXTENT << 16;
}

static void store_protected(struct rig *r)
{
    store(r);
    put_pages(r, DATA_PAGE << 12 | PAGE_PROTECTED);
}

static void store_host_protected(struct rig *r)
{
    store(r);
    map_data(r, used_frame(r, 5) << 12 | PAGE_PROTECTED);
}

static void store_low(struct rig *r)
{
    uint32_t i;

    store(r);
    put32(r->record + AT_CR0, CR0_LOW_PROTECTION);
    for (i = 0; i < ADDRESSES; i++)
        r->addresses[i] = i * 2;
}

static void bad_entry(struct rig *r)
{
    put16(r->record + AT_EXTENT, 0);
}

static void bad_control(struct rig *r)
{
    put32(r->record + AT_CR0, 0);
}

/* 128 data pages, each in a frame of its own, and addresses over all of them; for the large storage only. */
static void many_pages(struct rig *r)
{
    uint32_t i;

    for (i = 0; i < ADDRESSES / 2; i++) {
        map_page(r, DATA_PAGE + i, (i * 31 + 40) << 12);
        guest_word(r, 3, i * 4, (DATA_PAGE + i) << 12);
        guest_word(r, 4, i * 4, (DATA_PAGE + i) << 12);
    }
    for (i = 0; i < ADDRESSES; i++)
        r->addresses[i] = (i % 2 ? 17u << 20 : 0) + (i * 37 % (ADDRESSES / 2)) * 4096 + i * 1237 % 4096;
}

/* ---- timing ---- */

/* Check in translate's shape. */

static uint64_t drevokas_check_only(const uint8_t *record, size_t record_len, const uint8_t *storage,
                                    size_t storage_len, const uint8_t *keys, size_t keys_len, uint32_t designation,
                                    uint32_t address, uint32_t access, uint64_t *where)
{
    (void)storage, (void)storage_len, (void)keys, (void)keys_len;
    (void)designation, (void)address, (void)access, (void)where;
    return drevokas_check(record, record_len);
}

static uint64_t plain_check_only(const uint8_t *record, size_t record_len, const uint8_t *storage,
                                 size_t storage_len, const uint8_t *keys, size_t keys_len, uint32_t designation,
                                 uint32_t address, uint32_t access, uint64_t *where)
{
    (void)storage, (void)storage_len, (void)keys, (void)keys_len;
    (void)designation, (void)address, (void)access, (void)where;
    return plain_check(record, record_len);
}

static double now(void)
{
    struct timespec t;

    clock_gettime(CLOCK_MONOTONIC, &t);
    return (double)t.tv_sec + (double)t.tv_nsec * 1e-9;
}

/* Keeps the answers from being thrown away. */
static volatile uint64_t sink;

/* The seconds that so many calls take. */
static double time_calls(translate_function *f, const struct rig *r, unsigned long calls)
{
    double start = now();
    uint64_t sum = 0, where = 0;
    unsigned long i;

    for (i = 0; i < calls; i++) {
        sum += f(r->record, r->record_len, r->storage, r->frames * DREVOKAS_FRAME_BYTES, r->keys, r->frames,
                 r->designation, r->addresses[i % ADDRESSES], r->access, &where);
        sum += where;
    }
    sink = sum;
    return now() - start;
}

/* A number of calls that takes a slice of time at least. */
static unsigned long slice_of(translate_function *f, const struct rig *r)
{
    unsigned long calls = 256;

    while (time_calls(f, r, calls) < SLICE_SECONDS)
        calls *= 2;
    return calls;
}

struct row {
    const char *name;
    void (*change)(struct rig *);
    translate_function *ours, *plain;
    uint32_t kind, number, stage;
    size_t least_frames;
};

#define TRANSLATE drevokas_translate, plain_translate
#define GOOD TRANSLATE, DREVOKAS_GOOD, 0, DREVOKAS_STAGE_NONE
#define REFUSED(number) TRANSLATE, DREVOKAS_REFUSED, number, DREVOKAS_STAGE_NONE
#define GUEST(number, stage) TRANSLATE, DREVOKAS_PROGRAM_EXCEPTION, number, DREVOKAS_STAGE_##stage
#define HOST(number, stage) TRANSLATE, DREVOKAS_HOST_FAULT, number, DREVOKAS_STAGE_##stage

/* Those behind check are failures alone, in the order of the tests of a byte. */
static const struct row rows[] = {
    {"DAT off, fetch", dat_off, GOOD, 8},
    {"DAT on, fetch", as_built, GOOD, 8},
    {"DAT on, store", store, GOOD, 8},
    {"DAT on, two host segments", two_host_segments, GOOD, 8},
    {"DAT on, fetch from 128 pages", many_pages, GOOD, 4096},
    {"host fault 11 hex", no_host_page, HOST(0x11, HOST_PAGE), 8},
    {"segment translation", no_segment, GUEST(0x10, GUEST_SEGMENT), 8},
    {"key protection", other_key, GUEST(4, NONE), 8},
    {"refusal 1", bad_length, REFUSED(1), 8},
    {"refusal 8", bad_access, REFUSED(8), 8},
    {"check, good", as_built, drevokas_check_only, plain_check_only, DREVOKAS_GOOD, 0, DREVOKAS_STAGE_NONE, 8},
    {"entry fails", bad_entry, TRANSLATE, DREVOKAS_INTERCEPTED, 32, DREVOKAS_STAGE_NONE, 8},
    {"low-address protection", store_low, GUEST(4, NONE), 8},
    {"CR0's format", bad_control, GUEST(0x12, NONE), 8},
    {"segment past table", segment_past_table, GUEST(0x10, GUEST_SEGMENT), 8},
    {"segment past extent", segment_past_extent, GUEST(5, GUEST_SEGMENT), 8},
    {"segment, host fault 11 hex", no_host_segment_entry, HOST(0x11, HOST_PAGE), 8},
    {"segment malformed", segment_malformed, GUEST(0x12, GUEST_SEGMENT), 8},
    {"page past table", page_past_table, GUEST(0x11, GUEST_PAGE), 8},
    {"page past extent", page_past_extent, GUEST(5, GUEST_PAGE), 8},
    {"page, host fault 11 hex", no_host_page_entry, HOST(0x11, HOST_PAGE), 8},
    {"page invalid", no_page, GUEST(0x11, GUEST_PAGE), 8},
    {"page malformed", page_malformed, GUEST(0x12, GUEST_PAGE), 8},
    {"byte past extent", byte_past_extent, GUEST(5, NONE), 8},
    {"byte past extent, DAT off", real_past_extent, GUEST(5, NONE), 8},
    {"host fault 10 hex, DAT off", real_no_host_segment, HOST(0x10, HOST_SEGMENT), 8},
    {"host fault 11 hex, DAT off", real_no_host_page, HOST(0x11, HOST_PAGE), 8},
    {"host fault 12 hex", host_page_malformed, HOST(0x12, HOST_PAGE), 8},
    {"host fault 5, frame", no_frame, HOST(5, HOST_PAGE), 8},
    {"page protection", store_protected, GUEST(4, NONE), 8},
    {"host fault 4", store_host_protected, HOST(4, NONE), 8},
};

#define ROWS (sizeof rows / sizeof *rows)

/* A row with a storage: the calls of a slice for each, and the best rates. */
struct timed {
    const struct row *row;
    struct rig rig;
    unsigned long our_calls, plain_calls;
    double ours, plain;
};

/* Whether the row's calls give the answer that it is named for. */
static int row_is_true(const struct row *row, const struct rig *r)
{
    uint32_t i;

    for (i = 0; i < ADDRESSES; i++) {
        uint64_t where = 0;
        uint64_t answer = row->ours(r->record, r->record_len, r->storage, r->frames * DREVOKAS_FRAME_BYTES, r->keys,
                                    r->frames, r->designation, r->addresses[i], r->access, &where);

        if (drevokas_kind(answer) != row->kind || drevokas_number(answer) != row->number
            || drevokas_stage(answer) != row->stage) {
            printf("%s: address %08lx gives %016llx\n", row->name, (unsigned long)r->addresses[i],
                   (unsigned long long)answer);
            return 0;
        }
    }
    return 1;
}

/* Readies a row for timing; whether it could. */
static int ready(struct timed *t, const struct row *row, size_t frames)
{
    memset(t, 0, sizeof *t);
    t->row = row;
    if (!build(&t->rig, frames)) {
        printf("no memory for %lu frames\n", (unsigned long)frames);
        return 0;
    }
    row->change(&t->rig);
    if (!row_is_true(row, &t->rig))
        return 0;
    t->our_calls = slice_of(row->ours, &t->rig);
    t->plain_calls = slice_of(row->plain, &t->rig);
    return 1;
}

/* Readies the rows that a storage of so many frames has; answers how many, or 0 for a failure. */
static size_t ready_rows(struct timed *t, size_t frames)
{
    size_t i, count = 0;

    for (i = 0; i < ROWS; i++) {
        if (frames < rows[i].least_frames)
            continue;
        if (!ready(&t[count], &rows[i], frames))
            return 0;
        count++;
    }
    return count;
}

static void time_row(struct timed *t)
{
    double rate = (double)t->our_calls / time_calls(t->row->ours, &t->rig, t->our_calls);

    t->ours = rate > t->ours ? rate : t->ours;
    rate = (double)t->plain_calls / time_calls(t->row->plain, &t->rig, t->plain_calls);
    t->plain = rate > t->plain ? rate : t->plain;
}

static void print_rows(const struct timed *t, size_t count)
{
    size_t i;

    printf("Calls per second, best of %d rounds; the ratio is drevokas/plain.\n\n", ROUNDS);
    printf("%-30s %6s %14s %14s %7s\n", "case", "frames", "drevokas", "plain", "ratio");
    for (i = 0; i < count; i++)
        printf("%-30s %6lu %14.0f %14.0f %7.2f\n", t[i].row->name, (unsigned long)t[i].rig.frames, t[i].ours,
               t[i].plain, t[i].ours / t[i].plain);
}

/* So many calls of one row. */
static int count(const char *name, size_t frames, const char *who, unsigned long calls)
{
    struct rig r;
    size_t i;

    for (i = 0; i < ROWS && strcmp(rows[i].name, name) != 0; i++)
        ;
    if (i == ROWS || frames < rows[i].least_frames || frames > 4096 || !build(&r, frames)) {
        fputs("bench_translate: no such row\n", stderr);
        return 2;
    }
    rows[i].change(&r);
    time_calls(strcmp(who, "plain") == 0 ? rows[i].plain : rows[i].ours, &r, calls);
    tear_down(&r);
    return 0;
}

int main(int argc, char **argv)
{
    static struct timed timed[2 * ROWS];
    struct tally t;
    size_t small, large, i;

    if (argc == 5)
        return count(argv[1], (size_t)strtoul(argv[2], NULL, 10), argv[3], strtoul(argv[4], NULL, 10));
    if (!compare_cases(SEED, COMPARED, &t))
        return 1;
    printf("%d cases the same, seed %d\n\n", COMPARED, SEED);
    fflush(stdout);
    small = ready_rows(timed, 8);
    large = ready_rows(timed + small, 4096);
    if (small == 0 || large == 0)
        return 1;
    for (i = 0; i < ROUNDS * (small + large); i++)
        time_row(&timed[i % (small + large)]);
    print_rows(timed, small + large);
    for (i = 0; i < small + large; i++)
        tear_down(&timed[i].rig);
    return 0;
}
