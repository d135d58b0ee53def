/* Units per second of drevokas_run beside plain_run, in one run, after checking that both leave the same.
 *
 *   bench_run                                   all cases, as a table
 *   bench_run check                             the check alone
 *   bench_run names                             the names of the cases
 *   bench_run CASE FRAMES plain|drevokas COUNT  so many units of one case, or so many calls where it is one of calls, and nothing
 *                                               else, for an instruction counter
 */
#define _POSIX_C_SOURCE 199309L
#include <stdio.h>
#include <stdlib.h>
#include <string.h>
#include <time.h>

#include "../include/drevokas.h"
#include "plain.h"

#define FRAME 4096u
#define BUDGET 60000u
#define CALLS 1000u
#define ROUNDS 9

typedef uint64_t run_function(uint8_t *, size_t, uint8_t *, size_t, uint8_t *, size_t, uint32_t, uint64_t, uint32_t,
                              uint32_t, uint64_t *);

struct host {
    uint8_t record[208], *storage, *keys;
    size_t frames;
    uint64_t answer, where;
};

enum form { XA, XA_DAT, EC, BC };

/* Texts in hex: one at 200 hex, where the guest starts and program exceptions lead, and one elsewhere, where SVC leads if there
   is one. Further bits of all PSWs; the exception that each unit has, or 0. */
struct guest {
    const char *text, *other;
    uint32_t other_at, psw;
    unsigned exception;
};

#define PROBLEM_STATE 0x00010000u
#define KEY_1 0x00100000u

static const struct guest add_branch = {.text = "1a12 47f00200"};
static const struct guest load_store = {.text = "58100400 1a12 50100404 41330001 47f00200"};
static const struct guest copy_loop = {.text = "58163000 50168000 41660004 1b42 4720c000 41600000 414003e8 47f0c000"};
static const struct guest pages = {.text = "58103000 58405000 58607000 50108000 50409000 47f0c000"};
static const struct guest branches = {.text = "1a12 07fa", .other = "1a12 07fc", .other_at = 0x1200};
static const struct guest call = {.text = "0a00"};
static const struct guest call_return = {.text = "0a00 47f0c000", .other = "1a12 82000020", .other_at = 0x300};
static const struct guest store_clock = {.text = "b205c200 47f0c000"};
static const struct guest store_timer = {.text = "b209c200 47f0c000"};
static const struct guest set_timer = {.text = "b208c208 47f0c000"};
static const struct guest load_control = {.text = "b700c210 47f0c000"};
static const struct guest store_control = {.text = "b600c200 47f0c000"};
static const struct guest operation = {.text = "ff00", .exception = 1};
static const struct guest privileged = {.text = "82000020", .psw = PROBLEM_STATE, .exception = 2};
static const struct guest protection = {.text = "50108000", .psw = KEY_1, .exception = 4};
static const struct guest specification = {.text = "82000024", .exception = 6};
static const struct guest page_translation = {.text = "5810b000", .exception = 0x11};

struct kind {
    const char *name;
    const struct guest *guest;
    enum form form;
    uint32_t time, budget;
};

/* A case with another budget than BUDGET is one of calls. With the greatest time per unit the interval timer's word falls in one
   of thirteen units. */
static const struct kind kinds[] = {
    {"AR+BC", &add_branch, XA, 1, BUDGET},
    {"AR+BC,DAT", &add_branch, XA_DAT, 1, BUDGET},
    {"L+AR+ST+LA+BC", &load_store, XA, 1, BUDGET},
    {"L+AR+ST+LA+BC,DAT", &load_store, XA_DAT, 1, BUDGET},
    {"copy loop", &copy_loop, XA, 1, BUDGET},
    {"pages", &pages, XA, 1, BUDGET},
    {"pages,DAT", &pages, XA_DAT, 1, BUDGET},
    {"branches", &branches, XA, 1, BUDGET},
    {"branches,DAT", &branches, XA_DAT, 1, BUDGET},
    {"SVC", &call, XA, 1, BUDGET},
    {"SVC,DAT", &call, XA_DAT, 1, BUDGET},
    {"SVC+AR+LPSW+BC", &call_return, XA, 1, BUDGET},
    {"STCK+BC", &store_clock, XA, 1, BUDGET},
    {"STPT+BC", &store_timer, XA, 1, BUDGET},
    {"SPT+BC", &set_timer, XA, 1, BUDGET},
    {"LCTL+BC", &load_control, XA, 1, BUDGET},
    {"STCTL+BC", &store_control, XA, 1, BUDGET},
    {"operation", &operation, XA, 1, BUDGET},
    {"privileged operation", &privileged, XA, 1, BUDGET},
    {"protection", &protection, XA, 1, BUDGET},
    {"specification", &specification, XA, 1, BUDGET},
    {"page translation", &page_translation, XA_DAT, 1, BUDGET},
    {"AR+BC,System/370-BC", &add_branch, BC, 1, BUDGET},
    {"AR+BC,System/370-EC", &add_branch, EC, 1, BUDGET},
    {"L+AR+ST+LA+BC,System/370-BC", &load_store, BC, 1, BUDGET},
    {"L+AR+ST+LA+BC,System/370-EC", &load_store, EC, 1, BUDGET},
    {"SVC,System/370-BC", &call, BC, 1, BUDGET},
    {"SVC,System/370-EC", &call, EC, 1, BUDGET},
    {"AR+BC,System/370-BC,falls", &add_branch, BC, 1048576, BUDGET},
    {"call,budget 0", &add_branch, XA, 1, 0},
    {"call,budget 1", &add_branch, XA, 1, 1},
    {"call,budget 100", &add_branch, XA, 1, 100},
};

#define KINDS (sizeof kinds / sizeof *kinds)

static int of_calls(const struct kind *k)
{
    return k->budget != BUDGET;
}

static void put32(uint8_t *at, uint32_t value)
{
    at[0] = (uint8_t)(value >> 24);
    at[1] = (uint8_t)(value >> 16);
    at[2] = (uint8_t)(value >> 8);
    at[3] = (uint8_t)value;
}

static void put_text(uint8_t *at, const char *hex)
{
    unsigned byte;

    for (; sscanf(hex, " %2x", &byte) == 1; hex += strspn(hex, " ") + 2)
        *at++ = (uint8_t)byte;
}

static size_t record_length(const struct kind *k)
{
    return k->form == EC || k->form == BC ? 208 : 200;
}

/* Everything masked. */
static void put_psw(uint8_t *at, const struct kind *k, uint32_t address)
{
    uint32_t left = k->form == BC ? 0 : 0x00080000u | (k->form == XA_DAT ? 0x04000000u : 0);

    put32(at, left | k->guest->psw);
    put32(at + 4, record_length(k) == 200 ? 0x80000000u | address : address);
}

/* Guest pages 0 to 6 are in the last frames: 0 prefix and text, 1 to 5 text and data, 6 the guest's tables. The host's tables are
   in frame 0, so that eight frames are enough for all cases. */
#define PAGES 7u

static uint8_t *guest_page(const struct host *h, uint32_t i)
{
    return h->storage + (h->frames - PAGES + i) * FRAME;
}

/* A segment table of one entry and a page table of sixteen behind it, the first PAGES of them valid; each at its real address. */
static void put_tables(uint8_t *storage, uint32_t at, uint32_t first_frame)
{
    uint32_t i;

    put32(storage, at + 64);
    for (i = 0; i < 16; i++)
        put32(storage + 64 + 4 * i, i < PAGES ? (first_frame + i) * FRAME : 0x400);
}

static void put_registers(uint8_t *record)
{
    static const uint32_t general[16] = {0, 0, 1, 0x1000, 0, 0x2000, 0, 0x3000, 0x4000, 0x5000, 0x1200, 0x7000, 0x200};
    int i;

    put32(record + 72, 0x00b00000u);
    put32(record + 76, 0x6000);
    for (i = 0; i < 16; i++)
        put32(record + 136 + 4 * i, general[i]);
}

static void put_record(uint8_t *record, const struct kind *k)
{
    memset(record, 0, 208);
    record[1] = (uint8_t)record_length(k);
    record[2] = record_length(k) == 200 ? 1 : 2;
    record[4] = record_length(k) == 200 ? 8 : 4;
    record[15] = 1;
    put_psw(record + 16, k, 0x200);
    put32(record + 24, 0x7fffffff);
    memset(record + 32, 0xff, 8);
    put_registers(record);
}

static void set_up(struct host *h, const struct kind *k)
{
    const struct guest *g = k->guest;
    uint32_t i;

    memset(h->storage, 0, h->frames * FRAME);
    memset(h->keys, 0, h->frames);
    put_record(h->record, k);
    put_tables(h->storage, 0, (uint32_t)h->frames - PAGES);
    put_tables(guest_page(h, 6), 0x6000, 0);
    for (i = 0; i < 3 * FRAME; i += 4)
        put32(guest_page(h, 1) + i, i * 0x9e3779b1u);
    put32(guest_page(h, 0) + 0x408, 0x7fffffff);
    put32(guest_page(h, 0) + 0x410, 0x00b00000u);
    put_psw(guest_page(h, 0) + 96, k, g->other ? g->other_at : 0x200);
    put_psw(guest_page(h, 0) + 104, k, 0x200);
    put_text(guest_page(h, 0) + 0x200, g->text);
    if (g->other)
        put_text(guest_page(h, 0) + g->other_at, g->other);
}

static struct host host_of(size_t frames)
{
    struct host h;

    h.frames = frames;
    h.where = 0;
    h.storage = malloc(frames * FRAME);
    h.keys = malloc(frames);
    if (h.storage == NULL || h.keys == NULL) {
        fputs("bench_run: no memory\n", stderr);
        exit(2);
    }
    return h;
}

/* So many units, in runs of the largest budget that is whole; or so many calls. */
static void go(run_function *run, struct host *h, const struct kind *k, unsigned long count)
{
    while (count > 0) {
        uint32_t budget = of_calls(k) || count > BUDGET ? k->budget : (uint32_t)count;

        h->answer = run(h->record, record_length(k), h->storage, h->frames * FRAME, h->keys, h->frames, 0, 0, k->time, budget,
                        &h->where);
        if (h->answer != ((uint64_t)DREVOKAS_BUDGET_USED << 56 | budget)) {
            fprintf(stderr, "bench_run: %s does not run\n", k->name);
            exit(2);
        }
        count -= of_calls(k) ? 1 : budget;
    }
}

static unsigned long usual_count(const struct kind *k)
{
    return of_calls(k) ? CALLS : BUDGET;
}

/* Both leave the same, and the exception is the one that the case has. */
static void check(const struct kind *k, struct host *a, struct host *b)
{
    const uint8_t *code = guest_page(a, 0) + 142;

    set_up(a, k);
    set_up(b, k);
    go(drevokas_run, a, k, usual_count(k));
    go(plain_run, b, k, usual_count(k));
    if (a->answer != b->answer || a->where != b->where || memcmp(a->record, b->record, sizeof a->record)
        || memcmp(a->storage, b->storage, a->frames * FRAME) || memcmp(a->keys, b->keys, a->frames)) {
        fprintf(stderr, "bench_run: %s: the two leave different bytes\n", k->name);
        exit(1);
    }
    if ((code[0] << 8 | code[1]) != (int)k->guest->exception) {
        fprintf(stderr, "bench_run: %s has another exception\n", k->name);
        exit(1);
    }
}

struct times {
    double ours, plain;
};

/* Of processor time, which other programs do not take from. */
static double seconds(void)
{
    struct timespec t;

    clock_gettime(CLOCK_PROCESS_CPUTIME_ID, &t);
    return (double)t.tv_sec + 1e-9 * (double)t.tv_nsec;
}

static void measure(run_function *run, struct host *h, const struct kind *k, double *best)
{
    double start;

    set_up(h, k);
    start = seconds();
    go(run, h, k, usual_count(k));
    start = seconds() - start;
    if (start < *best)
        *best = start;
}

/* In each round every case is timed for both, one after the other, and the best of a case's rounds counts. */
static void time_all(struct host *a, struct host *b, struct times *t)
{
    size_t i, round;

    for (i = 0; i < KINDS; i++)
        t[i].ours = t[i].plain = 1e9;
    for (round = 0; round < ROUNDS; round++)
        for (i = 0; i < KINDS; i++) {
            measure(drevokas_run, a, &kinds[i], &t[i].ours);
            measure(plain_run, b, &kinds[i], &t[i].plain);
        }
}

/* All cases, with so many frames. */
static void compare(size_t frames, int timed)
{
    struct host a = host_of(frames), b = host_of(frames);
    struct times t[KINDS];
    size_t i;

    for (i = 0; i < KINDS; i++)
        check(&kinds[i], &a, &b);
    if (timed)
        time_all(&a, &b, t);
    for (i = 0; timed && i < KINDS; i++) {
        double millions = (double)usual_count(&kinds[i]) / 1e6;

        printf("%-28s %6zu %12.1f %12.1f %8.2f\n", kinds[i].name, frames, millions / t[i].ours, millions / t[i].plain,
               t[i].plain / t[i].ours);
    }
    free(a.storage);
    free(a.keys);
    free(b.storage);
    free(b.keys);
}

static int count(const char *name, size_t frames, const char *who, unsigned long n)
{
    struct host h;
    size_t i;

    for (i = 0; i < KINDS && strcmp(kinds[i].name, name) != 0; i++)
        ;
    if (i == KINDS || frames < 8 || frames > 4096) {
        fputs("bench_run: no such case\n", stderr);
        return 2;
    }
    h = host_of(frames);
    set_up(&h, &kinds[i]);
    go(strcmp(who, "plain") == 0 ? plain_run : drevokas_run, &h, &kinds[i], n);
    return 0;
}

int main(int argc, char **argv)
{
    size_t i;

    if (argc == 5)
        return count(argv[1], (size_t)strtoul(argv[2], NULL, 10), argv[3], strtoul(argv[4], NULL, 10));
    if (argc == 2 && strcmp(argv[1], "names") == 0) {
        for (i = 0; i < KINDS; i++)
            puts(kinds[i].name);
        return 0;
    }
    if (argc == 2 && strcmp(argv[1], "check") == 0) {
        compare(8, 0);
        compare(4096, 0);
        return 0;
    }
    printf("%-28s %6s %12s %12s %8s\n", "case", "frames", "drevokas", "plain", "ratio");
    printf("%-28s %6s %12s %12s\n", "", "", "M/s", "M/s");
    compare(8, 1);
    compare(4096, 1);
    return 0;
}
