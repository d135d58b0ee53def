/* Which entries of the host's tables are read for the first unbacked page, by the library and by the plain C version. The loads
   are those of a trace, as valgrind's lackey prints it.
 *
 *   reads call                       every case by both; prints where storage and marks stand
 *   reads count STORAGE MARKS        what the loads in such a call's trace, on standard input, come to; the exit status is 1
 *                                    where an entry is read twice, or one that the answer does not need
 */
#include "plain_desk.h"

/* An extent of four segments, from segment 1 on. The segment table is in frame 0, the page tables are in frame 1, one after the
   other. */
#define FRAMES 2u
#define STORAGE_BYTES (FRAMES * DREVOKAS_FRAME_BYTES)
#define ORIGIN 16u
#define SEGMENTS 4u
#define PAGES (SEGMENTS * 256)
#define SEGMENT_AT(segment) (4 * (1 + (segment)))
#define PAGE_AT(page) (4096 + 4 * (page))
#define SEGMENT_ENTRY(segment) (PAGE_AT(256 * (segment)) | 15)

/* A place where no entry of the extent stands. */
#define NOTHING 0u

/* The pages asked about, of which all are valid but for a word that is another; the answer; and how many entries that needs: of
   segments from the first that is asked about on, and of pages. */
struct reading {
    const char *name;
    uint32_t from, to, at, word, kind, page, segments, pages;
};

static const struct reading readings[] = {
    {"all valid", 0, PAGES, NOTHING, 0, DREVOKAS_NONE, 0, 4, PAGES},
    {"all valid, from 100 to 900", 100, 900, NOTHING, 0, DREVOKAS_NONE, 0, 4, 800},
    {"all valid, from 300 to 310", 300, 310, NOTHING, 0, DREVOKAS_NONE, 0, 1, 10},
    {"all valid, from 512 to 512", 512, 512, NOTHING, 0, DREVOKAS_NONE, 0, 0, 0},
    {"page 640 invalid", 0, PAGES, PAGE_AT(640), PAGE_INVALID, DREVOKAS_GOOD, 640, 3, 641},
    {"page 640 malformed", 0, PAGES, PAGE_AT(640), BIT(0), DREVOKAS_GOOD, 640, 3, 641},
    {"page 640 invalid, from 600", 600, PAGES, PAGE_AT(640), PAGE_INVALID, DREVOKAS_GOOD, 640, 1, 41},
    {"page 640 invalid, from 640", 640, PAGES, PAGE_AT(640), PAGE_INVALID, DREVOKAS_GOOD, 640, 1, 1},
    {"page 640 invalid, to 640", 0, 640, PAGE_AT(640), PAGE_INVALID, DREVOKAS_NONE, 0, 3, 640},
    {"segment 2 invalid", 0, PAGES, SEGMENT_AT(1), SEGMENT_ENTRY(1) | SEGMENT_INVALID, DREVOKAS_GOOD, 256, 2, 256},
    {"segment 2 malformed", 0, PAGES, SEGMENT_AT(1), SEGMENT_ENTRY(1) | BIT(0), DREVOKAS_GOOD, 256, 2, 256},
    {"segment 2 invalid, from 300", 300, PAGES, SEGMENT_AT(1), SEGMENT_ENTRY(1) | SEGMENT_INVALID, DREVOKAS_GOOD, 300, 1, 0},
    {"segment 2, half a table", 0, PAGES, SEGMENT_AT(1), SEGMENT_ENTRY(1) ^ 8, DREVOKAS_GOOD, 384, 2, 384},
    {"the same, from 400", 400, PAGES, SEGMENT_AT(1), SEGMENT_ENTRY(1) ^ 8, DREVOKAS_GOOD, 400, 1, 0},
};

#define READINGS (sizeof readings / sizeof *readings)

/* The two whose loads are counted, in the order of their calls. */
enum { DREVOKAS, PLAIN, SIDES };
static const struct desk *const desks[SIDES] = {&drevokas_desk, &plain_desk};
static const char *const names[SIDES] = {"drevokas", "plain"};

/* ---- calling ---- */

static uint8_t record[DREVOKAS_RECORD_LENGTH], storage[STORAGE_BYTES], keys[FRAMES];

/* Stored into before and after each call, and nowhere else. */
static volatile uint8_t marks[2];

static void build(void)
{
    uint32_t i;

    put16(record + AT_LENGTH, DREVOKAS_RECORD_LENGTH);
    record[AT_VERSION] = DREVOKAS_RECORD_VERSION;
    record[AT_MODE] = MODE_XA;
    put16(record + AT_ORIGIN, ORIGIN);
    put16(record + AT_EXTENT, PAGES / DREVOKAS_BLOCK_PAGES);
    for (i = 0; i < SEGMENTS; i++)
        put32(storage + SEGMENT_AT(i), SEGMENT_ENTRY(i));
}

/* Whether the call between its marks answers as expected. */
static int call_marked(int side, const struct reading *r)
{
    const struct handed h = {record, storage, keys, sizeof record, sizeof storage, sizeof keys, 0};
    uint64_t where = UNTOUCHED, answer;

    marks[0] = 1;
    answer = first_unbacked(desks[side], &h, r->from, r->to, &where);
    marks[1] = 1;
    if (answer == answer_of(r->kind, 0) && where == r->page)
        return 1;
    fprintf(stderr, "reads: %s, %s: %016llx at %llx, not %016llx at %lx\n", r->name, names[side], (unsigned long long)answer,
            (unsigned long long)where, (unsigned long long)answer_of(r->kind, 0), (unsigned long)r->page);
    return 0;
}

static int call_all(void)
{
    uint32_t word;
    size_t i;

    build();
    for (i = 0; i < SIDES * READINGS; i++) {
        const struct reading *r = &readings[i / SIDES];

        word = get32(storage + r->at);
        put32(storage + r->at, r->at == NOTHING ? word : r->word);
        if (!call_marked((int)(i % SIDES), r))
            return 1;
        put32(storage + r->at, word);
    }
    printf("%llx %llx\n", (unsigned long long)(uintptr_t)storage, (unsigned long long)(uintptr_t)marks);
    return 0;
}

/* ---- counting ---- */

/* The loads of one call: of each byte of the storage, and all. */
struct loads {
    unsigned long bytes[STORAGE_BYTES], all;
};

/* What they come to: the entries read that the answer needs, the other words read, and how often one was read at most. */
struct seen {
    unsigned long segments, pages, others, most, loads;
};

/* A load from an offset in the storage on, which wraps for places in front of it. */
static void count_load(struct loads *l, uint64_t at, uint64_t size)
{
    unsigned long inside = 0;
    uint64_t i;

    for (i = at; i != at + size; i++)
        if (i < STORAGE_BYTES) {
            l->bytes[i]++;
            inside = 1;
        }
    l->all += inside;
}

/* How often a word was read: as often as that of its bytes which was read most. */
static unsigned long times_read(const struct loads *l, uint32_t at)
{
    unsigned long most = 0;
    uint32_t i;

    for (i = at; i < at + 4; i++)
        most = l->bytes[i] > most ? l->bytes[i] : most;
    return most;
}

static struct seen seen_of(const struct loads *l, const struct reading *r)
{
    struct seen s = {0, 0, 0, 0, 0};
    unsigned long times;
    uint32_t at;

    s.loads = l->all;
    for (at = 0; at < STORAGE_BYTES; at += 4) {
        times = times_read(l, at);
        s.most = times > s.most ? times : s.most;
        if (times == 0)
            continue;
        if (at >= SEGMENT_AT(r->from / 256) && at < SEGMENT_AT(r->from / 256 + r->segments))
            s.segments++;
        else if (at >= PAGE_AT(r->from) && at < PAGE_AT(r->from + r->pages))
            s.pages++;
        else
            s.others++;
    }
    return s;
}

/* Whether a call read every entry that its answer needs, once, and nothing else. */
static int is_good(const struct seen *s, const struct reading *r, int side)
{
    const char *fault = NULL;

    if (s->others != 0)
        fault = "an entry past the answer, or one that is not asked about, was read";
    else if (s->most > 1)
        fault = "an entry was read more than once";
    else if (s->segments != r->segments || s->pages != r->pages)
        fault = "an entry that the answer needs is not among the loads";
    if (fault != NULL)
        fprintf(stderr, "reads: %s, %s: %s\n", r->name, names[side], fault);
    return fault == NULL;
}

static void show(const struct reading *r, const struct seen *s)
{
    printf("%-28s %6lu %6lu %7lu %6lu %5lu %6lu %5lu %6lu %6lu %6lu\n", r->name, s[DREVOKAS].segments, s[PLAIN].segments,
           s[DREVOKAS].pages, s[PLAIN].pages, s[DREVOKAS].most, s[PLAIN].most, s[DREVOKAS].others, s[PLAIN].others,
           s[DREVOKAS].loads, s[PLAIN].loads);
}

/* The loads of the trace's next call; whether there is one, whole. */
static int next_loads(struct loads *l, uint64_t storage_at, uint64_t marks_at)
{
    char line[256], *end;
    int inside = 0;
    uint64_t at;

    memset(l, 0, sizeof *l);
    while (fgets(line, sizeof line, stdin) != NULL) {
        if (line[0] != ' ' || strchr("LMS", line[1]) == NULL)
            continue;
        at = strtoull(line + 3, &end, 16);
        if (at == marks_at + 1)
            return inside;
        if (at == marks_at)
            inside = 1;
        else if (inside && line[1] != 'S' && *end == ',')
            count_load(l, at - storage_at, strtoull(end + 1, NULL, 10));
    }
    return 0;
}

/* Prints a case; whether both of its calls are good. A trace without them ends the program. */
static int count_reading(const struct reading *r, uint64_t storage_at, uint64_t marks_at)
{
    static struct loads l;
    struct seen s[SIDES];
    int good = 1, side;

    for (side = 0; side < SIDES; side++) {
        if (!next_loads(&l, storage_at, marks_at)) {
            fprintf(stderr, "reads: %s, %s: the trace has no such call\n", r->name, names[side]);
            exit(1);
        }
        s[side] = seen_of(&l, r);
        good &= is_good(&s[side], r, side);
    }
    show(r, s);
    return good;
}

static int count_all(uint64_t storage_at, uint64_t marks_at)
{
    int good = 1;
    size_t i;

    printf("What is read for the first unbacked page of %u, by drevokas and by plain. Segments, pages: entries up to the\n"
           "answer; most: how often one word was read; past: other words read; loads: instructions that read them.\n\n", PAGES);
    printf("%-28s %13s %14s %12s %12s %13s\n", "case", "segments", "pages", "most", "past", "loads");
    for (i = 0; i < READINGS; i++)
        good &= count_reading(&readings[i], storage_at, marks_at);
    return good ? 0 : 1;
}

int main(int argc, char **argv)
{
    if (argc == 2 && strcmp(argv[1], "call") == 0)
        return call_all();
    if (argc == 4 && strcmp(argv[1], "count") == 0)
        return count_all(strtoull(argv[2], NULL, 16), strtoull(argv[3], NULL, 16));
    fputs("usage: reads call, or reads count STORAGE MARKS\n", stderr);
    return 2;
}
