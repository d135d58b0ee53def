/* The lines of the page maps. */
#include "text_form.h"

#define MAP_GUEST "\"map guest X'0'-X'2FFF' to frame 3 [protected|invalid]\" or \"map guest X'3000' invalid\""
#define PAGE_IGNORED 0xffu      /* bits 24-31 of a page entry */
#define MAP_VIRTUAL "\"map virtual X'5000'-X'5FFF' to real X'1000' [protected|invalid]\" or \"map virtual X'6000' invalid\""

/* host tables at frame NUMBER */
static int parse_host_tables(struct text_form *f, unsigned line, struct message *m)
{
    const char *at = f->lines[line - 1].text;
    uint64_t frame;

    if (!take_word(&at, "host") || !take_word(&at, "tables") || !take_word(&at, "at") || !take_word(&at, "frame"))
        return wrong(m, "write \"host tables at frame NUMBER\"");
    if (parse_count(&at, "the frame", f->c.frames - 1, &frame, m) || nothing_left(at, m))
        return -1;
    if (f->host_line != 0)
        return wrong(m, "the host tables have their place in line %u already; leave one of the lines out", f->host_line);
    f->host_line = line;
    f->host_tables.space = IN_FRAMES;
    f->host_tables.address = frame * FRAME_BYTES;
    return 0;
}

/* guest tables at real ADDRESS */
static int parse_guest_tables(struct text_form *f, unsigned line, struct message *m)
{
    const char *at = f->lines[line - 1].text;
    uint64_t address;

    if (!take_word(&at, "guest") || !take_word(&at, "tables") || !take_word(&at, "at") || !take_word(&at, "real"))
        return wrong(m, "write \"guest tables at real ADDRESS\"");
    if (parse_address(&at, "the address", ADDRESS_LIMIT - 1, &address, m) || nothing_left(at, m))
        return -1;
    if (address % FRAME_BYTES != 0)
        return wrong(m, "the address X'%llX' (decimal %llu) is not a multiple of X'1000' (4096), as a segment table's must be",
                     ull(address), ull(address));
    if (f->guest_line != 0)
        return wrong(m, "the guest tables have their place in line %u already; leave one of the lines out", f->guest_line);
    f->guest_line = line;
    f->guest_tables.space = IN_REAL;
    f->guest_tables.address = address;
    return 0;
}

/* A range of pages, and what their entries are. */
struct range {
    uint32_t first, count;
    uint32_t target, step;      /* the first entry's address, and how much each further one adds */
    uint32_t flags;
    uint32_t kept;              /* the bits that stay as they are in an entry that is there */
};

static int parse_range(const char **at, struct range *r, struct message *m)
{
    uint64_t first, last;

    if (parse_address(at, "the address", ADDRESS_LIMIT - 1, &first, m))
        return -1;
    if (first % FRAME_BYTES != 0)
        return wrong(m, "the address X'%llX' (decimal %llu) is not the first of a page; those are multiples of X'1000' (4096)",
                     ull(first), ull(first));
    last = first + FRAME_BYTES - 1;
    if (**at == '-') {
        ++*at;
        if (parse_address(at, "the last address", ADDRESS_LIMIT - 1, &last, m))
            return -1;
    }
    if (last < first || (last + 1) % FRAME_BYTES != 0)
        return wrong(m, "the last address X'%llX' (decimal %llu) is not the last of this page or a later one, as X'%llX' "
                     "would be", ull(last), ull(last), ull(first + FRAME_BYTES - 1));
    r->first = (uint32_t)(first / FRAME_BYTES);
    r->count = (uint32_t)((last + 1 - first) / FRAME_BYTES);
    return 0;
}

/* "protected" or "invalid", or nothing; then the end of the line. */
static int parse_flags(const char *at, uint32_t *flags, struct message *m)
{
    *flags = take_word(&at, "protected") ? PAGE_PROTECTED : take_word(&at, "invalid") ? PAGE_INVALID : 0;
    if (*skip_blanks(at) == '\0')
        return 0;
    return wrong(m, "\"%.20s\" is too much; a page is \"protected\" or \"invalid\" or neither, and a comment starts with #",
                 at);
}

/* The frames that a range of guest pages goes to: FRAME or FRAME-FRAME. */
static int parse_frames(const struct text_form *f, const char **at, struct range *r, struct message *m)
{
    uint64_t first, last;

    if (parse_count(at, "the frame", f->c.frames - 1, &first, m))
        return -1;
    last = first + r->count - 1;
    if (**at == '-') {
        ++*at;
        if (parse_count(at, "the last frame", f->c.frames - 1, &last, m))
            return -1;
    }
    if (last < first || last - first + 1 != r->count)
        return wrong(m, "%u page%s must go to as many frames: %llu-%llu", r->count, r->count == 1 ? "" : "s", ull(first),
                     ull(first + r->count - 1));
    if (last >= f->c.frames)
        return wrong(m, "%u pages from frame %llu on need frame %llu; the last one is frame %u", r->count, ull(first),
                     ull(last), f->c.frames - 1);
    r->target = (uint32_t)(first * FRAME_BYTES);
    return 0;
}

static int parse_real(const char **at, struct range *r, struct message *m)
{
    uint64_t first;

    if (parse_address(at, "the real address", ADDRESS_LIMIT - 1, &first, m))
        return -1;
    if (first % FRAME_BYTES != 0)
        return wrong(m, "the real address X'%llX' (decimal %llu) is not the first of a page; those are multiples of X'1000' "
                     "(4096)", ull(first), ull(first));
    if (first + (uint64_t)r->count * FRAME_BYTES > ADDRESS_LIMIT)
        return wrong(m, "%u pages from real X'%llX' on do not end below X'80000000'", r->count, ull(first));
    r->target = (uint32_t)first;
    return 0;
}

static int fill_pages(struct page *pages, unsigned line, const struct range *r, struct message *m)
{
    uint32_t i;

    for (i = 0; i < r->count; i++) {
        struct page *p = &pages[r->first + i];

        if (p->line != 0)
            return wrong(m, "the page X'%llX' is mapped in line %u already; leave it out of one of the lines",
                         ull((uint64_t)(r->first + i) * FRAME_BYTES), p->line);
        p->line = line;
        p->entry = (r->target + i * r->step) | r->flags;
        p->kept = r->kept;
    }
    return 0;
}

/* "to frame 3", "to real X'1000'", "invalid": what comes after the addresses. */
static int parse_target(const struct text_form *f, const char *at, int is_guest, struct range *r, struct message *m)
{
    const char *space = is_guest ? "frame" : "real", *form = is_guest ? MAP_GUEST : MAP_VIRTUAL;

    r->kept = ~0u;
    if (!take_word(&at, "to")) {
        if (parse_flags(at, &r->flags, m) || r->flags != PAGE_INVALID)
            return wrong(m, "where the page goes is missing; write %s", form);
        return 0;
    }
    r->kept = PAGE_IGNORED;
    if (!take_word(&at, space))
        return wrong(m, "\"%s\" is missing after \"to\"; write %s", space, form);
    if (is_guest ? parse_frames(f, &at, r, m) : parse_real(&at, r, m))
        return -1;
    r->step = FRAME_BYTES;
    return parse_flags(at, &r->flags, m);
}

/* map guest ... to frame ..., map virtual ... to real ... */
static int parse_map(struct text_form *f, unsigned line, struct message *m)
{
    const char *at = f->lines[line - 1].text;
    struct range r = {0, 0, 0, 0, 0, 0};
    uint64_t first = first_host_page(f);
    int is_guest;

    take_word(&at, "map");
    is_guest = take_word(&at, "guest");
    if (!is_guest && !take_word(&at, "virtual"))
        return wrong(m, "\"guest\" or \"virtual\" is missing; write " MAP_GUEST ", or \"map virtual ... to real ...\"");
    if (parse_range(&at, &r, m) || parse_target(f, at, is_guest, &r, m))
        return -1;
    if (is_guest && r.first + r.count + first > PAGES)
        return wrong(m, "the origin and this guest address together are not below X'80000000'; make one of them smaller");
    return fill_pages(is_guest ? f->host_pages + first : f->virtual_pages, line, &r, m);
}

unsigned first_line(const struct page *pages)
{
    unsigned i, line = 0;

    for (i = 0; i < PAGES; i++)
        if (pages[i].line != 0 && (line == 0 || pages[i].line < line))
            line = pages[i].line;
    return line;
}

static int parse_map_line(struct text_form *f, unsigned line, struct message *m)
{
    switch (f->lines[line - 1].kind) {
    case HOST_TABLES_LINE:
        return parse_host_tables(f, line, m);
    case GUEST_TABLES_LINE:
        return parse_guest_tables(f, line, m);
    case MAP_LINE:
        return parse_map(f, line, m);
    default:
        return 0;
    }
}

/* A map needs a place for its tables, unless there are tables already. */
static void check_places(struct text_form *f)
{
    unsigned guest = first_line(f->host_pages), virtual = first_line(f->virtual_pages);
    struct message m;

    if (guest != 0 && f->host_line == 0) {
        wrong(&m, "the host's tables for this map have no place; add \"host tables at frame NUMBER\", or "
              "name a case file whose tables are changed: --from CASE");
        note_fault(f, guest, &m);
    }
    if (virtual != 0 && f->guest_line == 0) {
        wrong(&m, "the guest's tables for this map have no place; add \"guest tables at real ADDRESS\", "
              "or name a case file whose tables are changed: --from CASE");
        note_fault(f, virtual, &m);
    }
}

void apply_maps(struct text_form *f)
{
    unsigned had = f->fault_count, line;
    struct message m;

    for (line = 1; line <= f->count && !enough_faults(f); line++)
        if (parse_map_line(f, line, &m))
            note_fault(f, line, &m);
    if (f->fault_count == had && !f->from_file)
        check_places(f);
}
