#include "desk_words.h"

#include "../include/drevokas.h"
#include "stage.h"

#define FRAME_SHIFT 12      /* of a frame's number in a page entry */
#define BLOCK_SHIFT 16      /* the origin counts 64 KiB */

struct extent extent_of(const struct case_file *c)
{
    struct extent e = {c, 0, 0};

    e.origin = (uint32_t)field_of(c->record, "origin") << BLOCK_SHIFT;
    e.pages = (uint32_t)field_of(c->record, "extent") * DREVOKAS_BLOCK_PAGES;
    return e;
}

struct host_page page_of_extent(const struct extent *e, uint32_t page)
{
    return walk(e->c, e->origin + page * FRAME_BYTES);
}

void add_page_entry(const struct case_file *c, uint32_t entry, char text[SENTENCE])
{
    uint32_t frame = (entry & BLOCK) >> FRAME_SHIFT;

    if (entry & PAGE_INVALID)
        add(text, "invalid; ");
    else if (entry & PAGE_ZERO) {
        add_malformed(entry & PAGE_ZERO, text);
        add(text, "; ");
    }
    add(text, "frame %lu%s%s", (unsigned long)frame, frame >= c->frames ? ", beyond the storage" : "",
        entry & PAGE_PROTECTED ? ", protected" : "");
}

/* ---- pages that are looked for ---- */

typedef int page_test(const struct host_page *p, uint32_t number);

static int has_segment_entry_at(const struct host_page *p, uint32_t place)
{
    return p->segment_read && p->segment_place == place;
}

static int has_page_entry_at(const struct host_page *p, uint32_t place)
{
    return p->page_read && p->page_place == place;
}

static int has_entry_in(const struct host_page *p, uint32_t frame)
{
    return entry_frames(p) >> frame & 1;
}

static int is_in_frame(const struct host_page *p, uint32_t frame)
{
    return p->code == 0 && p->frame == frame;
}

/* The first page of the extent, but for one, that passes the test with this number; if there is none, how many pages it has. */
static uint32_t find_page(const struct extent *e, page_test *passes, uint32_t number, uint32_t but)
{
    uint32_t page;

    for (page = 0; page < e->pages; page++) {
        struct host_page p = page_of_extent(e, page);

        if (page != but && passes(&p, number))
            break;
    }
    return page;
}

/* ---- refusal 14 ---- */

/* The page entry after a change. */
static uint32_t changed_entry(const struct desk_change *d, uint32_t entry)
{
    if (d->action == DESK_ADD)
        return d->frame << FRAME_SHIFT;
    return entry | (d->action == DESK_REMOVE ? PAGE_INVALID : PAGE_PROTECTED);
}

/* A one for each guest frame that holds an entry which describes the extent, frame 0 rightmost. */
static unsigned frames_with_entries(const struct extent *e)
{
    unsigned tables = 0, guest = 0;
    uint32_t page;

    for (page = 0; page < e->pages; page++) {
        struct host_page p = page_of_extent(e, page);

        tables |= entry_frames(&p);
        if (p.code == 0)
            guest |= 1u << p.frame;
    }
    return tables & guest;
}

/* The first entry that describes the extent and lies in this guest frame. */
static void add_overlap(const struct extent *e, uint32_t frame, char text[SENTENCE])
{
    uint32_t owner = find_page(e, is_in_frame, frame, e->pages), described = find_page(e, has_entry_in, frame, e->pages);
    struct host_page p = page_of_extent(e, described);
    int is_segment = p.segment_read && p.segment_place / FRAME_BYTES == frame;

    add(text, "frame %lu would be page %lu of the guest, and hold the host %s entry of page %lu, at %08lx",
        (unsigned long)frame, (unsigned long)owner, is_segment ? "segment" : "page", (unsigned long)described,
        (unsigned long)(is_segment ? p.segment_place : p.page_place));
}

/* The same once the page's entry is changed. Returns 0 if no entry would lie so. */
static int add_overlap_after(const struct extent *e, const struct desk_change *d, const struct host_page *p,
                             char text[SENTENCE])
{
    struct case_file c = *e->c;
    struct extent after = {&c, e->origin, e->pages};
    uint32_t frame = 0;
    unsigned both;

    put_number(c.storage + p->page_place, ENTRY_BYTES, changed_entry(d, p->entry));
    both = frames_with_entries(&after);
    if (both == 0)
        return 0;
    while (!(both >> frame & 1))
        frame++;
    add_overlap(&after, frame, text);
    return 1;
}

int add_clash(const struct extent *e, const struct desk_change *d, char text[SENTENCE])
{
    struct host_page p = page_of_extent(e, d->page);
    uint32_t segment = find_page(e, has_segment_entry_at, p.page_place, e->pages);
    uint32_t other = find_page(e, has_page_entry_at, p.page_place, d->page);

    if (segment == e->pages && other == e->pages)
        return add_overlap_after(e, d, &p, text);
    add(text, "the entry of page %lu, at %08lx, is also ", (unsigned long)d->page, (unsigned long)p.page_place);
    if (segment < e->pages)
        add(text, "the host segment entry of page %lu", (unsigned long)segment);
    else
        add(text, "that of page %lu", (unsigned long)other);
    return 1;
}

/* ---- the other refusals ---- */

static void add_extent(const struct extent *e, char text[SENTENCE])
{
    add(text, "the extent, which has pages 0 to %lu, at host addresses %08lx-%08lx", (unsigned long)e->pages - 1,
        (unsigned long)e->origin, (unsigned long)e->origin + e->pages * FRAME_BYTES - 1);
}

/* Refusal 10. Returns 0 if the page's entry is in reach. */
static int add_out_of_reach(const struct extent *e, uint32_t page, char text[SENTENCE])
{
    if (page >= e->pages) {
        add(text, "page %lu is outside ", (unsigned long)page);
        add_extent(e, text);
    } else if (!page_of_extent(e, page).page_read) {
        add(text, "the entry of page %lu is out of reach: ", (unsigned long)page);
        add_host_entry(e->c, e->origin + page * FRAME_BYTES, text);
    }
    return text[0] != '\0';
}

/* Refusals 11 and 12. Returns 0 if the page is not so. */
static int add_validity(const struct extent *e, uint32_t page, int valid, char text[SENTENCE])
{
    struct host_page p = page_of_extent(e, page);

    if (!p.page_read || p.valid != valid)
        return 0;
    add(text, "page %lu is %s: its entry at %08lx is %08lx, ", (unsigned long)page, valid ? "already valid" : "not valid",
        (unsigned long)p.page_place, (unsigned long)p.entry);
    add_page_entry(e->c, p.entry, text);
    return 1;
}

/* Refusal 13. Returns 0 if the frame is there. */
static int add_no_frame(const struct case_file *c, uint32_t frame, char text[SENTENCE])
{
    if (frame < c->frames)
        return 0;
    add(text, "frame %lu is outside the storage, which has frames 0 to %u", (unsigned long)frame, c->frames - 1);
    return 1;
}

/* What page, frame and tables show of a refusal. Returns 0 if that is nothing. */
static int add_cause_of(unsigned number, const struct extent *e, const struct desk_change *d, char text[SENTENCE])
{
    switch (number) {
    case DREVOKAS_REFUSAL_PAGE:
        return add_out_of_reach(e, d->page, text);
    case DREVOKAS_REFUSAL_VALID:
    case DREVOKAS_REFUSAL_INVALID:
        return add_validity(e, d->page, number == DREVOKAS_REFUSAL_VALID, text);
    case DREVOKAS_REFUSAL_FRAME:
        return add_no_frame(e->c, d->frame, text);
    case DREVOKAS_REFUSAL_ENTRY:
        return add_clash(e, d, text);
    default:
        return 0;
    }
}

void desk_refusal(unsigned number, const struct case_file *c, const struct desk_change *d, char text[SENTENCE])
{
    struct extent e = extent_of(c);

    text[0] = '\0';
    if (!add_cause_of(number, &e, d, text))
        refusal_sentence(number, c, text, SENTENCE);
}

/* Refusal 16. Returns 0 if the range is one of the extent. */
static int add_bad_range(const struct extent *e, const struct page_range *r, char text[SENTENCE])
{
    unsigned long from = r->from, to = r->to;

    if (to > e->pages || from > e->pages) {
        add(text, "%s, page %lu, is past the end of ", to > e->pages ? "TO" : "FROM", to > e->pages ? to : from);
        add_extent(e, text);
    } else if (from > to)
        add(text, "FROM, page %lu, is above TO, page %lu", from, to);
    return text[0] != '\0';
}

void search_refusal(unsigned number, const struct case_file *c, const struct page_range *r, char text[SENTENCE])
{
    struct extent e = extent_of(c);

    text[0] = '\0';
    if (number != DREVOKAS_REFUSAL_RANGE || !add_bad_range(&e, r, text))
        refusal_sentence(number, c, text, SENTENCE);
}

void print_no(FILE *to, const struct case_file *c, uint64_t answer)
{
    unsigned number = (unsigned)drevokas_number(answer);
    char text[SENTENCE];

    if (drevokas_kind(answer) == DREVOKAS_REFUSED) {
        fprintf(to, "R %u\n", number);
        return;
    }
    entry_sentence(c->record, text, sizeof text);
    fprintf(to, "I %u: %s\n", number, text);
}
