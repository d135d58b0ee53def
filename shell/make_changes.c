/* Page entries changed in the tables that a case file has: what no line says stays. */
#include <stdio.h>

#include "../include/drevokas.h"
#include "text_form.h"

#define MOST_REASON 120

/* The host's tables or the guest's own, as they stand before the first change. */
struct changes {
    struct text_form *f;
    struct page *pages;
    struct tables before;
    unsigned table_frames;      /* a one for each frame with an entry of the host's tables for the extent, frame 0 rightmost */
};

static const char *new_tables_line(const struct changes *t)
{
    return t->before.is_guest ? "\"guest tables at real ADDRESS\"" : "\"host tables at frame NUMBER\"";
}

/* ---- entries out of reach ---- */

/* Why a page's entry is out of reach. */
static void say_reason(const struct tables *t, const struct host_page *p, char *reason)
{
    const char *real = t->is_guest ? "real " : "";
    const char *beyond = t->is_guest ? "beyond the extent or in a page that the host does not have" : "beyond the storage";
    unsigned long segment = p->segment_at, page = p->page_at;

    if (!p->segment_read && p->code == DREVOKAS_SEGMENT_TRANSLATION)
        snprintf(reason, MOST_REASON, "the segment table is too short for it");
    else if (!p->segment_read)
        snprintf(reason, MOST_REASON, "its segment entry, at %sX'%lX', is %s", real, segment, beyond);
    else if (p->code == DREVOKAS_SEGMENT_TRANSLATION)
        snprintf(reason, MOST_REASON, "its segment entry, at %sX'%lX', is invalid (bit 26)", real, segment);
    else if (p->code == DREVOKAS_TRANSLATION_SPECIFICATION)
        snprintf(reason, MOST_REASON, "its segment entry, at %sX'%lX', is malformed (bit 0)", real, segment);
    else if (p->code == DREVOKAS_PAGE_TRANSLATION)
        snprintf(reason, MOST_REASON, "the page table of its segment is too short for it");
    else
        snprintf(reason, MOST_REASON, "its page entry, at %sX'%lX', is %s", real, page, beyond);
}

static int out_of_reach(const struct changes *t, uint32_t number, const struct host_page *p, struct message *m)
{
    char name[MOST_PAGE_NAME], reason[MOST_REASON];

    page_name(t->f, t->before.is_guest, number, name);
    say_reason(&t->before, p, reason);
    return wrong(m, "the %s has no entry that could be changed: %s; add %s, which makes tables with this page and all that "
                 "these have", name, reason, new_tables_line(t));
}

/* ---- one entry ---- */

/* Whether a line puts a page in a frame of the host's tables, where it was not before. */
static int enters_tables(const struct changes *t, uint32_t entry, const struct host_page *before)
{
    uint32_t frame = (entry & BLOCK) / FRAME_BYTES;

    if (t->before.is_guest || (entry & PAGE_INVALID) || (before->valid && before->frame == frame))
        return 0;
    return t->table_frames >> frame & 1;
}

/* Changes the entry of one page as its line says. */
static int change_page(struct changes *t, uint32_t number, struct message *m)
{
    struct page *p = &t->pages[number];
    struct host_page found = walk_tables(&t->before, number * FRAME_BYTES);
    struct place at = {IN_FRAMES, found.page_place};
    uint8_t bytes[ENTRY_BYTES];
    char name[MOST_PAGE_NAME];
    unsigned other;

    if (!found.page_read)
        return out_of_reach(t, number, &found, m);
    other = t->f->owners[found.page_place];
    p->entry |= found.entry & p->kept;
    page_name(t->f, t->before.is_guest, number, name);
    if (enters_tables(t, p->entry, &found))
        return wrong(m, "the %s would be in frame %lu, which holds entries of the host's tables; use another frame", name,
                     (unsigned long)(p->entry & BLOCK) / FRAME_BYTES);
    if (other != 0)
        return wrong(m, "the %s has its entry, at X'%lX', in common with a page of line %u; add %s, which gives each page its "
                     "own, or change the word with \"at frame\"", name, (unsigned long)at.address, other, new_tables_line(t));
    put_number(bytes, ENTRY_BYTES, p->entry);
    return put_contents(t->f, p->line, at, bytes, ENTRY_BYTES, m);
}

/* Changes every page that a line maps; of each line the first fault is told. */
static void change_pages(struct changes *t)
{
    struct message m;
    unsigned faulty = 0;
    uint32_t number;

    for (number = 0; number < PAGES && !enough_faults(t->f); number++) {
        unsigned line = t->pages[number].line;

        if (line == 0 || line == faulty || change_page(t, number, &m) == 0)
            continue;
        note_fault(t->f, line, &m);
        faulty = line;
    }
}

/* ---- nothing else is changed ---- */

/* The line that has put a word which the walk to a page reads; the first one that maps a page, if that cannot be told. */
static unsigned changed_by(const struct changes *t, const struct host_page *p)
{
    unsigned line = p->page_read ? t->f->owners[p->page_place] : 0;

    if (line == 0 && p->segment_read)
        line = t->f->owners[p->segment_place];
    return line != 0 ? line : first_line(t->pages);
}

/* Whether a page is as its line says, or as it was. */
static int is_right(const struct changes *t, uint32_t number, const struct host_page *before, const struct host_page *after)
{
    uint32_t entry = t->pages[number].line != 0 ? t->pages[number].entry : before->entry;

    if (t->pages[number].line == 0 && after->code != before->code)
        return 0;
    return after->page_read == before->page_read && after->page_place == before->page_place && after->entry == entry;
}

/* Tables whose words serve two ends cannot be changed in one of them alone. */
static void check_others(struct changes *t)
{
    struct tables after = t->before;
    char name[MOST_PAGE_NAME];
    struct message m;
    uint32_t number;

    after.c = &t->f->c;
    for (number = 0; number < PAGES && t->f->fault_count == 0; number++) {
        struct host_page was = walk_tables(&t->before, number * FRAME_BYTES);
        struct host_page is = walk_tables(&after, number * FRAME_BYTES);

        if (is_right(t, number, &was, &is))
            continue;
        page_name(t->f, t->before.is_guest, number, name);
        wrong(&m, "this would change the way to the %s too, since the tables use one word for both; add %s, which gives each "
              "page its own entry, or change the word with \"at frame\"", name, new_tables_line(t));
        note_fault(t->f, changed_by(t, &was), &m);
    }
}

/* ---- all of them ---- */

static unsigned frames_of_tables(const struct text_form *f, const struct tables *host)
{
    uint64_t page = first_host_page(f), end = page + record_number(f, "extent") * BLOCK_PAGES;
    struct host_page found;
    unsigned frames = 0;

    for (; page < end && page < PAGES; page++) {
        found = walk_tables(host, (uint32_t)page * FRAME_BYTES);
        frames |= entry_frames(&found);
    }
    return frames;
}

void change_tables(struct text_form *f, int is_guest)
{
    struct page *pages = is_guest ? f->virtual_pages : f->host_pages;
    struct case_file before = f->c;
    struct changes t = {f, pages, is_guest ? tables_of_guest(&before) : tables_of_host(&before), 0};
    unsigned line = first_line(pages);
    struct message m;

    if (line == 0)
        return;
    if (is_guest && !has_guest_tables(&f->c)) {
        wrong(&m, "the guest has no tables (CR0 bits 8-12 are not 10110); add %s", new_tables_line(&t));
        note_fault(f, line, &m);
        return;
    }
    if (!is_guest)
        t.table_frames = frames_of_tables(f, &t.before);
    change_pages(&t);
    check_others(&t);
}
