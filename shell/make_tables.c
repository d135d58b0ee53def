/* The host's and the guest's tables, made of the page maps and of the tables that were there. */
#include <stdio.h>

#include "text_form.h"

#define SEGMENTS 2048u
#define SEGMENT_PAGES 256u
#define GROUP 16u                   /* table lengths count entries by 16 */
#define CR0_FORMAT 0x00f80000u      /* CR0 bits 8-12 */
#define CR0_FORMAT_XA 0x00b00000u   /* 10110 */

/* Tables as they are put in storage: the segment table first, and the page tables behind it. */
struct new_tables {
    struct text_form *f;
    struct page *pages;
    unsigned line;
    struct place start;
    struct place next;          /* where the next page table goes */
    struct message *m;
};

int has_guest_tables(const struct case_file *c)
{
    return (get_field(c->record, find_field("cr0")) & CR0_FORMAT) == CR0_FORMAT_XA;
}

void page_name(const struct text_form *f, int is_guest, uint32_t page, char name[MOST_PAGE_NAME])
{
    uint64_t first = is_guest ? 0 : first_host_page(f);
    const char *whose = is_guest ? "virtual" : page >= first ? "guest" : "host";

    snprintf(name, MOST_PAGE_NAME, "%s page X'%llX'", whose, ull((page >= first ? page - first : page) * FRAME_BYTES));
}

/* ---- pages ---- */

static uint32_t entry_of(const struct new_tables *t, uint32_t number)
{
    return t->pages[number].line == 0 ? PAGE_INVALID : t->pages[number].entry;
}

/* The pages of a segment up to its last one that is mapped; 0 if none is. */
static unsigned pages_in(const struct new_tables *t, unsigned segment)
{
    unsigned n = SEGMENT_PAGES;

    while (n > 0 && t->pages[segment * SEGMENT_PAGES + n - 1].line == 0)
        n--;
    return n;
}

/* Every page whose entry is in reach in the old tables has it in the new ones too, but for what a line says. */
static void carry_over(struct new_tables *t, const struct tables *old)
{
    uint32_t number;

    for (number = 0; number < PAGES; number++) {
        struct host_page found = walk_tables(old, number * FRAME_BYTES);
        struct page *p = &t->pages[number];

        if (found.page_read && p->line == 0) {
            p->line = t->line;
            p->entry = found.entry;
        } else if (found.page_read)
            p->entry |= found.entry & p->kept;
    }
}

/* ---- tables in storage ---- */

static int put_entry(struct new_tables *t, struct place p, unsigned number, uint32_t entry)
{
    uint8_t bytes[ENTRY_BYTES];

    put_number(bytes, ENTRY_BYTES, entry);
    p.address += number * ENTRY_BYTES;
    return put_contents(t->f, t->line, p, bytes, ENTRY_BYTES, t->m);
}

/* The length of a segment's page table in groups; 0 if it needs none. */
static unsigned groups_in(const struct new_tables *t, unsigned segment)
{
    return (pages_in(t, segment) + GROUP - 1) / GROUP;
}

/* Puts the segment's entry and its page table, if it has a page. */
static int put_segment(struct new_tables *t, unsigned segment)
{
    unsigned groups = groups_in(t, segment), i;

    if (groups == 0)
        return put_entry(t, t->start, segment, SEGMENT_INVALID);
    if (put_entry(t, t->start, segment, (uint32_t)t->next.address | (groups - 1)))
        return -1;
    for (i = 0; i < groups * GROUP; i++)
        if (put_entry(t, t->next, i, entry_of(t, segment * SEGMENT_PAGES + i)))
            return -1;
    t->next.address += (uint64_t)groups * GROUP * ENTRY_BYTES;
    return 0;
}

/* Whether the host's tables end within the storage. */
static int check_room(const struct new_tables *t, unsigned segments)
{
    uint64_t room = (uint64_t)t->f->c.frames * FRAME_BYTES - t->start.address, size = (uint64_t)segments * ENTRY_BYTES;
    unsigned segment;

    for (segment = 0; segment < segments; segment++)
        size += (uint64_t)groups_in(t, segment) * GROUP * ENTRY_BYTES;
    if (size <= room)
        return 0;
    return wrong(t->m, "the host tables need %llu bytes%s, and from frame %llu to the last one, frame %u, there are %llu; put "
                 "them in an earlier frame, or %s", ull(size), t->f->from_file ? ", with all pages of the old ones" : "",
                 ull(t->start.address / FRAME_BYTES), t->f->c.frames - 1, ull(room),
                 t->f->from_file ? "change the old ones with \"at frame\"" : "map fewer or lower pages");
}

/* Puts all tables; the designation of the segment table goes to *designation. */
static int put_all(struct new_tables *t, uint32_t *designation)
{
    unsigned segments = SEGMENTS, segment;

    while (segments > 1 && pages_in(t, segments - 1) == 0)
        segments--;
    segments = (segments + GROUP - 1) / GROUP * GROUP;
    if (t->start.space == IN_FRAMES && check_room(t, segments))
        return -1;
    t->next = t->start;
    t->next.address += (uint64_t)segments * ENTRY_BYTES;
    for (segment = 0; segment < segments; segment++)
        if (put_segment(t, segment))
            return -1;
    *designation = (uint32_t)t->start.address | (segments / GROUP - 1);
    return 0;
}

/* A valid page of the host's tables that is in a frame which holds them. */
static int mapped_in_tables(const struct new_tables *t, uint32_t number)
{
    const struct page *p = &t->pages[number];
    char name[MOST_PAGE_NAME];
    uint64_t frame = (p->entry & BLOCK) / FRAME_BYTES;

    page_name(t->f, 0, number, name);
    if (p->line == t->line)
        return wrong(t->m, "the %s is in frame %llu by the old tables, and the host tables would be there; put them in another "
                     "frame", name, ull(frame));
    return wrong(t->m, "the %s of line %u is in frame %llu, where the host tables are; use another frame (or put tables of "
                 "your own with \"at frame\")", name, p->line, ull(frame));
}

/* No page may be in a frame that holds the host's tables. */
static int check_frames(const struct new_tables *t)
{
    uint64_t first = t->start.address / FRAME_BYTES, last = (t->next.address - 1) / FRAME_BYTES;
    uint32_t i;

    for (i = 0; i < PAGES; i++) {
        const struct page *p = &t->pages[i];
        uint64_t frame = (p->entry & BLOCK) / FRAME_BYTES;

        if (p->line != 0 && !(p->entry & (PAGE_INVALID | PAGE_ZERO)) && frame >= first && frame <= last)
            return mapped_in_tables(t, i);
    }
    return 0;
}

/* ---- the host's and the guest's ---- */

static int put_host_tables(struct text_form *f, struct message *m)
{
    struct new_tables t = {f, f->host_pages, f->host_line, f->host_tables, f->host_tables, m};
    struct tables old = tables_of_host(&f->old);
    uint32_t designation;

    if (f->from_file)
        carry_over(&t, &old);
    if (put_all(&t, &designation) || check_frames(&t))
        return -1;
    if (f->number_lines[DESIGNATION] == 0)
        f->c.designation = designation;
    return 0;
}

/* Sets CR1, but for what lines set of it, and CR0 bits 8-12 if they are zero. */
static int put_guest_tables(struct text_form *f, struct message *m)
{
    struct new_tables t = {f, f->virtual_pages, f->guest_line, f->guest_tables, f->guest_tables, m};
    const struct field *cr1 = find_field("cr1");
    struct tables old = tables_of_guest(&f->old);
    uint64_t cr0 = record_number(f, "cr0"), given = given_bits(f, cr1);
    uint32_t designation;

    if (f->from_file && has_guest_tables(&f->old))
        carry_over(&t, &old);
    if (put_all(&t, &designation))
        return -1;
    if (f->field_lines[cr1->at] == 0)
        put_field(f->c.record, cr1, (designation & ~given) | (record_number(f, "cr1") & given));
    if ((cr0 & CR0_FORMAT) == 0)
        put_field(f->c.record, find_field("cr0"), cr0 | CR0_FORMAT_XA);
    return 0;
}

/* New tables where a line gives them a place; otherwise those that are there are changed. */
void put_tables(struct text_form *f)
{
    struct message m;

    if (f->fault_count > 0)
        return;
    if (f->host_line == 0 && f->from_file)
        change_tables(f, 0);
    else if (f->host_line != 0 && put_host_tables(f, &m))
        note_fault(f, f->host_line, &m);
    if (f->fault_count > 0)
        return;
    if (f->guest_line == 0 && f->from_file)
        change_tables(f, 1);
    else if (f->guest_line != 0 && put_guest_tables(f, &m))
        note_fault(f, f->guest_line, &m);
}
