#include "walk.h"

#include <string.h>

#include "../include/drevokas.h"
#include "fields.h"

#define PAGE_TABLE 0x7fffffc0u      /* bits 1-25: a page table's address */
#define BLOCK_SHIFT 16              /* origin and extent count 64 KiB */
#define ENTRIES_AT_ONCE 16u         /* a table of length 0 has 16 entries, and 16 more for each further length */

/* ---- tables and their words ---- */

struct tables tables_of_host(const struct case_file *c)
{
    struct tables t = {c, c->designation, 0, 0, 0, 0};

    return t;
}

struct tables tables_of_guest(const struct case_file *c)
{
    struct tables t = {c, 0, 1, 0, 0, 0};

    t.designation = (uint32_t)get_field(c->record, find_field("cr1"));
    t.prefix = (uint32_t)get_field(c->record, find_field("prefix")) & BLOCK;
    t.origin = get_field(c->record, find_field("origin")) << BLOCK_SHIFT;
    t.extent = get_field(c->record, find_field("extent")) << BLOCK_SHIFT;
    return t;
}

uint64_t absolute_of(uint32_t prefix, uint64_t real)
{
    uint64_t block = real & ~UINT64_C(0xfff);

    if (block == 0)
        return real | prefix;
    return block == prefix ? real & 0xfff : real;
}

uint64_t host_virtual(const struct tables *guest, uint32_t real)
{
    return guest->origin + absolute_of(guest->prefix, real);
}

/* Where a word of the tables stands in storage. Returns 0, or -1 if it is beyond the storage, or, of the guest's tables, beyond
   the extent or in a page that the host does not have. It is on a word boundary, so it does not cross an end. */
static int place_of(const struct tables *t, uint32_t at, uint32_t *place)
{
    uint64_t host = host_virtual(t, at);
    struct host_page p;

    *place = at;
    if (!t->is_guest)
        return at < t->c->frames * (uint32_t)FRAME_BYTES ? 0 : -1;
    if (at >= t->extent || host >= ADDRESS_LIMIT)
        return -1;
    p = walk(t->c, (uint32_t)host);
    *place = p.frame * FRAME_BYTES + at % FRAME_BYTES;
    return p.code == 0 ? 0 : -1;
}

static int read_entry(const struct tables *t, uint32_t at, uint32_t *place, uint32_t *entry)
{
    if (place_of(t, at, place) != 0)
        return -1;
    *entry = (uint32_t)get_number(t->c->storage + *place, 4);
    return 0;
}

/* ---- the walk ---- */

static uint32_t segment_index(uint32_t address)
{
    return address >> 20 & 0x7ff;
}

static uint32_t page_index(uint32_t address)
{
    return address >> 12 & 0xff;
}

static uint32_t segment_entries(uint32_t designation)
{
    return ((designation & 0x7f) + 1) * ENTRIES_AT_ONCE;
}

static uint32_t page_entries(uint32_t segment)
{
    return ((segment & 0xf) + 1) * ENTRIES_AT_ONCE;
}

/* The segment entry: 0 or a program code. */
static unsigned segment_step(const struct tables *t, uint32_t address, struct host_page *p)
{
    uint32_t index = segment_index(address);

    if (index >= segment_entries(t->designation))
        return DREVOKAS_SEGMENT_TRANSLATION;
    p->segment_at = (t->designation & BLOCK) + ENTRY_BYTES * index;
    if (read_entry(t, p->segment_at, &p->segment_place, &p->segment) != 0)
        return DREVOKAS_ADDRESSING;
    p->segment_read = 1;
    if (p->segment & SEGMENT_INVALID)
        return DREVOKAS_SEGMENT_TRANSLATION;
    return p->segment & SEGMENT_ZERO ? DREVOKAS_TRANSLATION_SPECIFICATION : 0;
}

/* The page entry, from a valid segment entry: 0 or a program code. */
static unsigned page_step(const struct tables *t, uint32_t address, struct host_page *p)
{
    uint32_t index = page_index(address);

    p->page_sought = 1;
    if (index >= page_entries(p->segment))
        return DREVOKAS_PAGE_TRANSLATION;
    p->page_at = (p->segment & PAGE_TABLE) + ENTRY_BYTES * index;
    if (read_entry(t, p->page_at, &p->page_place, &p->entry) != 0)
        return DREVOKAS_ADDRESSING;
    p->page_read = 1;
    if (p->entry & PAGE_INVALID)
        return DREVOKAS_PAGE_TRANSLATION;
    return p->entry & PAGE_ZERO ? DREVOKAS_TRANSLATION_SPECIFICATION : 0;
}

struct host_page walk_tables(const struct tables *t, uint32_t address)
{
    struct host_page p;

    memset(&p, 0, sizeof p);
    p.code = segment_step(t, address, &p);
    if (p.code == 0)
        p.code = page_step(t, address, &p);
    if (p.code != 0)
        return p;
    p.valid = 1;
    p.is_protected = (p.entry & PAGE_PROTECTED) != 0;
    p.frame = (p.entry & BLOCK) >> 12;
    if (!t->is_guest && p.frame >= t->c->frames)
        p.code = DREVOKAS_ADDRESSING;
    return p;
}

struct host_page walk(const struct case_file *c, uint32_t address)
{
    struct tables t = tables_of_host(c);

    return walk_tables(&t, address);
}

struct last_entry last_entry(const struct tables *t, const struct host_page *p, uint32_t address)
{
    struct last_entry e;

    e.is_page = p->page_sought;
    e.is_read = e.is_page ? p->page_read : p->segment_read;
    e.table = e.is_page ? p->segment & PAGE_TABLE : t->designation & BLOCK;
    e.entries = e.is_page ? page_entries(p->segment) : segment_entries(t->designation);
    e.index = e.is_page ? page_index(address) : segment_index(address);
    e.at = e.table + ENTRY_BYTES * e.index;
    e.word = e.is_page ? p->entry : p->segment;
    return e;
}

unsigned entry_frames(const struct host_page *p)
{
    unsigned of_segment = p->segment_read ? 1u << p->segment_place / FRAME_BYTES : 0;

    return p->page_read ? of_segment | 1u << p->page_place / FRAME_BYTES : of_segment;
}
