/* The way of contents into storage: by the guest's tables, the prefix and the host's tables, as the page maps give them. */
#include "text_form.h"

uint64_t record_number(const struct text_form *f, const char *name)
{
    return get_field(f->c.record, find_field(name));
}

uint64_t first_host_page(const struct text_form *f)
{
    return record_number(f, "origin") * BLOCK_PAGES;
}

/* A page by the tables that a case file has already, for an address that no line maps. Returns 0, or -1 if it is not valid. */
static int walk_there(const struct tables *t, uint64_t *address)
{
    struct host_page p = walk_tables(t, (uint32_t)*address);

    if (!p.valid)
        return -1;
    *address = (uint64_t)p.frame * FRAME_BYTES + *address % FRAME_BYTES;
    return 0;
}

/* Whether a line maps the page, or it is a valid one that the line of the new tables carries over. */
static int is_mapped(const struct page *p, unsigned tables_line)
{
    return p->line != 0 && (p->line != tables_line || !(p->entry & (PAGE_INVALID | PAGE_ZERO)));
}

/* The page of an address by its map. */
static int use_page(const struct page *p, const char *whose, const char *instead, uint64_t *address, struct message *m)
{
    if (p->entry & PAGE_INVALID)
        return wrong(m, "%s address X'%llX' is in a page that is invalid by line %u; use another page, or \"%s\"", whose,
                     ull(*address), p->line, instead);
    *address = (p->entry & BLOCK) | *address % FRAME_BYTES;
    return 0;
}

static int virtual_to_real(const struct text_form *f, uint64_t *address, struct message *m)
{
    const struct page *p = &f->virtual_pages[*address / FRAME_BYTES];
    struct tables there = tables_of_guest(&f->c);

    if (is_mapped(p, f->guest_line))
        return use_page(p, "virtual", "at real", address, m);
    if (f->from_file && has_guest_tables(&f->c) && walk_there(&there, address) == 0)
        return 0;
    return wrong(m, "virtual address X'%llX' is in no mapped page; add \"map virtual X'%llX' to real ADDRESS\"", ull(*address),
                 ull(*address & BLOCK));
}

static int guest_to_storage(const struct text_form *f, uint64_t *address, struct message *m)
{
    uint64_t host = first_host_page(f) * FRAME_BYTES + *address;
    const struct page *p = host < ADDRESS_LIMIT ? &f->host_pages[host / FRAME_BYTES] : NULL;
    struct tables there = tables_of_host(&f->c);

    if (p != NULL && is_mapped(p, f->host_line))
        return use_page(p, "guest", "at frame", address, m);
    if (f->from_file && p != NULL && walk_there(&there, &host) == 0) {
        *address = host;
        return 0;
    }
    return wrong(m, "guest address X'%llX' is in no mapped page; add \"map guest X'%llX' to frame NUMBER\"", ull(*address),
                 ull(*address & BLOCK));
}

/* The place in storage of one byte. */
static int storage_of(const struct text_form *f, struct place p, uint64_t *at, struct message *m)
{
    *at = p.address;
    if (p.space != IN_FRAMES && p.address >= ADDRESS_LIMIT)
        return wrong(m, "the address X'%llX' is not below X'80000000'", ull(p.address));
    if (p.space == IN_VIRTUAL && virtual_to_real(f, at, m))
        return -1;
    if (p.space == IN_VIRTUAL || p.space == IN_REAL)
        *at = absolute_of((uint32_t)record_number(f, "prefix") & BLOCK, *at);
    if (p.space != IN_FRAMES && guest_to_storage(f, at, m))
        return -1;
    if (*at >= (uint64_t)f->c.frames * FRAME_BYTES)
        return wrong(m, "frame %llu is not there; frames = %u, the last one is frame %u", ull(*at / FRAME_BYTES), f->c.frames,
                     f->c.frames - 1);
    return 0;
}

int put_contents(struct text_form *f, unsigned line, struct place p, const uint8_t *bytes, size_t length, struct message *m)
{
    uint64_t at;
    size_t i;

    for (i = 0; i < length; i++, p.address++) {
        if (storage_of(f, p, &at, m))
            return -1;
        if (f->owners[at] != 0)
            return wrong(m, "this overlaps line %u: both have contents for frame %llu, offset X'%llX'; move one of them",
                         f->owners[at], ull(at / FRAME_BYTES), ull(at % FRAME_BYTES));
        f->owners[at] = line;
        f->c.storage[at] = bytes ? bytes[i] : 0;
    }
    return 0;
}
