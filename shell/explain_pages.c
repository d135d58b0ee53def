/* The guest's pages by the host's tables. */
#include <stdio.h>
#include <string.h>

#include "explain.h"
#include "fields.h"
#include "walk.h"
#include "words.h"

#define NAMED 4             /* guest pages that are kept for each frame; of the others only their number is */
#define PAGES_OF_BLOCK 16
#define PAGE_WORDS 21       /* columns from which the words stand: of a page, */
#define FRAME_WORDS 4       /* and of further lines on the frames */

/* The guest pages of one frame. */
struct sharing {
    uint32_t count, first[NAMED];
};

struct view {
    const struct case_file *c;
    uint32_t origin, pages;             /* host virtual address of guest page 0; pages of the extent */
    struct sharing of[MOST_FRAMES];
    uint32_t valid, guarded;            /* pages that are valid; those of them that are protected */
    unsigned tables;                    /* a one for each frame with an entry that describes the extent, frame 0 rightmost */
    uint64_t lines;                     /* that may still be printed */
};

static struct host_page page_of(const struct view *v, uint32_t page)
{
    return walk(v->c, v->origin + page * FRAME_BYTES);
}

static void note_frame(struct sharing *s, uint32_t page)
{
    if (s->count < NAMED)
        s->first[s->count] = page;
    s->count++;
}

static void note_page(struct view *v, uint32_t page)
{
    struct host_page p = page_of(v, page);

    v->tables |= entry_frames(&p);
    if (!p.valid)
        return;
    v->valid++;
    v->guarded += p.is_protected;
    if (p.code == 0)
        note_frame(&v->of[p.frame], page);
}

/* ---- the list ---- */

/* Pages from one up to, and not with, another that are all alike, and what the walk finds for the first. */
struct range {
    uint32_t from, to;
    struct host_page p;
};

/* Whether both are in the same frame with the same protection, or end in the same host fault. */
static int is_alike(const struct host_page *a, const struct host_page *b)
{
    if (a->code != b->code || a->valid != b->valid)
        return 0;
    return a->code != 0 || (a->frame == b->frame && a->is_protected == b->is_protected);
}

/* Whether the page after the range is like those in it, and its entry follows theirs or has no place either. */
static int goes_on(const struct view *v, const struct range *r)
{
    struct host_page next;

    if (r->to == v->pages)
        return 0;
    next = page_of(v, r->to);
    if (next.page_read != r->p.page_read || !is_alike(&r->p, &next))
        return 0;
    return !next.page_read || next.page_place == r->p.page_place + (r->to - r->from) * ENTRY_BYTES;
}

static struct range range_from(const struct view *v, uint32_t page)
{
    struct range r;

    r.from = page;
    r.to = page + 1;
    r.p = page_of(v, page);
    while (goes_on(v, &r))
        r.to++;
    return r;
}

/* The pages outside the range that are in the same frame. */
static void add_sharers(char text[SENTENCE], const struct sharing *s, const struct range *r)
{
    uint32_t others = s->count - (r->to - r->from), named = 0, i;

    if (others == 0)
        return;
    add(text, "; shared with");
    for (i = 0; i < NAMED && i < s->count; i++) {
        if (s->first[i] >= r->from && s->first[i] < r->to)
            continue;
        add(text, " %08lx", (unsigned long)s->first[i] * FRAME_BYTES);
        named++;
    }
    if (others > named)
        add(text, "%s %lu more", named > 0 ? " and" : "", (unsigned long)(others - named));
}

static void add_frame(char text[SENTENCE], const struct view *v, const struct range *r)
{
    unsigned key = v->c->keys[r->p.frame];

    add(text, "frame %lu%s; key %u%s%s%s", (unsigned long)r->p.frame, r->p.is_protected ? ", protected" : "", key >> 4,
        key & 8 ? ", fetch-protected" : "", key & 4 ? ", referenced" : "", key & 2 ? ", changed" : "");
    add_sharers(text, &v->of[r->p.frame], r);
}

/* The first page's entry, and what holds for all pages. */
static void range_sentence(const struct view *v, const struct range *r, char text[SENTENCE])
{
    unsigned long count = r->to - r->from;

    text[0] = '\0';
    if (r->p.page_read)
        add(text, "entry %08lx  ", (unsigned long)r->p.page_place);
    else
        add(text, "no entry        ");
    if (count > 1)
        add(text, "%lu pages ", count);
    if (r->p.code == 0) {
        add(text, "%s", count > 1 ? "all in " : "");
        add_frame(text, v, r);
    } else
        add(text, "%s: host fault %02x hex, %s", r->p.valid ? "valid, frame beyond the storage" : "not valid", r->p.code,
            program_words(r->p.code));
}

/* Prints one range, if there is room for its lines. */
static int list_range(struct view *v, const struct range *r)
{
    char text[SENTENCE];
    unsigned lines;

    range_sentence(v, r, text);
    lines = lines_from(PAGE_WORDS, text);
    if (v->lines < lines)
        return 0;
    v->lines -= lines;
    printf("  %08lx-%08lx  ", (unsigned long)r->from * FRAME_BYTES, (unsigned long)r->to * FRAME_BYTES - 1);
    print_from(PAGE_WORDS, "%s", text);
    return 1;
}

static void print_list(struct view *v)
{
    struct range r;
    uint32_t listed = 0;

    while (listed < v->pages) {
        r = range_from(v, listed);
        if (!list_range(v, &r))
            break;
        listed = r.to;
    }
    if (listed < v->pages)
        printf("  %08lx-%08lx  not listed; --pages N lists more\n", (unsigned long)listed * FRAME_BYTES,
               (unsigned long)v->pages * FRAME_BYTES - 1);
}

/* ---- the frames ---- */

static void print_frames(const struct view *v)
{
    char text[SENTENCE] = "";
    unsigned i;

    add(text, "  frames with table entries for these pages:%s", v->tables == 0 ? " none" : "");
    for (i = 0; i < v->c->frames; i++)
        if (v->tables >> i & 1)
            add(text, " %u%s", i, v->of[i].count > 0 ? " (also a guest frame)" : "");
    print_from(FRAME_WORDS, "%s", text);
}

void explain_pages(const struct case_file *c, uint64_t lines)
{
    struct view v;
    uint32_t i;

    memset(&v, 0, sizeof v);
    v.c = c;
    v.origin = (uint32_t)get_field(c->record, find_field("origin")) << 16;
    v.pages = (uint32_t)get_field(c->record, find_field("extent")) * PAGES_OF_BLOCK;
    v.lines = lines;
    for (i = 0; i < v.pages; i++)
        note_page(&v, i);
    printf("\nPages: %lu of guest absolute storage, %lu valid (%lu protected), %lu not valid\n", (unsigned long)v.pages,
           (unsigned long)v.valid, (unsigned long)v.guarded, (unsigned long)(v.pages - v.valid));
    print_list(&v);
    print_frames(&v);
}
