/* Guests for the tests of the page desk. */
#ifndef DESK_GUESTS_H
#define DESK_GUESTS_H

#include "desk.h"
#include "ways.h"

#define NO_PAGE 0xffffffffu

static inline void set_word(struct machine *m, size_t at, uint32_t value)
{
    put32(m->storage.at + at, value);
}

static inline void set_half_field(struct machine *m, size_t at, uint32_t value)
{
    put16(m->record.at + at, value);
}

static inline void set_extent(struct machine *m, uint32_t origin, uint32_t extent)
{
    set_half_field(m, AT_ORIGIN, origin);
    set_half_field(m, AT_EXTENT, extent);
}

/* ---- a guest with origin 15 and extent 2 ---- */

/* Its 32 pages are the last sixteen of host segment 0 and the first sixteen of segment 1. Frame 1 has the segment table, frames
   2 and 3 a page table each; frames 12 to 15 are free. */
#define PAGES 32u
#define FRAMES 16u
#define SEGMENT_0_AT 0x1000u
#define SEGMENT_1_AT 0x1004u
#define SEGMENT_2_AT 0x1008u
#define TABLE_0 0x2000u
#define TABLE_1 0x3000u

/* Where the entries of the extent's pages start in a page table of segment 0. */
#define PART_0(table) ((table) + 240 * 4)

/* Even pages are valid; odd ones are not, and their entries name the frame of the segment table. */
#define BARE 1u
#define BACKED 2u

static inline uint32_t entry_at(uint32_t page)
{
    return page < 16 ? PART_0(TABLE_0) + page * 4 : TABLE_1 + (page - 16) * 4;
}

static inline uint32_t frame_of(uint32_t page)
{
    return 4 + page / 2 % 8;
}

static inline struct machine guest(void)
{
    struct machine m = machine_of(FRAMES);
    uint32_t page;

    set_extent(&m, 15, 2);
    set_word(&m, SEGMENT_0_AT, TABLE_0 | 15);
    set_word(&m, SEGMENT_1_AT, TABLE_1);
    for (page = 0; page < PAGES; page++)
        set_word(&m, entry_at(page), page % 2 ? 0x1000 | PAGE_INVALID : frame_of(page) << 12);
    return m;
}

/* Four segments, the third with half of its pages, the fourth with none; of host page n the frame n, but of every `nth`, counted
   from `first` on, not valid. */
static inline struct machine four_segments(uint32_t frames, uint32_t nth, uint32_t first)
{
    struct machine m = machine_of(frames);
    uint32_t page;

    set_word(&m, SEGMENT_0_AT + 3 * 4, SEGMENT_INVALID);
    for (page = 0; page < 3; page++)
        set_word(&m, SEGMENT_0_AT + page * 4, (0x2000 + page * 0x400) | (page == 2 ? 7 : 15));
    for (page = 0; page < 768; page++)
        set_word(&m, 0x2000 + page * 4, page % nth == first ? PAGE_INVALID : page << 12);
    return m;
}

/* Defects that refusals 1, 2, 3, 4 and 7 and entry look at, in this order, as bits. */
static inline void apply_head(struct machine *m, unsigned defects)
{
    if (defects & 1)
        set_half_field(m, AT_LENGTH, 199);
    if (defects & 2)
        m->record.at[AT_VERSION] = 2;
    if (defects & 4)
        resize(&m->storage, m->storage.len + 1);
    if (defects & 8)
        resize(&m->keys, m->keys.len - 1);
    if (defects & 16)
        m->record.at[AT_RESERVED + 4] = 1;
    if (defects & 32)
        set_half_field(m, AT_EXTENT, 0);
}

/* ---- the guest of ways.h ---- */

/* A page is in reach, though not valid, where its own entry was read. */
static inline int in_reach(const struct way *w)
{
    return w->named.stage != DREVOKAS_STAGE_HOST_SEGMENT
           && (w->named.stage == DREVOKAS_STAGE_NONE || w->named.entry != UNREAD);
}

static inline int has_valid(const struct way *w)
{
    return in_reach(w) && w->code != DREVOKAS_PAGE_TRANSLATION && w->code != DREVOKAS_TRANSLATION_SPECIFICATION;
}

#define SPOT_PAGE (SPOT / 4096)
#define SPOT_PAGES 256u

/* Segment 1023 has a page table for three blocks, of which the extent has the last; segment 1024 one for two. */
static inline uint32_t way_word(const struct way *w, uint32_t page, uint32_t spot_entry)
{
    if (page < 224)
        return page == 0 ? 3 : page < 16 ? 0 : NO_PAGE;
    if (page < SPOT_PAGE)
        return w->before ? NO_PAGE : page == SPOT_PAGE - 1 ? 6 : 0;
    if (page == SPOT_PAGE)
        return has_valid(w) ? spot_entry >> 12 : NO_PAGE;
    return in_reach(w) ? 0 : NO_PAGE;
}

/* ---- a guest of the largest extent ---- */

#define LARGE_TABLES 514u
#define LARGE_FRAMES 4096u

/* Segment table in frames 0 and 1, page tables in the next 512; the others are the guest's. */
static inline struct machine large_guest(void)
{
    struct machine m = machine_of(LARGE_FRAMES);
    uint32_t i;

    set_extent(&m, 0, 32768);
    m.designation = 127;
    for (i = 0; i < 2048; i++)
        set_word(&m, i * 4, (0x2000 + i * 0x400) | 15);
    for (i = 0; i < DREVOKAS_MOST_PAGES; i++)
        set_word(&m, 0x2000 + i * 4, (LARGE_TABLES + i % (LARGE_FRAMES - LARGE_TABLES)) << 12);
    return m;
}

#endif
