/* A guest with one page, SPOT, that the host cannot give, in each way that there is, and what is answered then. */
#ifndef WAYS_H
#define WAYS_H

#include "machine.h"

/* Origin 3FF2 hex, extent 16. Guest absolute page 0, in frame 3, is host page 32 of segment 1023. SPOT, in frame 5, is host
   page 16 of segment 1024, and the page before it, in frame 6, host page 15: so the two segments are on both sides of a segment
   table's length and of a storage's end, and the two pages on both sides of a page table's length and of a storage's end. */
#define SPOT 0xf0000u
#define SPOT_VIRTUAL 0x40010000u
#define SPOT_FRAME (5 * 4096)
#define OTHER_FRAME (3 * 4096)
#define BEFORE_FRAME (6 * 4096)
#define SPOT_SEGMENT_AT 0x2000u
#define SPOT_ENTRY_AT 0x4040u
#define OTHER_TABLE 0x6000u

/* A word of storage to change, or the designation; and the host fault. */
struct way {
    uint32_t at, word, code;
    struct table named;
    int before; /* whether the page before SPOT cannot be given either */
};

#define AT_DESIGNATION 0
#define AS_SEGMENT DREVOKAS_STAGE_HOST_SEGMENT
#define AS_PAGE DREVOKAS_STAGE_HOST_PAGE

static const struct way ways[] = {
    /* the segment is past the table's length; its entry is past the storage */
    {AT_DESIGNATION, 0x1000 | 63, 0x10, {AS_SEGMENT, UNREAD}, 1},
    {AT_DESIGNATION, 0x7000 | 64, 5, {AS_SEGMENT, UNREAD}, 1},
    {AT_DESIGNATION, 0x7000 | 63, 0x10, {AS_SEGMENT, UNREAD}, 1},
    /* its entry is invalid; malformed; both */
    {SPOT_SEGMENT_AT, 0x4001 | SEGMENT_INVALID, 0x10, {AS_SEGMENT, SPOT_SEGMENT_AT}, 1},
    {SPOT_SEGMENT_AT, 0x4001 | BIT(0), 0x12, {AS_SEGMENT, SPOT_SEGMENT_AT}, 1},
    {SPOT_SEGMENT_AT, 0xffffffffu, 0x10, {AS_SEGMENT, SPOT_SEGMENT_AT}, 1},
    /* the page is past the table's length; its entry is past the storage */
    {SPOT_SEGMENT_AT, 0x4000, 0x11, {AS_PAGE, UNREAD}, 0},
    {SPOT_SEGMENT_AT, 0x7fc1, 5, {AS_PAGE, UNREAD}, 0},
    {SPOT_SEGMENT_AT, 0x7fc0, 0x11, {AS_PAGE, UNREAD}, 0},
    {SPOT_SEGMENT_AT, 0x7fffffc1, 5, {AS_PAGE, UNREAD}, 1},
    /* its entry is invalid; malformed; both */
    {SPOT_ENTRY_AT, 0x5000 | PAGE_INVALID, 0x11, {AS_PAGE, SPOT_ENTRY_AT}, 0},
    {SPOT_ENTRY_AT, 0x5000 | BIT(0), 0x12, {AS_PAGE, SPOT_ENTRY_AT}, 0},
    {SPOT_ENTRY_AT, 0x5000 | BIT(20), 0x12, {AS_PAGE, SPOT_ENTRY_AT}, 0},
    {SPOT_ENTRY_AT, 0x5000 | BIT(23), 0x12, {AS_PAGE, SPOT_ENTRY_AT}, 0},
    {SPOT_ENTRY_AT, 0xffffffffu, 0x11, {AS_PAGE, SPOT_ENTRY_AT}, 0},
    /* its frame is past the storage */
    {SPOT_ENTRY_AT, 0x8000, 5, {AS_PAGE, SPOT_ENTRY_AT}, 0},
    {SPOT_ENTRY_AT, 0x7ffff000, 5, {AS_PAGE, SPOT_ENTRY_AT}, 0},
    {SPOT_ENTRY_AT, 0x8000 | PAGE_PROTECTED, 5, {AS_PAGE, SPOT_ENTRY_AT}, 0},
    /* it is protected: no store, but every fetch */
    {SPOT_ENTRY_AT, 0x5000 | PAGE_PROTECTED, 4, {DREVOKAS_STAGE_NONE, 0}, 0},
};

#define WAYS (sizeof ways / sizeof *ways)

/* The guest, with DAT off and SPOT gone. The word at 7FFC hex is for tables at the end of the storage: there it is the entry of
   segment 1023, or that of the page before SPOT. */
static inline struct machine spot_guest(const struct way *w)
{
    struct machine m = machine_of(8);

    put16(m.record.at + AT_ORIGIN, 0x3ff2);
    put16(m.record.at + AT_EXTENT, 16);
    m.designation = 0x1000 | 64;
    put32(m.storage.at + 0x1ffc, OTHER_TABLE | 2);
    put32(m.storage.at + 0x7ffc, OTHER_TABLE | 2);
    put32(m.storage.at + OTHER_TABLE + 32 * 4, OTHER_FRAME);
    put32(m.storage.at + SPOT_SEGMENT_AT, 0x4001);
    put32(m.storage.at + SPOT_ENTRY_AT - 4, BEFORE_FRAME);
    put32(m.storage.at + SPOT_ENTRY_AT, SPOT_FRAME);
    if (w->at == AT_DESIGNATION)
        m.designation = w->word;
    else
        put32(m.storage.at + w->at, w->word);
    return m;
}

#endif
