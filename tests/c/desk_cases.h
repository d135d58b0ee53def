/* Pseudo-random guests for the page desk: host tables that overlap, share entries with one another and with the segment table,
   lie in guest frames, or are out of reach. */
#ifndef DESK_CASES_H
#define DESK_CASES_H

#include "desk.h"

#define CASE_FRAMES 8u
#define CASE_BYTES (CASE_FRAMES * 4096u)
#define CASE_PAGES 768u

/* A word that is invalid as a segment entry and as a page entry. */
#define INVALID_WORD (SEGMENT_INVALID | PAGE_INVALID)

#define NOWHERE 0xffffffffu

/* A guest, and one call. The lengths handed in may be others than those of the guest. */
struct desk_case {
    uint64_t random;
    uint8_t record[DREVOKAS_LONG_RECORD_LENGTH], storage[CASE_BYTES], keys[CASE_FRAMES];
    size_t record_len, storage_len, keys_len, count;
    uint32_t frames, designation, first, pages; /* first: the host page of page 0 */
    uint32_t page, frame, valid;
};

static inline uint32_t desk_random(struct desk_case *c)
{
    c->random ^= c->random << 13;
    c->random ^= c->random >> 7;
    c->random ^= c->random << 17;
    return (uint32_t)(c->random >> 24);
}

/* One of n numbers from 0 on. */
static inline uint32_t one_of(struct desk_case *c, uint32_t n)
{
    return desk_random(c) % n;
}

/* ---- where entries stand ---- */

/* Host segment s has its entry here; NOWHERE if it is out of reach. */
static inline uint32_t segment_at(const struct desk_case *c, uint32_t segment)
{
    uint32_t at = (c->designation & 0x7ffff000u) + segment * 4;

    return segment / 16 <= (c->designation & 127) && at < c->frames * 4096 ? at : NOWHERE;
}

/* A page of the extent has its entry here; NOWHERE if it is out of reach. */
static inline uint32_t page_at(const struct desk_case *c, uint32_t page)
{
    uint32_t host = c->first + page, at = segment_at(c, host / 256), entry;

    if (at == NOWHERE)
        return NOWHERE;
    entry = get32(c->storage + at);
    if ((entry & (SEGMENT_INVALID | BIT(0))) != 0 || host % 256 / 16 > (entry & 15))
        return NOWHERE;
    at = (entry & 0x7fffffc0u) + host % 256 * 4;
    return at < c->frames * 4096 ? at : NOWHERE;
}

/* Whether an entry that describes the extent stands at this address, as a segment's. */
static inline int is_segment_entry(const struct desk_case *c, uint32_t at)
{
    uint32_t segment;

    for (segment = c->first / 256; segment <= (c->first + c->pages - 1) / 256; segment++)
        if (segment_at(c, segment) == at)
            return 1;
    return 0;
}

/* Whether an entry that describes the extent lies in a frame. */
static inline int describes(const struct desk_case *c, uint32_t frame)
{
    uint32_t i;

    for (i = c->first / 256; i <= (c->first + c->pages - 1) / 256; i++)
        if (segment_at(c, i) / 4096 == frame)
            return 1;
    for (i = 0; i < c->pages; i += 16)
        if (page_at(c, i) / 4096 == frame)
            return 1;
    return 0;
}

/* ---- tables ---- */

/* A frame with no entry in it, if one is soon found. */
static inline uint32_t data_frame(struct desk_case *c)
{
    uint32_t frame = one_of(c, c->frames), i;

    for (i = 0; i < c->frames && describes(c, frame); i++)
        frame = (frame + 1) % c->frames;
    return frame;
}

static inline uint32_t some_page_entry(struct desk_case *c, uint32_t frame)
{
    static const uint32_t malformed[] = {BIT(0), BIT(20), BIT(23), BIT(0) | BIT(23)};
    uint32_t ignored = one_of(c, 8) == 0 ? desk_random(c) & 0x2ff : 0;

    switch (one_of(c, 16)) {
    case 0:
    case 1:
    case 2:
    case 3:
        return desk_random(c) | PAGE_INVALID;
    case 4:
        return frame << 12 | malformed[one_of(c, 4)];
    case 5:
        return (c->frames + one_of(c, 3)) << 12 | ignored;
    case 6:
        return (desk_random(c) & 0x7ffff000u) | ignored;
    default:
        return frame << 12 | ignored;
    }
}

/* Where the entries of a segment's first page of the extent and those after it might stand: in one of the frames behind the
   segment table, over the entries of the segment before, over the segment table, anywhere, at the end of the storage. */
static inline uint32_t some_place(struct desk_case *c, uint32_t segment, uint32_t before)
{
    uint32_t own = (c->designation / 4096 + 1 + segment % 2) % c->frames * 4096, length = c->frames * 4096;

    switch (one_of(c, 16)) {
    case 0:
        return before;
    case 1:
        return before + 64 * one_of(c, 4);
    case 2:
        return ((c->designation & 0x7ffff000u) + segment * 4) & 0x7fffffc0u;
    case 3:
        return one_of(c, length / 64) * 64;
    case 4:
        return length - 64 * one_of(c, 4);
    default:
        return own + segment % 4 * 0x400;
    }
}

static inline uint32_t some_length(struct desk_case *c, uint32_t index)
{
    switch (one_of(c, 8)) {
    case 0:
        return one_of(c, 16);
    case 1:
        return index / 16;
    case 2:
        return index < 16 ? 0 : index / 16 - 1;
    default:
        return 15;
    }
}

/* Gives a segment an entry; answers the place of its first entry of the extent. */
static inline uint32_t put_segment(struct desk_case *c, uint32_t segment, uint32_t before)
{
    uint32_t index = segment == c->first / 256 ? c->first % 256 : 0, at = segment_at(c, segment);
    uint32_t place = some_place(c, segment, before), table = place - index * 4;

    if (table >= c->frames * 4096)
        table = place;
    if (at == NOWHERE)
        return place;
    put32(c->storage + at, table | some_length(c, index));
    if (one_of(c, 16) == 0)
        put32(c->storage + at, get32(c->storage + at) | (one_of(c, 2) ? SEGMENT_INVALID : BIT(0)));
    return place;
}

static inline void put_page(struct desk_case *c, uint32_t page, uint32_t frame)
{
    uint32_t at = page_at(c, page);

    if (at != NOWHERE && !is_segment_entry(c, at))
        put32(c->storage + at, some_page_entry(c, frame));
}

static inline void put_tables(struct desk_case *c)
{
    uint32_t i, before = 0, frames[4];

    for (i = 0; i < c->frames * 4096; i += 4)
        put32(c->storage + i, INVALID_WORD);
    for (i = c->first / 256; i <= (c->first + c->pages - 1) / 256; i++)
        before = put_segment(c, i, before);
    for (i = 0; i < 4; i++)
        frames[i] = data_frame(c);
    for (i = 0; i < c->pages; i++)
        put_page(c, i, frames[one_of(c, 4)]);
}

/* ---- the guest ---- */

static inline void put_record(struct desk_case *c, uint32_t origin, uint32_t extent)
{
    int system370 = one_of(c, 4) == 0, longer = system370 || one_of(c, 4) == 0;

    memset(c->record, 0, sizeof c->record);
    c->record_len = longer ? DREVOKAS_LONG_RECORD_LENGTH : DREVOKAS_RECORD_LENGTH;
    put16(c->record + AT_LENGTH, (uint32_t)c->record_len);
    c->record[AT_VERSION] = longer ? 2 : 1;
    c->record[AT_MODE] = (uint8_t)((system370 ? MODE_370 : MODE_XA) | (one_of(c, 256) & 0xf1));
    put32(c->record + AT_PREFIX, desk_random(c) & 0x8000ffffu);
    put16(c->record + AT_ORIGIN, origin);
    put16(c->record + AT_EXTENT, extent);
    put32(c->record + AT_PSW, desk_random(c));
    put32(c->record + AT_CR0, desk_random(c));
}

/* Another guest, with other tables. */
static inline void next_guest(struct desk_case *c)
{
    static const uint32_t origins[] = {0, 1, 14, 15, 16, 17, 31, 47, 254, 255, 256, 0x3ffe, 0x3fff, 0x4000, 32766, 32767};
    uint32_t origin = origins[one_of(c, 16)], extent = 1 + one_of(c, one_of(c, 16) ? 4 : CASE_PAGES / 16), segments, i;

    extent = origin + extent > 32768 ? 32768 - origin : extent;
    c->frames = one_of(c, 4) ? CASE_FRAMES : 1 + one_of(c, CASE_FRAMES);
    put_record(c, origin, extent);
    c->first = origin * 16;
    c->pages = extent * 16;
    segments = (c->first + c->pages - 1) / 4096;
    c->designation = one_of(c, c->frames) << 12 | (one_of(c, 2) ? segments : 127);
    if (one_of(c, 32) == 0)
        c->designation = one_of(c, 2 * CASE_FRAMES) << 12 | one_of(c, 128);
    if (one_of(c, 16) == 0 && segments > 0)
        c->designation = (c->designation & 0xfffff000u) | (segments - 1);
    c->designation |= desk_random(c) & 0x80000f80u;
    for (i = 0; i < CASE_FRAMES; i++)
        c->keys[i] = (uint8_t)desk_random(c);
    put_tables(c);
}

/* Something in the tables becomes other, as it does between calls. */
static inline void change_tables(struct desk_case *c)
{
    uint32_t page = one_of(c, c->pages), before = page_at(c, one_of(c, c->pages));

    switch (one_of(c, 8)) {
    case 0:
        put_segment(c, (c->first + page) / 256, before == NOWHERE ? 0 : before & 0x7fffffc0u);
        break;
    case 1:
        put_page(c, page, one_of(c, c->frames));
        break;
    case 2:
    case 3:
        put_page(c, page, data_frame(c));
        break;
    default:
        break;
    }
}

/* ---- the call ---- */

/* One thing of those that refusals 1 to 4 and 7 and entry look at. */
static inline void break_head(struct desk_case *c)
{
    switch (one_of(c, 9)) {
    case 0:
        c->record_len = one_of(c, 2) ? one_of(c, 209) : 408 - c->record_len;
        break;
    case 1:
        c->record[AT_LENGTH + one_of(c, 2)] ^= (uint8_t)(1u << one_of(c, 8));
        break;
    case 2:
        c->record[AT_VERSION] = (uint8_t)one_of(c, 4);
        break;
    case 3:
        c->storage_len = one_of(c, 4) ? one_of(c, c->frames) * 4096 + 1 + one_of(c, 4095) : 0;
        break;
    case 4:
        c->keys_len = one_of(c, CASE_FRAMES + 1);
        break;
    case 5:
        c->record[AT_RESERVED + one_of(c, RESERVED_BYTES)] ^= 1;
        break;
    case 6:
        c->record[AT_INTERVAL + one_of(c, 8)] ^= (uint8_t)(1u << one_of(c, 8));
        break;
    case 7:
        c->record[AT_MODE] = (uint8_t)desk_random(c);
        break;
    default:
        put32(c->record + AT_ORIGIN, one_of(c, 2) ? 0x80000001u : 0);
    }
}

/* One or two of them, now and then. */
static inline void break_some_heads(struct desk_case *c)
{
    uint32_t defects;

    for (defects = one_of(c, 16) ? 0 : 1 + one_of(c, 2); defects > 0; defects--)
        break_head(c);
}

/* A page whose entry serves twice, where one is found; else any. */
static inline uint32_t some_page(struct desk_case *c)
{
    uint32_t page = one_of(c, c->pages), i;

    if (one_of(c, 32) == 0)
        return one_of(c, 2) ? c->pages + one_of(c, 2) : one_of(c, c->pages) - c->first;
    for (i = 0; i < 4 && one_of(c, 2); i++)
        if (!is_segment_entry(c, page_at(c, page)))
            page = one_of(c, c->pages);
    return page;
}

static inline uint32_t some_frame(struct desk_case *c)
{
    switch (one_of(c, 8)) {
    case 0:
        return one_of(c, 2) ? c->frames + one_of(c, 2) : 0x100000 + one_of(c, c->frames);
    case 1:
        return one_of(c, c->frames);
    default:
        return data_frame(c);
    }
}

/* The next call; its record and lengths are put right again with the one after. */
static inline void next_call(struct desk_case *c)
{
    change_tables(c);
    c->storage_len = c->frames * 4096;
    c->keys_len = c->frames;
    c->page = some_page(c);
    c->frame = some_frame(c);
    c->valid = one_of(c, 4) ? desk_random(c) : one_of(c, 3) - 1;
    c->count = one_of(c, 4) ? c->pages + one_of(c, 3) : c->pages - one_of(c, c->pages + 1);
}

/* ---- by the words of the requests ---- */

static inline int valid_entry(uint32_t entry)
{
    return (entry & (BIT(0) | BIT(20) | BIT(21) | BIT(23))) == 0;
}

static inline int valid_page(const struct desk_case *c, uint32_t page)
{
    uint32_t at = page_at(c, page);

    return at != NOWHERE && valid_entry(get32(c->storage + at));
}

/* The answer of refusals 1 to 4 and 7 and of entry; else good. */
static inline uint64_t head_answer(const struct desk_case *c)
{
    uint64_t checked = drevokas_check(c->record, c->record_len);

    if (drevokas_kind(checked) == DREVOKAS_REFUSED && drevokas_number(checked) < 3)
        return checked;
    if (c->storage_len == 0 || c->storage_len % 4096 != 0)
        return answer_of(DREVOKAS_REFUSED, 3);
    return c->storage_len / 4096 != c->keys_len ? answer_of(DREVOKAS_REFUSED, 4) : checked;
}

/* Puts so many cases to the test, with new tables every `calls` of them; says the seed, and where a case differs. Usage of the
   program: [cases [seed]] */
static inline int all_the_same(int argc, char **argv, unsigned long cases, uint64_t seed, unsigned long calls,
                               void (*next)(struct desk_case *), int (*compare)(struct desk_case *))
{
    static struct desk_case c;
    unsigned long i;

    if (argc > 1)
        cases = strtoul(argv[1], NULL, 10);
    if (argc > 2)
        seed = strtoull(argv[2], NULL, 10);
    printf("seed %llu\n", (unsigned long long)seed);
    c.random = seed * 0x9e3779b97f4a7c15u + 1;
    for (i = 0; i < cases; i++) {
        if (i % calls == 0)
            next(&c);
        if (!compare(&c)) {
            printf("different in case %lu\n", i);
            return 0;
        }
    }
    printf("%lu cases the same\n", cases);
    return 1;
}

#endif
