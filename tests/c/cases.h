/* Pseudo-random cases for translate: 370-XA guests in records of both lengths, and System/370 guests. Most reach their byte
   or fail near the end of the walk: tables are built for the address first, with a liking for page ends, limits and the
   prefix block, and then some cases are damaged. */
#ifndef CASES_H
#define CASES_H

#include <stdint.h>
#include <stdlib.h>
#include <string.h>

#include "../../include/drevokas.h"
#include "fields.h"

#define CASE_RECORD_ROOM 320
#define CASE_STORAGE_ROOM ((size_t)4098 * 4096)
#define CASE_KEYS_ROOM 4200
#define CASE_WORDS 32
#define CASE_SEGMENTS 3
#define CASE_PAGES 4

/* A host segment that has a page table, and a guest page that has a frame. */
struct case_segment {
    uint32_t index, table, length;
};

struct case_page {
    uint32_t page, frame;
};

struct guest_case {
    /* what is handed in */
    uint8_t record[CASE_RECORD_ROOM], *storage, keys[CASE_KEYS_ROOM];
    size_t record_len, storage_len, keys_len;
    uint32_t designation, address, access;
    /* how it was made: the state of the numbers, the guest's architecture, whether it has tables, the words that are not
       zero in the storage, the wrapped address, the guest's place, the table of host segments and the host's tables as far
       as they are built */
    uint64_t random;
    int system370, dat;
    uint32_t words[CASE_WORDS], word_count;
    uint32_t logical, origin, pages, prefix, step, segment_table, most_index;
    struct case_segment segments[CASE_SEGMENTS];
    struct case_page mapped[CASE_PAGES];
    uint32_t segment_count, mapped_count;
};

/* ---- numbers ---- */

/* splitmix64 */
static inline uint64_t case_random(struct guest_case *c)
{
    uint64_t z = c->random += 0x9e3779b97f4a7c15u;

    z = (z ^ z >> 30) * 0xbf58476d1ce4e5b9u;
    z = (z ^ z >> 27) * 0x94d049bb133111ebu;
    return z ^ z >> 31;
}

static inline uint32_t below(struct guest_case *c, uint32_t n)
{
    return (uint32_t)((case_random(c) >> 32) * n >> 32);
}

/* True once in n. */
static inline int once_in(struct guest_case *c, uint32_t n)
{
    return below(c, n) == 0;
}

static inline uint32_t any_word(struct guest_case *c)
{
    return (uint32_t)case_random(c);
}

static inline uint32_t one_of(struct guest_case *c, const uint32_t *list, size_t count)
{
    return list[below(c, (uint32_t)count)];
}

#define ONE_OF(c, list) one_of(c, list, sizeof(list) / sizeof *(list))

/* A number below n, often the first or the last. */
static inline uint32_t edge_below(struct guest_case *c, uint32_t n)
{
    switch (below(c, 4)) {
    case 0:
        return 0;
    case 1:
        return n - 1;
    default:
        return below(c, n);
    }
}

/* ---- storage ---- */

static inline void case_word(struct guest_case *c, uint32_t at, uint32_t value)
{
    if (c->word_count == CASE_WORDS || at > CASE_STORAGE_ROOM - 4)
        return;
    c->words[c->word_count++] = at;
    put32(c->storage + at, value);
}

static inline void clear_words(struct guest_case *c)
{
    while (c->word_count != 0)
        put32(c->storage + c->words[--c->word_count], 0);
}

/* Frames come in pairs, and a large storage has its pairs far apart. */
static inline uint32_t case_frame(const struct guest_case *c, uint32_t i)
{
    return i / 2 * c->step + i % 2;
}

/* The page table of a host segment; over a page's end where it likes. */
static inline struct case_segment *segment_of(struct guest_case *c, uint32_t index)
{
    struct case_segment *s;
    uint32_t i;

    for (i = 0; i < c->segment_count; i++)
        if (c->segments[i].index == index)
            return &c->segments[i];
    if (c->segment_count == CASE_SEGMENTS)
        return NULL;
    s = &c->segments[c->segment_count];
    s->index = index;
    s->table = (case_frame(c, 2 + 2 * c->segment_count) << 12) + 64 * edge_below(c, 64);
    s->length = 0;
    c->segment_count++;
    if (index > c->most_index)
        c->most_index = index;
    return s;
}

/* The frame of a guest absolute page, given one if it has none; its host entries are written. */
static inline uint32_t frame_behind(struct guest_case *c, uint32_t page)
{
    uint32_t i, host = c->origin * 16 + page, frame, entry;
    struct case_segment *s;

    for (i = 0; i < c->mapped_count; i++)
        if (c->mapped[i].page == page)
            return c->mapped[i].frame;
    s = segment_of(c, host / 256);
    if (s == NULL || c->mapped_count == CASE_PAGES)
        return 0;
    frame = case_frame(c, 8 + c->mapped_count);
    c->mapped[c->mapped_count].page = page;
    c->mapped[c->mapped_count++].frame = frame;
    entry = frame << 12 | (any_word(c) & 0xff) | (once_in(c, 6) ? PAGE_PROTECTED : 0);
    case_word(c, s->table + host % 256 * 4, entry);
    if (host % 256 / 16 > s->length)
        s->length = host % 256 / 16;
    return frame;
}

static inline uint32_t case_prefixed(const struct guest_case *c, uint32_t page)
{
    if (page == 0)
        return c->prefix;
    return page == c->prefix ? 0 : page;
}

/* A word of a guest table, at a real address. */
static inline void guest_table_word(struct guest_case *c, uint32_t real, uint32_t value)
{
    uint32_t page = case_prefixed(c, real >> 12);

    if (page < c->pages)
        case_word(c, frame_behind(c, page) << 12 | (real & 4095), value);
}

/* ---- a sound case ---- */

static inline void choose_guest(struct guest_case *c)
{
    static const uint32_t origins[] = {0, 0, 1, 14, 15, 16, 17, 255, 256, 16383, 32760, 32767};
    static const uint32_t extents[] = {1, 1, 2, 3, 16, 17, 40, 300, 32768};
    static const uint32_t frames[] = {16, 16, 16, 16, 8, 1, 4096};
    uint32_t extent, count;

    c->origin = once_in(c, 4) ? below(c, 32768) : ONE_OF(c, origins);
    extent = once_in(c, 4) ? 1 + below(c, 40) : ONE_OF(c, extents);
    if (c->origin + extent > 32768)
        extent = 32768 - c->origin;
    c->pages = extent * 16;
    count = ONE_OF(c, frames);
    c->step = count == 4096 ? 256 : 2;
    c->storage_len = (size_t)count * 4096;
    c->keys_len = count;
    c->segment_table = case_frame(c, 0);
    put16(c->record + AT_ORIGIN, c->origin);
    put16(c->record + AT_EXTENT, extent);
}

/* A logical address, with bits that wrap away; with DAT off, most often below the extent. */
static inline void choose_address(struct guest_case *c, int dat, int wide)
{
    static const uint32_t segments[] = {0, 1, 15, 16, 255, 256, 1023, 1024, 2047};
    static const uint32_t offsets[] = {0, 1, 511, 512, 2047, 4092, 4095};
    uint32_t page, offset, mask = wide ? 0x7fffffff : 0xffffff;

    if (!dat)
        page = edge_below(c, c->pages + (once_in(c, 8) ? 1 : 0));
    else
        page = (once_in(c, 2) ? below(c, 2048) : ONE_OF(c, segments)) << 8 | edge_below(c, 256);
    offset = once_in(c, 2) ? below(c, 4096) : ONE_OF(c, offsets);
    c->logical = (page << 12 | offset) & mask;
    c->address = once_in(c, 2) ? c->logical : c->logical | (any_word(c) & ~mask);
}

/* The left word of a System/370 guest's PSW, BC or EC. In BC bit 5 is a channel's mask; in EC it is DAT and seldom one. */
static inline uint32_t system370_psw(struct guest_case *c)
{
    uint32_t psw = any_word(c);

    if (once_in(c, 2))
        return psw & ~PSW_BASE;
    return once_in(c, 8) ? psw | PSW_BASE | PSW_DAT : (psw | PSW_BASE) & ~PSW_DAT;
}

static inline void choose_cpu(struct guest_case *c)
{
    int wide = !once_in(c, 4);
    uint32_t psw = any_word(c), cr0 = any_word(c), right = any_word(c);

    c->dat = !c->system370 && !once_in(c, 4);
    if (c->system370)
        psw = system370_psw(c);
    else
        psw = c->dat ? psw | PSW_DAT : psw & ~PSW_DAT;
    if (once_in(c, 2))
        psw &= ~PSW_KEY(15);
    if (!c->system370 || once_in(c, 2))
        cr0 = (cr0 & ~CR0_FORMAT_BITS) | CR0_FORMAT;
    right = wide ? right | PSW_31 : right & ~PSW_31;
    put32(c->record + AT_PSW, psw);
    put32(c->record + AT_PSW + 4, right);
    put32(c->record + AT_CR0, cr0);
    c->access = below(c, 3);
    choose_address(c, c->dat, wide && !c->system370);
}

/* What the guest tables are to be: the real pages of the tables and of the byte. */
struct case_tables {
    uint32_t cr1, segment_at, segment, page_at, page;
};

static inline uint32_t tight_or(struct guest_case *c, uint32_t least, uint32_t most)
{
    return once_in(c, 2) ? least : most;
}

static inline void choose_tables(struct guest_case *c, struct case_tables *t)
{
    uint32_t index = c->logical >> 20, page_index = c->logical >> 12 & 255, table;

    t->cr1 = edge_below(c, c->pages) << 12;
    if (index >= 1024 && t->cr1 != 0 && !once_in(c, 8))
        t->cr1 -= 4096;
    t->segment_at = t->cr1 + index * 4;
    t->cr1 |= tight_or(c, index >> 4, 127) | (any_word(c) & 0x80000f80u);
    table = edge_below(c, c->pages) << 12 | 64 * edge_below(c, 64);
    t->page_at = table + page_index * 4;
    t->segment = table | tight_or(c, page_index >> 4, 15) | (any_word(c) & BIT(27));
    t->page = edge_below(c, c->pages) << 12 | (any_word(c) & 0xff) | (once_in(c, 6) ? PAGE_PROTECTED : 0);
}

/* A prefix that is often one of the pages reached for; of a System/370 guest, one with a 24-bit address. */
static inline void choose_prefix(struct guest_case *c, const struct case_tables *t)
{
    uint32_t wishes[5];

    wishes[0] = 0;
    wishes[1] = t->segment_at >> 12;
    wishes[2] = t->page_at >> 12;
    wishes[3] = t->page >> 12;
    wishes[4] = c->logical >> 12;
    c->prefix = once_in(c, 3) ? edge_below(c, c->pages) : ONE_OF(c, wishes);
    if (c->prefix >= c->pages)
        c->prefix = c->pages - 1;
    if (c->system370)
        c->prefix &= 0xfff;
    put32(c->record + AT_PREFIX, c->prefix << 12 | (any_word(c) & 0x80000fffu));
}

/* A key that often agrees with the PSW's, for the byte's frame. */
static inline void choose_key(struct guest_case *c, uint32_t real)
{
    uint32_t page = case_prefixed(c, real >> 12), key = get32(c->record + AT_PSW) >> 20 & 15;

    if (page >= c->pages)
        return;
    c->keys[frame_behind(c, page)] = (uint8_t)(once_in(c, 2) ? key << 4 | below(c, 16) : below(c, 256));
}

static inline void build_host_segments(struct guest_case *c)
{
    uint32_t i;

    for (i = 0; i < c->segment_count; i++) {
        const struct case_segment *s = &c->segments[i];

        case_word(c, (c->segment_table << 12) + s->index * 4,
                  s->table | tight_or(c, s->length, 15) | (any_word(c) & BIT(27)));
    }
    c->designation = c->segment_table << 12 | tight_or(c, c->most_index >> 4, 127) | (any_word(c) & 0x80000f80u);
}

/* Other bytes than zero wherever a good record may have them. One in three records is of 200 bytes; of the others one in
   three is a 370-XA guest's. */
static inline void choose_record(struct guest_case *c)
{
    uint32_t i, large = below(c, 3);

    c->system370 = large != 0 && !once_in(c, 3);
    c->record_len = large ? DREVOKAS_LONG_RECORD_LENGTH : DREVOKAS_RECORD_LENGTH;
    for (i = 0; i < c->record_len; i++)
        c->record[i] = (uint8_t)below(c, 256);
    memset(c->record + AT_RESERVED, 0, RESERVED_BYTES);
    put16(c->record + AT_LENGTH, (uint32_t)c->record_len);
    c->record[AT_VERSION] = large ? DREVOKAS_LONG_RECORD_VERSION : DREVOKAS_RECORD_VERSION;
    c->record[AT_MODE] = (uint8_t)((c->system370 ? MODE_370 : MODE_XA) | (any_word(c) & 0xf1));
    memset(c->record + AT_INTERVAL + 1, 0, 3);
    if (large)
        put32(c->record + AT_RESIDUE, edge_below(c, INTERVAL_PERIOD));
}

static inline void sound_case(struct guest_case *c)
{
    struct case_tables t;

    choose_record(c);
    choose_guest(c);
    choose_cpu(c);
    choose_tables(c, &t);
    choose_prefix(c, &t);
    put32(c->record + AT_CR1, t.cr1);
    if (c->dat) {
        guest_table_word(c, t.segment_at, t.segment);
        guest_table_word(c, t.page_at, t.page);
        choose_key(c, t.page & 0x7ffff000u);
    } else {
        choose_key(c, c->logical);
    }
    build_host_segments(c);
}

/* ---- damage ---- */

/* A word of the tables: a bit of meaning turned, or another frame or table, often one at an end of the storage. */
static inline void damage_entry(struct guest_case *c)
{
    static const uint32_t bits[] = {0, 20, 21, 22, 23, 26, 28, 31};
    static const uint32_t entries[] = {0,      0x8000, 0x9000, 0xf000, 0x10000,    0xfff000,  0x1000000, 0x7ffff000,
                                       0x7c0f, 0x7fcf, 0xfc0f, 0xffcf, 0x7ffffc0f, 0x7fffffcf};
    uint8_t *at;

    if (c->word_count == 0)
        return;
    at = c->storage + c->words[below(c, c->word_count)];
    if (once_in(c, 4))
        put32(at, ONE_OF(c, entries));
    else if (once_in(c, 4))
        put32(at, any_word(c));
    else
        put32(at, get32(at) ^ BIT(ONE_OF(c, bits)));
}

static inline void damage_numbers(struct guest_case *c)
{
    static const uint32_t kinds[] = {3, 4, 0x100, 0x80000001u, 0xffffffffu};
    static const uint32_t tables[] = {0x7ffff000, 0x10000, 0xf000, 0x1000000, 0xfff000};
    static const uint32_t control_bits[] = {3, 8, 9, 10, 11, 12};
    uint8_t *cr0 = c->record + AT_CR0, *cr1 = c->record + AT_CR1;

    switch (below(c, 8)) {
    case 0:
        c->access = ONE_OF(c, kinds);
        break;
    case 1:
        c->address = any_word(c);
        break;
    case 2:
        c->designation ^= 1u << below(c, 7);
        break;
    case 3:
        c->designation = ONE_OF(c, tables) | (c->designation & 127);
        break;
    case 4:
        put32(cr0, get32(cr0) ^ BIT(ONE_OF(c, control_bits)));
        break;
    case 5:
        put32(cr1, get32(cr1) ^ 1u << below(c, 7));
        break;
    case 6:
        put32(cr1, ONE_OF(c, tables) | (get32(cr1) & 127));
        break;
    default:
        put32(cr1, any_word(c));
    }
}

/* Lengths near the ones that are right, and at the limits. */
static inline void damage_lengths(struct guest_case *c)
{
    static const uint32_t records[] = {0, 1, 2, 66, 71, 199, 200, 201, 207, 208, 209, 300};
    static const uint32_t storages[] = {0, 1, 4095, 4097, 0xf800, 0x10001, 0xffffff, 0x1000000, 0x1000001, 0x1001000};

    switch (below(c, 5)) {
    case 0:
        c->record_len = ONE_OF(c, records);
        break;
    case 1:
        c->storage_len = ONE_OF(c, storages);
        break;
    case 2:
        c->storage_len = ONE_OF(c, storages);
        c->keys_len = c->storage_len / 4096;
        break;
    case 3:
        c->keys_len = c->keys_len == 1 || once_in(c, 2) ? c->keys_len + 1 : c->keys_len - 1;
        break;
    default:
        c->keys_len = below(c, 20);
    }
}

/* The length field, the version, both, or only what is lent, as the other record has them. */
static inline void damage_size(struct guest_case *c)
{
    int large = c->record_len == DREVOKAS_RECORD_LENGTH;
    uint32_t which = 1 + below(c, 7);

    if (which & 1)
        put16(c->record + AT_LENGTH, large ? DREVOKAS_LONG_RECORD_LENGTH : DREVOKAS_RECORD_LENGTH);
    if (which & 2)
        c->record[AT_VERSION] = large ? DREVOKAS_LONG_RECORD_VERSION : DREVOKAS_RECORD_VERSION;
    if (which & 4)
        c->record_len = large ? DREVOKAS_LONG_RECORD_LENGTH : DREVOKAS_RECORD_LENGTH;
}

/* What request 1/12 asks of a record: its size, bytes 201-203, the residue, and in mode 01 the prefix and the PSW. */
static inline void damage_long_record(struct guest_case *c)
{
    static const uint32_t residues[] = {INTERVAL_PERIOD - 1, INTERVAL_PERIOD, INTERVAL_PERIOD + 1, 0x80000000u, 0xffffffffu};
    static const uint32_t prefixes[] = {0x00fff000, 0x01000000, 0x40000000, 0x7f000000, 0x80000000u};
    static const uint32_t psw_bits[] = {5, 12};
    uint8_t *psw = c->record + AT_PSW;

    switch (below(c, 6)) {
    case 0:
        damage_size(c);
        break;
    case 1:
        c->record[AT_INTERVAL + below(c, 4)] ^= (uint8_t)(1u << below(c, 8));
        break;
    case 2:
        put32(c->record + AT_RESIDUE, ONE_OF(c, residues));
        break;
    case 3:
        put32(c->record + AT_PREFIX, ONE_OF(c, prefixes));
        put16(c->record + AT_ORIGIN, 0);
        put16(c->record + AT_EXTENT, 32768);
        break;
    case 4:
        c->record[AT_MODE] ^= MODE_370 | MODE_XA;
        break;
    default:
        put32(psw, get32(psw) ^ BIT(ONE_OF(c, psw_bits)));
    }
}

static inline void damage_record(struct guest_case *c)
{
    static const uint32_t origins[] = {32767, 32768, 65535}, extents[] = {0, 1, 2, 32768, 32769, 65535};

    switch (below(c, 7)) {
    case 0:
        c->record[below(c, 3)] ^= (uint8_t)(1u << below(c, 8));
        break;
    case 1:
        c->record[AT_RESERVED + below(c, RESERVED_BYTES)] ^= (uint8_t)(1u << below(c, 8));
        break;
    case 2:
        c->record[AT_MODE] ^= (uint8_t)(1u << below(c, 8));
        break;
    case 3:
        put16(c->record + AT_ORIGIN, ONE_OF(c, origins));
        break;
    case 4:
        put16(c->record + AT_EXTENT, ONE_OF(c, extents));
        break;
    case 5:
        put32(c->record + AT_PREFIX, c->pages << 12);
        break;
    default:
        c->record[AT_PSW + below(c, 8)] ^= (uint8_t)(1u << below(c, 8));
    }
}

static inline void damage(struct guest_case *c)
{
    switch (below(c, 10)) {
    case 0:
        damage_numbers(c);
        break;
    case 1:
        damage_lengths(c);
        break;
    case 2:
        damage_record(c);
        break;
    case 3:
        damage_long_record(c);
        break;
    default:
        damage_entry(c);
    }
}

/* ---- what users call ---- */

/* Room for cases, and the seed of their numbers; no room is a null storage. */
static inline void open_cases(struct guest_case *c, uint64_t seed)
{
    uint32_t i;

    memset(c, 0, sizeof *c);
    c->storage = calloc(1, CASE_STORAGE_ROOM);
    c->random = seed;
    for (i = 0; i < CASE_KEYS_ROOM; i++)
        c->keys[i] = (uint8_t)below(c, 256);
}

static inline void close_cases(struct guest_case *c)
{
    free(c->storage);
}

/* The next case: sound in two of five, with one defect or more in the others. */
static inline void next_case(struct guest_case *c)
{
    clear_words(c);
    c->segment_count = 0;
    c->mapped_count = 0;
    c->most_index = 0;
    sound_case(c);
    if (below(c, 5) < 2)
        return;
    damage(c);
    if (once_in(c, 3))
        damage(c);
}

#endif
