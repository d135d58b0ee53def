/* The page desk. Written from document 01 and requests 3/12 and 4/12 alone, as plain.c is. */
#include <string.h>

#include "plain.h"
#include "plain_words.h"

enum { SEGMENT_PAGES = 256, MOST_FRAMES = 4096 };

/* What is marked of a frame: an entry that describes the extent lies in it; it is a guest frame. */
enum { DESCRIBES = 1, GUEST = 2 };

/* The host's tables and the extent's pages in them, from first up to end. */
struct desk {
    const uint8_t *storage;
    uint32_t length, designation, first, end;
};

/* A host segment that the extent touches: its entry, and those of its pages from the one asked for on, one after the other as
   far as they are in reach. The pages are those of the extent. */
struct segment {
    uint32_t entry_at, pages, at, reached;
    int in_reach;
};

static uint32_t least(uint32_t a, uint32_t b)
{
    return a < b ? a : b;
}

/* The segment of a page, and its pages from this one on. */
static struct segment segment_from(const struct desk *d, uint32_t page)
{
    uint32_t index = page % SEGMENT_PAGES, entry, table, end;
    struct segment s;

    s.entry_at = (d->designation & BLOCK) + page / SEGMENT_PAGES * 4;
    s.pages = least(SEGMENT_PAGES - index, d->end - page);
    s.at = 0;
    s.reached = 0;
    s.in_reach = page >> 12 <= (d->designation & 127) && s.entry_at < d->length;
    if (!s.in_reach)
        return s;
    entry = word(d->storage + s.entry_at);
    table = entry & 0x7fffffc0u;
    if ((entry & (BIT(26) | BIT(0))) || table >= d->length)
        return s;
    end = least(((entry & 15) + 1) * 16, (d->length - table) / 4);
    s.at = table + index * 4;
    s.reached = end > index ? least(end - index, s.pages) : 0;
    return s;
}

static int is_valid(uint32_t entry)
{
    return !(entry & (BIT(0) | BIT(20) | BIT(21) | BIT(23)));
}

/* Whether an entry may not stand as it does: it serves a second page or a segment of the extent, or an entry that describes
   the extent lies in a guest frame. */
static int misplaced(const struct desk *d, uint32_t chosen)
{
    uint8_t marks[MOST_FRAMES];
    uint32_t page, i, entry, served = 0, clash = 0;
    struct segment s;

    memset(marks, 0, sizeof marks);
    for (page = d->first; page < d->end; page += s.pages) {
        s = segment_from(d, page);
        if (s.in_reach) {
            marks[s.entry_at >> 12] |= DESCRIBES;
            clash |= s.entry_at == chosen;
        }
        if (s.reached == 0)
            continue;
        served += chosen >= s.at && chosen - s.at < s.reached * 4;
        marks[s.at >> 12] |= DESCRIBES;
        marks[(s.at + s.reached * 4 - 1) >> 12] |= DESCRIBES;
        for (i = 0; i < s.reached; i++) {
            entry = word(d->storage + s.at + i * 4);
            if (is_valid(entry) && (entry & BLOCK) < d->length)
                marks[(entry & BLOCK) >> 12] |= GUEST;
        }
    }
    for (i = 0; i < MOST_FRAMES; i++)
        clash |= marks[i] == (DESCRIBES | GUEST);
    return clash || served > 1;
}

/* The answer of a call that is refused or whose entry fails, or 0. */
static uint64_t open_desk(struct desk *d, const uint8_t *record, size_t record_len, const uint8_t *storage,
                          size_t storage_len, size_t keys_len, uint32_t designation)
{
    uint64_t checked = plain_check(record, record_len);

    d->storage = storage;
    d->length = (uint32_t)storage_len;
    d->designation = designation;
    d->first = d->end = 0;
    if (checked == answer(REFUSED, 1) || checked == answer(REFUSED, 2))
        return checked;
    if (storage_len == 0 || storage_len > (size_t)MOST_FRAMES * 4096 || storage_len % 4096 != 0)
        return answer(REFUSED, 3);
    if (storage_len / 4096 != keys_len)
        return answer(REFUSED, 4);
    if (checked != answer(GOOD, 0))
        return checked;
    d->first = half(record + 12) * 16;
    d->end = d->first + half(record + 14) * 16;
    return 0;
}

/* Whether a page of the extent has its entry in reach, and where it stands then. */
static int find_entry(const struct desk *d, uint32_t page, uint32_t *at)
{
    struct segment s;

    if (page >= d->end - d->first)
        return 0;
    s = segment_from(d, d->first + page);
    *at = s.at;
    return s.reached != 0;
}

/* Puts an entry in another's place; whether it may stand there. What may not stand is taken back. */
static int put_entry(const struct desk *d, uint8_t *storage, uint32_t at, uint32_t entry)
{
    uint32_t before = word(storage + at);

    put32(storage + at, entry);
    if (!misplaced(d, at))
        return 1;
    put32(storage + at, before);
    return 0;
}

uint64_t plain_add_page(const uint8_t *record, size_t record_len, uint8_t *storage, size_t storage_len, const uint8_t *keys,
                        size_t keys_len, uint32_t designation, uint32_t page, uint32_t frame, uint32_t *valid)
{
    struct desk d;
    uint64_t stop = open_desk(&d, record, record_len, storage, storage_len, keys_len, designation);
    uint32_t at = 0;

    (void)keys;
    if (stop)
        return stop;
    if (!find_entry(&d, page, &at))
        return answer(REFUSED, 10);
    if (is_valid(word(storage + at)))
        return answer(REFUSED, 11);
    if (frame >= d.length / 4096)
        return answer(REFUSED, 13);
    if (!put_entry(&d, storage, at, frame * 4096))
        return answer(REFUSED, 14);
    ++*valid;
    return answer(GOOD, 0);
}

/* One bit of a valid page's entry becomes one. */
static uint64_t set_bit(const struct desk *d, uint8_t *storage, uint32_t page, uint32_t bit)
{
    uint32_t at = 0, entry;

    if (!find_entry(d, page, &at))
        return answer(REFUSED, 10);
    entry = word(storage + at);
    if (!is_valid(entry))
        return answer(REFUSED, 12);
    return put_entry(d, storage, at, entry | bit) ? answer(GOOD, 0) : answer(REFUSED, 14);
}

uint64_t plain_remove_page(const uint8_t *record, size_t record_len, uint8_t *storage, size_t storage_len,
                           const uint8_t *keys, size_t keys_len, uint32_t designation, uint32_t page, uint32_t *valid)
{
    struct desk d;
    uint64_t stop = open_desk(&d, record, record_len, storage, storage_len, keys_len, designation);

    (void)keys;
    if (stop)
        return stop;
    stop = set_bit(&d, storage, page, BIT(21));
    if (stop == answer(GOOD, 0))
        --*valid;
    return stop;
}

uint64_t plain_protect_page(const uint8_t *record, size_t record_len, uint8_t *storage, size_t storage_len,
                            const uint8_t *keys, size_t keys_len, uint32_t designation, uint32_t page, uint32_t *valid)
{
    struct desk d;
    uint64_t stop = open_desk(&d, record, record_len, storage, storage_len, keys_len, designation);

    (void)keys, (void)valid;
    return stop ? stop : set_bit(&d, storage, page, BIT(22));
}

uint64_t plain_list_pages(const uint8_t *record, size_t record_len, const uint8_t *storage, size_t storage_len,
                          const uint8_t *keys, size_t keys_len, uint32_t designation, uint32_t *frames, size_t count)
{
    struct desk d;
    uint64_t stop = open_desk(&d, record, record_len, storage, storage_len, keys_len, designation);
    uint32_t page, i, entry, valid = 0;
    struct segment s;

    (void)keys;
    if (stop)
        return stop;
    if (count < d.end - d.first)
        return answer(REFUSED, 15);
    for (page = d.first; page < d.end; page += s.pages) {
        s = segment_from(&d, page);
        for (i = 0; i < s.reached; i++) {
            entry = word(storage + s.at + i * 4);
            *frames++ = is_valid(entry) ? (entry & BLOCK) >> 12 : 0xffffffffu;
            valid += (uint32_t)is_valid(entry);
        }
        for (; i < s.pages; i++)
            *frames++ = 0xffffffffu;
    }
    return answer(GOOD, 0) | valid;
}

/* How many of so many entries are valid, up to the first that is not. */
static uint32_t valid_entries(const uint8_t *at, size_t count)
{
    size_t i;

    for (i = 0; i < count && is_valid(word(at + i * 4)); i++)
        ;
    return (uint32_t)i;
}

uint64_t plain_first_unbacked(const uint8_t *record, size_t record_len, const uint8_t *storage, size_t storage_len,
                              const uint8_t *keys, size_t keys_len, uint32_t designation, uint32_t from, uint32_t to,
                              uint64_t *where)
{
    struct desk d;
    uint64_t stop = open_desk(&d, record, record_len, storage, storage_len, keys_len, designation);
    uint32_t page, valid;
    struct segment s;

    (void)keys;
    if (stop == answer(INTERCEPTED, 32))
        *where = 0;
    if (stop)
        return stop;
    if (from > to || to > d.end - d.first)
        return answer(REFUSED, 16);
    d.end = d.first + to;
    for (page = d.first + from; page < d.end; page += s.pages) {
        s = segment_from(&d, page);
        valid = valid_entries(storage + s.at, s.reached);
        if (valid < s.pages) {
            *where = page + valid - d.first;
            return answer(GOOD, 0);
        }
    }
    *where = 0;
    return answer(NONE, 0);
}
