/* The operations of the page desk, the library's and those in plain C, and what is expected of the library's. */
#ifndef DESK_H
#define DESK_H

#include "running.h"

/* Those that change an entry. */
enum change { ADD, REMOVE, PROTECT, CHANGES };

typedef uint64_t add_function(const uint8_t *, size_t, uint8_t *, size_t, const uint8_t *, size_t, uint32_t, uint32_t,
                              uint32_t, uint32_t *);
typedef uint64_t set_function(const uint8_t *, size_t, uint8_t *, size_t, const uint8_t *, size_t, uint32_t, uint32_t,
                              uint32_t *);
typedef uint64_t list_function(const uint8_t *, size_t, const uint8_t *, size_t, const uint8_t *, size_t, uint32_t,
                               uint32_t *, size_t);
typedef uint64_t first_function(const uint8_t *, size_t, const uint8_t *, size_t, const uint8_t *, size_t, uint32_t,
                                uint32_t, uint32_t, uint64_t *);

struct desk {
    add_function *add;
    set_function *remove, *protect;
    list_function *list;
    first_function *first;
};

/* What every operation is handed. */
struct handed {
    uint8_t *record, *storage, *keys;
    size_t record_len, storage_len, keys_len;
    uint32_t designation;
};

static const struct desk drevokas_desk = {drevokas_add_page, drevokas_remove_page, drevokas_protect_page,
                                          drevokas_list_pages, drevokas_first_unbacked};

/* The frame is for adding alone. */
static inline uint64_t change_page(const struct desk *d, const struct handed *h, enum change change, uint32_t page,
                                   uint32_t frame, uint32_t *valid)
{
    set_function *set = change == REMOVE ? d->remove : d->protect;

    if (change == ADD)
        return d->add(h->record, h->record_len, h->storage, h->storage_len, h->keys, h->keys_len, h->designation, page,
                      frame, valid);
    return set(h->record, h->record_len, h->storage, h->storage_len, h->keys, h->keys_len, h->designation, page, valid);
}

static inline uint64_t list_pages(const struct desk *d, const struct handed *h, uint32_t *frames, size_t count)
{
    return d->list(h->record, h->record_len, h->storage, h->storage_len, h->keys, h->keys_len, h->designation, frames,
                   count);
}

static inline uint64_t first_unbacked(const struct desk *d, const struct handed *h, uint32_t from, uint32_t to, uint64_t *where)
{
    return d->first(h->record, h->record_len, h->storage, h->storage_len, h->keys, h->keys_len, h->designation, from, to,
                    where);
}

/* What a change that is done makes of an entry, and of the number of valid pages. */

static inline uint32_t changed_entry(enum change change, uint32_t entry, uint32_t frame)
{
    if (change == ADD)
        return frame << 12;
    return entry | (change == REMOVE ? PAGE_INVALID : PAGE_PROTECTED);
}

static inline uint32_t changed_number(enum change change, uint32_t valid)
{
    return change == ADD ? valid + 1 : change == REMOVE ? valid - 1 : valid;
}

/* ---- expectations ---- */

/* The number of valid pages before a call: one that no tables here have. */
#define VALID_BEFORE 0x89abcdefu

static inline struct handed handed_of(const struct machine *m)
{
    struct handed h;

    h.record = m->record.at;
    h.storage = m->storage.at;
    h.keys = m->keys.at;
    h.record_len = m->record.len;
    h.storage_len = m->storage.len;
    h.keys_len = m->keys.len;
    h.designation = m->designation;
    return h;
}

/* The call answers as expected, and the number follows. Where it is done the entry at `at` changes, and nothing else does. */
static inline void expect_change_at(const char *file, int line, struct machine *m, enum change change, uint32_t page,
                                    uint32_t frame, uint64_t expected, uint32_t at)
{
    static const char *const names[] = {"add", "remove", "protect"};
    int done = expected == answer_of(DREVOKAS_GOOD, 0);
    uint32_t *valid = (uint32_t *)block_of(sizeof *valid);
    struct handed h = handed_of(m);
    uint64_t answer;
    char what[200];

    remember_all(m);
    if (done)
        put32(m->storage.copy + at, changed_entry(change, get32(m->storage.copy + at), frame));
    *valid = VALID_BEFORE;
    answer = change_page(&drevokas_desk, &h, change, page, frame, valid);
    sprintf(what, "%s page %lx, frame %lx: %016llx, not %016llx", names[change], (unsigned long)page, (unsigned long)frame,
            (unsigned long long)answer, (unsigned long long)expected);
    expect_at(file, line, answer == expected, what);
    expect_at(file, line, *valid == (done ? changed_number(change, VALID_BEFORE) : VALID_BEFORE), "the number of valid pages");
    expect_at(file, line, unchanged(&m->storage), "the storage, but for the page's entry");
    expect_at(file, line, unchanged(&m->record), "the desk leaves the record");
    expect_at(file, line, unchanged(&m->keys), "the desk leaves the keys");
    free(valid);
}

/* What words hold before a list. */
#define WORD_BEFORE(i) (0x5a000000u + (uint32_t)(i))

/* The list answers as expected, and has the words that are expected, and those beyond as they were. */
static inline void expect_list_at(const char *file, int line, struct machine *m, size_t count, uint64_t expected,
                                  const uint32_t *words, size_t pages)
{
    uint32_t *frames = (uint32_t *)block_of(count * sizeof *frames + 1);
    struct handed h = handed_of(m);
    uint64_t answer;
    char what[200];
    size_t i;

    for (i = 0; i < count; i++)
        frames[i] = WORD_BEFORE(i);
    remember_all(m);
    answer = list_pages(&drevokas_desk, &h, frames, count);
    sprintf(what, "list: %016llx, not %016llx", (unsigned long long)answer, (unsigned long long)expected);
    expect_at(file, line, answer == expected, what);
    expect_at(file, line, all_unchanged(m), "list leaves every byte");
    for (i = 0; i < count && frames[i] == (i < pages ? words[i] : WORD_BEFORE(i)); i++)
        ;
    sprintf(what, "list: word %lu of %lu", (unsigned long)i, (unsigned long)count);
    expect_at(file, line, i == count, what);
    free(frames);
}

static inline uint64_t listed(uint32_t valid)
{
    return answer_of(DREVOKAS_GOOD, 0) | valid;
}

/* The first unbacked page is answered as expected, with *where as expected, and every byte is left, also those on both sides of
   *where. */
static inline void expect_first_at(const char *file, int line, struct machine *m, uint32_t from, uint32_t to,
                                   uint64_t expected, uint64_t expected_where)
{
    uint64_t *where = (uint64_t *)block_of(3 * sizeof *where), answer;
    struct handed h = handed_of(m);
    char what[200];

    where[0] = where[1] = where[2] = UNTOUCHED;
    remember_all(m);
    answer = first_unbacked(&drevokas_desk, &h, from, to, where + 1);
    sprintf(what, "first unbacked from %lx to %lx: %016llx at %llx, not %016llx at %llx", (unsigned long)from,
            (unsigned long)to, (unsigned long long)answer, (unsigned long long)where[1], (unsigned long long)expected,
            (unsigned long long)expected_where);
    expect_at(file, line, answer == expected && where[1] == expected_where, what);
    expect_at(file, line, where[0] == UNTOUCHED && where[2] == UNTOUCHED, "the words around *where");
    expect_at(file, line, all_unchanged(m), "first unbacked leaves every byte");
    free(where);
}

#define DONE(m, change, page, frame, at) \
    expect_change_at(__FILE__, __LINE__, m, change, page, frame, answer_of(DREVOKAS_GOOD, 0), at)
#define CHANGE_REFUSED(m, change, page, frame, number) \
    expect_change_at(__FILE__, __LINE__, m, change, page, frame, answer_of(DREVOKAS_REFUSED, number), 0)
#define CHANGE_INVALID(m, change, page, frame) \
    expect_change_at(__FILE__, __LINE__, m, change, page, frame, \
                     answer_of(DREVOKAS_INTERCEPTED, DREVOKAS_CODE_VALIDITY), 0)
/* The words for each page; the number of valid ones; the length of the workspace. */
#define LISTS(m, words, pages, valid, count) \
    expect_list_at(__FILE__, __LINE__, m, count, listed(valid), words, pages)
#define LIST_REFUSED(m, count, number) \
    expect_list_at(__FILE__, __LINE__, m, count, answer_of(DREVOKAS_REFUSED, number), NULL, 0)
#define LIST_INVALID(m, count) \
    expect_list_at(__FILE__, __LINE__, m, count, answer_of(DREVOKAS_INTERCEPTED, DREVOKAS_CODE_VALIDITY), NULL, 0)
#define FINDS(m, from, to, page) \
    expect_first_at(__FILE__, __LINE__, m, from, to, answer_of(DREVOKAS_GOOD, 0), page)
#define FINDS_NONE(m, from, to) \
    expect_first_at(__FILE__, __LINE__, m, from, to, answer_of(DREVOKAS_NONE, 0), 0)
#define FIRST_REFUSED(m, from, to, number) \
    expect_first_at(__FILE__, __LINE__, m, from, to, answer_of(DREVOKAS_REFUSED, number), UNTOUCHED)
#define FIRST_INVALID(m, from, to) \
    expect_first_at(__FILE__, __LINE__, m, from, to, answer_of(DREVOKAS_INTERCEPTED, DREVOKAS_CODE_VALIDITY), 0)

#endif
