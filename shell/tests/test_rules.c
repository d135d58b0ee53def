/* The rules of document 01 that the shell states itself, for its words and its views of the pages, against the library: on the
   case files named and on pseudo-random ones.
   Usage: test_rules FILE... */
#include <stdio.h>
#include <string.h>

#include "../../include/drevokas.h"
#include "../case_file.h"
#include "../desk_words.h"
#include "../interval.h"
#include "../psw.h"
#include "../stage.h"
#include "../walk.h"
#include "../words.h"

#define FETCH DREVOKAS_OPERAND_FETCH
#define STORE DREVOKAS_STORE
#define HOSTS 4000          /* pseudo-random ones */
#define PAGES 64            /* of each that are compared */
#define FEW 500             /* each thing that a walk can find is to be found so often */
#define AT_ZERO 50          /* and a table entry at address 0 so often */
#define DESKS 16000         /* pseudo-random hosts whose pages are changed, */
#define CHANGES 8           /* and changes of each, */
#define SEARCHES 8          /* and searches for a page that is not valid */
#define RECORDS 200000
#define PSWS 20000

static unsigned long failures, compared;
static unsigned long seen[256], seen_protected;     /* what the walks of the pseudo-random hosts found, by code */
static uint64_t state = 7095;

static uint32_t random_word(void)
{
    state ^= state << 13;
    state ^= state >> 7;
    state ^= state << 17;
    return (uint32_t)(state >> 16);
}

static void expect(int good, const char *what, const char *name, unsigned long at)
{
    compared++;
    if (good)
        return;
    failures++;
    fprintf(stderr, "test_rules: %s: %s, %08lx hex\n", name, what, at);
}

static void set(struct case_file *c, const char *name, uint64_t value)
{
    put_field(c->record, find_field(name), value);
}

static uint64_t get(const struct case_file *c, const char *name)
{
    return get_field(c->record, find_field(name));
}

/* ---- the walk ---- */

/* What translate answers, taken apart. */
struct answer {
    uint32_t kind, number, place, stage, entry;
};

static struct answer taken_apart(uint64_t answer, uint64_t where)
{
    struct answer a;

    a.kind = drevokas_kind(answer);
    a.number = drevokas_number(answer);
    a.place = drevokas_address(where);
    a.stage = drevokas_stage(answer);
    a.entry = drevokas_entry(where);
    return a;
}

static uint64_t translate(const struct case_file *c, uint32_t address, uint32_t access, uint64_t *where)
{
    *where = 0;
    return drevokas_translate(c->record, record_bytes(c->record), c->storage, (size_t)c->frames * FRAME_BYTES, c->keys,
                              c->frames, c->designation, address, access, where);
}

static struct answer translated(const struct case_file *c, uint32_t address, uint32_t access)
{
    uint64_t where, answer = translate(c, address, access, &where);

    return taken_apart(answer, where);
}

static int is_same(struct answer a, struct answer b)
{
    return a.kind == b.kind && a.number == b.number && a.place == b.place && a.stage == b.stage && a.entry == b.entry;
}

/* Whether translate answers so, for an access with DAT off, prefix 0 and key 0. */
static int answers(const struct case_file *c, uint32_t address, uint32_t access, struct answer right)
{
    return is_same(translated(c, address, access), right);
}

static void compare_page(const struct case_file *c, const char *name, uint32_t page)
{
    uint32_t address = page * FRAME_BYTES, host = ((uint32_t)get(c, "origin") << 16) + address;
    struct tables t = tables_of_host(c);
    struct host_page p = walk(c, host);
    struct last_entry e = last_entry(&t, &p, host);
    struct answer good = {DREVOKAS_GOOD, 0, p.frame * FRAME_BYTES, DREVOKAS_STAGE_NONE, 0};
    struct answer guarded = {DREVOKAS_HOST_FAULT, DREVOKAS_PROTECTION, host, DREVOKAS_STAGE_NONE, 0};
    struct answer fault = {DREVOKAS_HOST_FAULT, p.code, host, 0, e.is_read ? e.at : 0};

    fault.stage = e.is_page ? DREVOKAS_STAGE_HOST_PAGE : DREVOKAS_STAGE_HOST_SEGMENT;
    seen[p.code]++;
    seen_protected += p.code == 0 && p.is_protected;
    expect(answers(c, address, FETCH, p.code != 0 ? fault : good), "a fetch", name, address);
    expect(answers(c, address, STORE, p.code != 0 ? fault : p.is_protected ? guarded : good), "a store", name, address);
}

/* DAT off, 31-bit mode, prefix 0, access key 0, low addresses not protected. */
static void make_plain(struct case_file *c)
{
    set(c, "psw", UINT64_C(0x0008000080000000));
    set(c, "prefix", 0);
    set(c, "cr0", 0);
}

static void compare_file(const char *name)
{
    struct case_file c;
    char message[512];
    uint32_t page, pages;

    if (read_case_file(name, &c, message, sizeof message) != READ_GOOD)
        return;
    make_plain(&c);
    if (is_system370(c.record) || drevokas_kind(drevokas_check(c.record, record_bytes(c.record))) != DREVOKAS_GOOD)
        return;
    pages = (uint32_t)get(&c, "extent") * 16;
    for (page = 0; page < pages; page++)
        compare_page(&c, name, page);
}

/* A table entry: mostly one that leads on, with the bits that the tests look at set now and then. */
static uint32_t random_entry(void)
{
    static const uint32_t bits[] = {0x80000000u, 0x20, 0x400, 0x200, 0x100, 0x800, 0x8000, 0x40, 0x40000000u};
    uint32_t entry = (random_word() & 0x7000) | (random_word() & 15);

    if (random_word() % 3 == 0)
        entry |= bits[random_word() % (sizeof bits / sizeof *bits)];
    return entry;
}

static void random_host(struct case_file *c)
{
    uint32_t i;

    memset(c, 0, sizeof *c);
    c->frames = 1 + random_word() % MOST_FRAMES;
    c->designation = (random_word() & 0x8000ff80u & ~0x8000u) | (random_word() % 2 ? 127 : random_word() % 4);
    for (i = 0; i < c->frames * (uint32_t)FRAME_BYTES; i += 4)
        put_number(c->storage + i, 4, random_entry());
    set(c, "length", 200);
    set(c, "version", 1);
    set(c, "mode", 8);
    set(c, "origin", random_word() % 4 ? random_word() % 1024 : random_word() % 32768);
    set(c, "extent", 1 + random_word() % (32768 - get(c, "origin")));
    make_plain(c);
}

static void compare_hosts(void)
{
    static const unsigned codes[] = {0, 0x05, 0x10, 0x11, 0x12};
    static struct case_file c;
    unsigned i, j;

    memset(seen, 0, sizeof seen);
    seen_protected = 0;
    for (i = 0; i < HOSTS; i++) {
        random_host(&c);
        for (j = 0; j < PAGES; j++)
            compare_page(&c, "random host", random_word() % ((uint32_t)get(&c, "extent") * 16) % (j % 2 ? 4096 : 524288));
    }
    for (i = 0; i < sizeof codes / sizeof *codes; i++)
        expect(seen[codes[i]] >= FEW, "too few of this code", "random hosts", codes[i]);
    expect(seen_protected >= FEW, "too few protected pages", "random hosts", 0);
}

/* ---- the table entry at which a translation fails ---- */

static unsigned long seen_entries[5][256][2], seen_at_zero[5];  /* by stage and code, not read and read; read at address 0 */
static unsigned long seen_unread[2];                            /* guest segment and page entries that the host cannot give */

/* A guest with DAT on whose tables, as the host's, are anywhere in storage and of any length. */
static void random_guest(struct case_file *c)
{
    random_host(c);
    if (random_word() % 8)
        c->designation = (c->designation & 127) | random_word() % c->frames * FRAME_BYTES;
    if (random_word() % 4)
        set(c, "origin", random_word() % 3);
    set(c, "extent", random_word() % 4 ? 1 + random_word() % 32 : 1 + random_word() % (32768 - get(c, "origin")));
    set(c, "psw", UINT64_C(0x0408000080000000));
    set(c, "cr0", 0x00b00000);
    set(c, "cr1", (random_word() % 8 ? random_word() & 0x7000 : random_word() & 0x7ffff000) |
                  (random_word() % 2 ? 127 : random_word() % 4));
    set(c, "prefix", random_word() % 16 * FRAME_BYTES);
}

/* Puts a word where a guest's or a host's entry stands. Returns 0 if the change leads the way to it elsewhere. */
static int put_entry(struct case_file *c, const struct tables *t, uint32_t at, uint32_t word)
{
    uint32_t host = (uint32_t)host_virtual(t, at), place = at;

    if (t->is_guest)
        place = walk(c, host).frame * FRAME_BYTES + at % FRAME_BYTES;
    put_number(c->storage + place, 4, word);
    return !t->is_guest || walk(c, host).frame == place / FRAME_BYTES;
}

/* Mends what the sentence names: an entry that was read, or the length of a table. Returns 0 where nothing can be mended. */
static int is_mended(struct case_file *c, const struct tables *t, const struct host_page *p, const struct last_entry *e)
{
    if (e->is_read)
        return put_entry(c, t, e->at, 0);
    if (e->index < e->entries)
        return 0;
    if (e->is_page)
        return put_entry(c, t, p->segment_at, p->segment | 15);
    if (t->is_guest)
        set(c, "cr1", t->designation | 127);
    else
        c->designation |= 127;
    return 1;
}

/* The sentence has a reason, which holds: what it names is mended, and the answer is another one; and an entry that is not read
   for its address is past the end. */
static void compare_reason(const struct case_file *c, uint32_t address, struct answer a, const char *text)
{
    static struct case_file mended;
    int is_guest = a.stage <= DREVOKAS_STAGE_GUEST_PAGE;
    struct tables t = is_guest ? tables_of_guest(c) : tables_of_host(c);
    uint32_t from = is_guest ? address : a.place;
    struct host_page p = walk_tables(&t, from);
    struct last_entry e = last_entry(&t, &p, from);

    seen_entries[a.stage][a.number][e.is_read]++;
    seen_at_zero[a.stage] += e.is_read && a.entry == 0;
    expect(strstr(text, e.is_read ? " entry at " : " entry not read: ") != NULL, text, "not read, or read", address);
    expect(strstr(text, ": ") != NULL, text, "no reason", address);
    if (!e.is_read && e.index < e.entries)
        expect(e.at >= (is_guest ? t.extent : c->frames * (uint64_t)FRAME_BYTES), text, "not past the end", address);
    mended = *c;
    if (is_mended(&mended, &t, &p, &e))
        expect(!is_same(translated(&mended, address, FETCH), a), text, "not the reason", address);
}

/* It is a guest's own entry that the host cannot give where the fault's address does not go by the byte's place in its page: a
   segment entry where it does not go by the page either. */
static void compare_unread(const struct case_file *c, uint32_t address, struct answer a, const char *text)
{
    int is_entry = a.kind == DREVOKAS_HOST_FAULT && translated(c, address ^ 4, FETCH).place == a.place;
    int is_segment = is_entry && translated(c, address ^ FRAME_BYTES, FETCH).place == a.place;

    int is_page = is_entry && !is_segment;

    expect(is_segment == (strstr(text, "; so the guest segment entry at real ") != NULL), text, "guest segment", address);
    expect(is_page == (strstr(text, "; so the guest page entry at real ") != NULL), text, "guest page", address);
    seen_unread[0] += is_segment;
    seen_unread[1] += is_page;
}

static void compare_entry(const struct case_file *c, uint32_t address)
{
    uint64_t where, answer = translate(c, address, FETCH, &where);
    struct answer a = taken_apart(answer, where);
    char text[SENTENCE] = "";

    add_entry(c, &address, answer, where, text);
    if (a.stage == DREVOKAS_STAGE_NONE) {
        expect(a.entry == 0 && text[0] == '\0', text, "no stage", address);
        return;
    }
    compare_reason(c, address, a, text);
    compare_unread(c, address, a, text);
}

/* Every end of a walk was found often enough, at each of the stages that have it. */
static void expect_all_ends(void)
{
    static const struct {
        uint32_t first;         /* stage of the guest; that of the host is two more */
        uint32_t code;
        int unread, read;       /* the entry may not have been read, or it may have been */
    } ends[] = {
        {DREVOKAS_STAGE_GUEST_SEGMENT, 0x05, 1, 0}, {DREVOKAS_STAGE_GUEST_SEGMENT, 0x10, 1, 1},
        {DREVOKAS_STAGE_GUEST_SEGMENT, 0x12, 0, 1}, {DREVOKAS_STAGE_GUEST_PAGE, 0x05, 1, 0},
        {DREVOKAS_STAGE_GUEST_PAGE, 0x11, 1, 1},    {DREVOKAS_STAGE_GUEST_PAGE, 0x12, 0, 1},
    };
    uint32_t stage;
    size_t i;

    for (i = 0; i < 2 * sizeof ends / sizeof *ends; i++) {
        unsigned long *found;

        stage = ends[i / 2].first + i % 2 * 2;
        found = seen_entries[stage][ends[i / 2].code];
        expect(!ends[i / 2].unread || found[0] >= FEW, "too few entries not read", "random guests", stage);
        expect(!ends[i / 2].read || found[1] >= FEW, "too few entries read", "random guests", stage);
    }
    for (stage = DREVOKAS_STAGE_GUEST_SEGMENT; stage <= DREVOKAS_STAGE_HOST_PAGE; stage++)
        expect(seen_at_zero[stage] >= AT_ZERO, "too few at address 0", "random guests", stage);
    expect(seen_entries[DREVOKAS_STAGE_HOST_PAGE][0x05][1] >= FEW, "too few frames beyond the storage", "random guests", 0);
    expect(seen_unread[0] >= FEW && seen_unread[1] >= FEW, "too few entries that the host cannot give", "random guests", 0);
}

static void compare_entries(void)
{
    static const uint32_t masks[] = {0x7fffffff, 0xfffff, 0xfff};     /* any page, one of segment 0, page 0 */
    static struct case_file c;
    unsigned i, j;

    for (i = 0; i < HOSTS; i++) {
        random_guest(&c);
        for (j = 0; j < PAGES; j++)
            compare_entry(&c, random_word() & masks[j % 3]);
    }
    expect_all_ends();
}

/* An answer that the shell's own walk does not bear out is given without a reason. */
static void expect_no_reason(const struct case_file *c, uint64_t stage, uint64_t entry, const char *right)
{
    uint64_t fault = (uint64_t)DREVOKAS_HOST_FAULT << 56 | (uint64_t)DREVOKAS_PAGE_TRANSLATION << 48;
    char text[SENTENCE] = "";

    add_entry(c, NULL, fault | stage << 40, entry << 32, text);
    expect(strcmp(text, right) == 0, text, "without a reason", (unsigned long)entry);
}

static void test_no_reason(void)
{
    static struct case_file c;      /* zeros: page 0 is valid */

    c.frames = 1;
    expect_no_reason(&c, DREVOKAS_STAGE_NONE, 0, "");
    expect_no_reason(&c, DREVOKAS_STAGE_HOST_PAGE, 0x2004, "host page entry at 00002004");
    expect_no_reason(&c, DREVOKAS_STAGE_HOST_SEGMENT, 0, "host segment entry");
    expect_no_reason(&c, DREVOKAS_STAGE_GUEST_PAGE, 8, "guest page entry at real 00000008");
    expect_no_reason(&c, DREVOKAS_STAGE_GUEST_SEGMENT, 0, "guest segment entry");
}

/* ---- the page desk ---- */

static unsigned long seen_answers[3][16];   /* by action and refusal; 0 is done */
static unsigned long seen_clashes[3];       /* refusal 14: an entry in a guest frame; of a second page; of a segment */

static uint64_t change_page(struct case_file *c, const struct desk_change *d, uint32_t *valid)
{
    unsigned bytes = record_bytes(c->record);
    size_t length = (size_t)c->frames * FRAME_BYTES;

    if (d->action == DESK_ADD)
        return drevokas_add_page(c->record, bytes, c->storage, length, c->keys, c->frames, c->designation, d->page, d->frame,
                                 valid);
    if (d->action == DESK_REMOVE)
        return drevokas_remove_page(c->record, bytes, c->storage, length, c->keys, c->frames, c->designation, d->page, valid);
    return drevokas_protect_page(c->record, bytes, c->storage, length, c->keys, c->frames, c->designation, d->page, valid);
}

/* The refusal of a change by what the shell states; 0 if there is none. Entry must be good. */
static unsigned desk_number(const struct extent *e, const struct desk_change *d, char text[SENTENCE])
{
    struct host_page p;

    if (d->page >= e->pages)
        return DREVOKAS_REFUSAL_PAGE;
    p = page_of_extent(e, d->page);
    if (!p.page_read)
        return DREVOKAS_REFUSAL_PAGE;
    if (p.valid == (d->action == DESK_ADD))
        return d->action == DESK_ADD ? DREVOKAS_REFUSAL_VALID : DREVOKAS_REFUSAL_INVALID;
    if (d->action == DESK_ADD && d->frame >= e->c->frames)
        return DREVOKAS_REFUSAL_FRAME;
    return add_clash(e, d, text) ? DREVOKAS_REFUSAL_ENTRY : 0;
}

static void note_clash(const char *text)
{
    seen_clashes[0] += strstr(text, " would be page ") != NULL;
    seen_clashes[1] += strstr(text, " is also that of page ") != NULL;
    seen_clashes[2] += strstr(text, " is also the host segment entry of page ") != NULL;
}

/* The library refuses what the shell says it does, and gives the sentence; or it changes the entry that the shell names, and
   nothing else. */
static void compare_change(const struct case_file *before, const struct desk_change *d)
{
    static struct case_file c;
    char text[SENTENCE] = "", sentence[SENTENCE], general[SENTENCE];
    struct extent e = extent_of(before);
    unsigned number = desk_number(&e, d, text);
    uint32_t valid = 7, place;
    uint64_t answer;

    c = *before;
    answer = change_page(&c, d, &valid);
    expect(drevokas_number(answer) == number, "the refusal of a change", text, d->page);
    expect(drevokas_kind(answer) == (number == 0 ? DREVOKAS_GOOD : DREVOKAS_REFUSED), "a change", text, d->page);
    seen_answers[d->action][number & 15]++;
    desk_refusal(number, before, d, sentence);
    refusal_sentence(number, before, general, sizeof general);
    note_clash(text);
    if (number != 0)
        expect(strcmp(sentence, general) != 0, "a refusal without a reason", sentence, d->page);
    if (number == 0) {
        place = page_of_extent(&e, d->page).page_place;
        memcpy(c.storage + place, before->storage + place, ENTRY_BYTES);
    }
    expect(memcmp(c.storage, before->storage, sizeof c.storage) == 0, "another word is changed", "desk", d->page);
}

/* Tables in few frames, often on one another or in the guest's own frames, for an extent of a few blocks. */
static void random_desk(struct case_file *c)
{
    uint32_t i, table;

    random_host(c);
    c->designation = random_word() % c->frames * FRAME_BYTES;
    set(c, "origin", random_word() % 3 ? 0 : 15);
    set(c, "extent", random_word() % 2 ? 1 + random_word() % 2 : 1 + random_word() % 40);
    if (random_word() % 2)
        return;
    for (i = 0; i < 3; i++) {       /* tables apart from the guest, in one frame */
        table = c->designation + 0x40 + (random_word() % 4 ? i : random_word() % 3) * 0x40;
        put_number(c->storage + c->designation + ENTRY_BYTES * i, ENTRY_BYTES, random_word() % 4 ? table : c->designation);
    }
    for (i = 0x40; i < 0x100; i += ENTRY_BYTES)
        put_number(c->storage + c->designation + i, ENTRY_BYTES,
                   random_word() % 2 ? PAGE_INVALID : random_word() % 64 ? FRAME_BYTES ^ c->designation : random_entry());
}

/* Every refusal that an action has, and every part of the last, was found often enough. */
static void expect_all_answers(void)
{
    static const unsigned numbers[] = {0, 10, 11, 12, 13, 14};
    unsigned action, i;

    for (i = 0; i < 3 * sizeof numbers / sizeof *numbers; i++) {
        int of_add = numbers[i / 3] == 11 || numbers[i / 3] == 13;

        action = i % 3;
        if (of_add ? action == DESK_ADD : numbers[i / 3] != 12 || action != DESK_ADD)
            expect(seen_answers[action][numbers[i / 3]] >= FEW, "too few of this answer", "desk", numbers[i / 3]);
    }
    for (i = 0; i < 3; i++)
        expect(seen_clashes[i] >= FEW, "too few refusals of this part", "desk", i);
}

static void compare_changes(void)
{
    static struct case_file c;
    struct desk_change d;
    unsigned i, j;

    for (i = 0; i < DESKS; i++) {
        random_desk(&c);
        for (j = 0; j < CHANGES; j++) {
            d.action = (enum desk_action)(random_word() % 3);
            d.page = random_word() % 8 ? random_word() % 16 : random_word() % (extent_of(&c).pages + 8);
            d.frame = random_word() % (c.frames + 1);
            compare_change(&c, &d);
        }
    }
    expect_all_answers();
}

/* ---- the first page that is not valid ---- */

static unsigned long seen_searches[DREVOKAS_NONE + 1];     /* by the answer's kind */

/* The first page of the range that the shell's walk finds not valid; its end if there is none. */
static uint32_t first_not_valid(const struct extent *e, const struct page_range *r)
{
    uint32_t page = r->from;

    while (page < r->to && page_of_extent(e, page).valid)
        page++;
    return page;
}

/* The library refuses the range that the shell gives a sentence for, and finds the page that the shell's walk does. */
static void compare_search(const struct case_file *c, const struct page_range *r)
{
    struct extent e = extent_of(c);
    char text[SENTENCE], general[SENTENCE];
    uint64_t where = UINT64_MAX;
    uint64_t answer = drevokas_first_unbacked(c->record, record_bytes(c->record), c->storage, (size_t)c->frames * FRAME_BYTES,
                                              c->keys, c->frames, c->designation, r->from, r->to, &where);
    uint32_t kind = drevokas_kind(answer), first;

    search_refusal(DREVOKAS_REFUSAL_RANGE, c, r, text);
    refusal_sentence(DREVOKAS_REFUSAL_RANGE, c, general, sizeof general);
    expect(kind <= DREVOKAS_NONE, "an answer of no kind", "search", kind);
    seen_searches[kind <= DREVOKAS_NONE ? kind : 0]++;
    if (strcmp(text, general) != 0) {
        expect(kind == DREVOKAS_REFUSED && drevokas_number(answer) == DREVOKAS_REFUSAL_RANGE, text, "search", r->from);
        return;
    }
    first = first_not_valid(&e, r);
    expect(kind == (first < r->to ? DREVOKAS_GOOD : DREVOKAS_NONE), "a search", "search", r->from);
    expect(where == (first < r->to ? first : 0), "the page that is found", "search", first);
}

static void compare_searches(void)
{
    static struct case_file c;
    struct page_range r;
    unsigned i, j;

    for (i = 0; i < DESKS; i++) {
        random_desk(&c);
        for (j = 0; j < SEARCHES; j++) {
            r.from = random_word() % 2 ? random_word() % 8 : random_word() % (extent_of(&c).pages + 2);
            r.to = random_word() % 2 ? r.from + random_word() % 4 : random_word() % (extent_of(&c).pages + 2);
            compare_search(&c, &r);
        }
    }
    expect(seen_searches[DREVOKAS_REFUSED] >= FEW && seen_searches[DREVOKAS_GOOD] >= FEW && seen_searches[DREVOKAS_NONE] >= FEW,
           "too few of an answer", "search", seen_searches[DREVOKAS_NONE]);
}

/* ---- entry ---- */

static void random_record(struct case_file *c, int larger)
{
    static const unsigned edges[] = {0, 1, 2, 32766, 32767, 32768, 32769, 65535};

    memset(c->record, 0, sizeof c->record);
    set(c, "length", random_word() % 16 ? 200 : random_word() % 512);
    set(c, "version", random_word() % 16 ? 1 : random_word() % 256);
    set(c, "mode", random_word() % 4 ? 8 | (random_word() & 0xf1) : random_word() % 256);
    set(c, "origin", random_word() % 2 ? edges[random_word() % 8] : random_word() % 65536);
    set(c, "extent", random_word() % 2 ? edges[random_word() % 8] : random_word() % 65536);
    set(c, "prefix", random_word() % 2 ? random_word() : (random_word() % 3 << 16) - random_word() % 2 * 0x1000);
    set(c, "reserved", random_word() % 16 ? 0 : 1u << random_word() % 32);
    if (!larger)
        return;
    set(c, "length", random_word() % 16 ? 208 : random_word() % 512);
    set(c, "version", random_word() % 16 ? 2 : random_word() % 256);
    if (random_word() % 3)
        set(c, "mode", 4 | (random_word() & 0xf1));
    if (random_word() % 2)
        set(c, "prefix", random_word() & 0x03fff000);
    set(c, "request", random_word() % 256);
    set(c, "reserved2", random_word() % 16 ? 0 : 1u << random_word() % 24);
    set(c, "residue", random_word() % 16 ? random_word() % 40960000 : 40959999 + random_word() % 2);
}

static void compare_records(int larger)
{
    static struct case_file c;
    char text[SENTENCE];
    unsigned i;

    for (i = 0; i < RECORDS; i++) {
        uint64_t answer;
        int fails;

        random_record(&c, larger);
        answer = drevokas_check(c.record, record_bytes(c.record));
        fails = entry_sentence(c.record, text, sizeof text);
        if (drevokas_kind(answer) != DREVOKAS_REFUSED)
            expect(fails == (drevokas_kind(answer) == DREVOKAS_INTERCEPTED), "entry", "random record", i);
        else {
            refusal_sentence(drevokas_number(answer), &c, text, sizeof text);
            expect(strstr(text, "must be") != NULL, "a refusal without a reason", "random record", i);
        }
    }
}

/* ---- PSW ---- */

/* A well-formed PSW, in System/370 one in EC or BC form, with up to two bits turned. */
static uint64_t random_psw(int system370)
{
    uint64_t psw = !system370 ? UINT64_C(0x0008000080000200) : random_word() % 4 ? UINT64_C(0x0008000000000200) : 0x200;

    psw ^= UINT64_C(1) << random_word() % 64;
    return random_word() % 2 ? psw : psw ^ UINT64_C(1) << random_word() % 64;
}

/* The first unit with this PSW: program exceptions are intercepted, and only a malformed PSW gives one with ILC 0. */
static void compare_psw(struct case_file *c, uint64_t psw, int system370)
{
    struct psw p = {psw, system370};
    uint64_t where = 0, answer;
    int malformed, not_installed;

    memset(c, 0, sizeof *c);
    c->frames = 1;
    set(c, "length", system370 ? MOST_RECORD_BYTES : RECORD_BYTES);
    set(c, "version", system370 ? 2 : 1);
    set(c, "mode", system370 ? 4 : 8);
    set(c, "interceptions", 0x40);
    set(c, "extent", 1);
    set(c, "psw", psw);
    answer = drevokas_run(c->record, record_bytes(c->record), c->storage, FRAME_BYTES, c->keys, 1, 0, 0,
                          DREVOKAS_LEAST_TIME, 1, &where);
    not_installed = drevokas_number(answer) == DREVOKAS_CODE_VALIDITY;
    malformed = get(c, "code") == DREVOKAS_CODE_PROGRAM && get(c, "ilc") == 0;
    expect(not_installed == (psw_not_installed(p) != NULL), "PSW not installed", "PSW", (unsigned long)(psw >> 32));
    expect(not_installed || malformed == (psw_malformed(p) != NULL), "PSW malformed", "PSW", (unsigned long)(psw >> 32));
}

static void compare_psws(int system370)
{
    static struct case_file c;
    unsigned i;

    for (i = 0; i < PSWS; i++)
        compare_psw(&c, random_psw(system370), system370);
}

/* An AR of 1 and 1 leaves condition code 2, and the address advanced by 2, in the PSW that is in the record. */
static void compare_result(struct case_file *c, uint64_t psw)
{
    uint64_t where = 0;

    memset(c, 0, sizeof *c);
    c->frames = 2;
    c->designation = 0;
    set(c, "length", MOST_RECORD_BYTES);
    set(c, "version", 2);
    set(c, "mode", 4);
    set(c, "extent", 1);
    set(c, "psw", psw);
    set(c, "gr1", 1);
    put_number(c->storage, 4, 0x40);                                /* the host's tables: page 0 is frame 1 */
    put_number(c->storage + 0x40, 4, FRAME_BYTES);
    put_number(c->storage + FRAME_BYTES + psw_address(psw_of(c->record)), 2, 0x1a11);
    drevokas_run(c->record, MOST_RECORD_BYTES, c->storage, 2 * FRAME_BYTES, c->keys, 2, 0, 0, DREVOKAS_LEAST_TIME, 1, &where);
    expect(psw_condition_code(psw_of(c->record)) == 2, "condition code", "PSW", (unsigned long)(psw >> 32));
    expect(psw_address(psw_of(c->record)) == (psw & 0xffffff) + 2, "address", "PSW", (unsigned long)(psw & 0xffffffff));
}

/* PSWs in BC form, of any bits that let an AR in page 0 be done. */
static void compare_results(void)
{
    static struct case_file c;
    unsigned i;

    for (i = 0; i < PSWS; i++)
        compare_result(&c, ((uint64_t)(random_word() & 0xfe00ffffu) << 32) | (random_word() & 0xf7000000u) | 0x200);
}

/* ---- the interval timer ---- */

/* A unit of an active timer whose word stands behind a pseudo-random host: the word falls when the shell says so, to what it
   says, or ends in the host fault that it names. */
static void compare_fall(struct case_file *c)
{
    uint32_t prefix = (uint32_t)get(c, "prefix");
    struct interval_place i = interval_place(c);
    int falls = interval_falls(c);
    uint64_t where = 0, answer;

    answer = drevokas_run(c->record, MOST_RECORD_BYTES, c->storage, (size_t)c->frames * FRAME_BYTES, c->keys, c->frames,
                          c->designation, 0, c->time, 1, &where);
    if (drevokas_kind(answer) == DREVOKAS_HOST_FAULT)
        expect(!falls || i.code == drevokas_number(answer) || drevokas_address(where) != i.host, "the fault of a fall", "timer",
               prefix);
    if (drevokas_kind(answer) != DREVOKAS_BUDGET_USED)
        return;
    seen[falls ? 1 : 0]++;
    expect(!falls || i.code == 0, "a fall that cannot be", "timer", prefix);
    if (falls && i.code == 0)
        expect(get_number(c->storage + i.place, 4) == (uint32_t)(i.word - INTERVAL_FALL), "a word that fell", "timer", prefix);
}

static void compare_falls(void)
{
    static struct case_file c;
    unsigned i;

    memset(seen, 0, sizeof seen);
    for (i = 0; i < PSWS; i++) {
        random_host(&c);
        set(&c, "length", MOST_RECORD_BYTES);
        set(&c, "version", 2);
        set(&c, "mode", 4);
        set(&c, "psw", random_word() % 0x4000 & ~1u);
        set(&c, "prefix", random_word() % 4 * FRAME_BYTES);
        set(&c, "residue", random_word() % 4 ? 40960000 - random_word() % 4096 - 1 : 0);
        c.time = DREVOKAS_LEAST_TIME + random_word() % 2048;
        compare_fall(&c);
    }
    expect(seen[0] >= FEW && seen[1] >= FEW, "too few units", "timer", (unsigned long)seen[1]);
}

/* ---- the time per unit ---- */

/* A run with this time is refused for it when the shell says so, whatever the budget. */
static void compare_time(uint32_t time, uint32_t budget)
{
    static struct case_file c;
    uint64_t where = 0, answer;

    memset(&c, 0, sizeof c);
    set(&c, "length", RECORD_BYTES);
    set(&c, "version", 1);
    set(&c, "mode", 8);
    set(&c, "extent", 1);
    answer = drevokas_run(c.record, RECORD_BYTES, c.storage, FRAME_BYTES, c.keys, 1, 0, 0, time, budget, &where);
    expect((drevokas_kind(answer) == DREVOKAS_REFUSED) == (*wrong_time(time) != '\0'), "refused", "time", time);
    expect(drevokas_kind(answer) != DREVOKAS_REFUSED || drevokas_number(answer) == DREVOKAS_REFUSAL_TIME, "the refusal", "time",
           time);
}

static void compare_times(void)
{
    static const uint32_t edges[] = {0, 1, 2, 4096, 1048575, 1048576, 1048577, UINT32_C(0x80000000), UINT32_MAX};
    unsigned i;

    for (i = 0; i < sizeof edges / sizeof *edges; i++) {
        compare_time(edges[i], 0);
        compare_time(edges[i], 1);
    }
    for (i = 0; i < FEW; i++)
        compare_time(random_word() >> random_word() % 32, random_word() % 2);
}

/* ---- microseconds ---- */

static void expect_time(uint64_t value, const char *right)
{
    char text[SENTENCE];

    signed_microseconds(value, text, sizeof text);
    expect(strcmp(text, right) == 0, text, "microseconds", (unsigned long)value);
}

static void test_times(void)
{
    expect_time(0, "0");
    expect_time(1, "0.000244140625");
    expect_time(2048, "0.5");
    expect_time(4096, "1");
    expect_time(4096 * UINT64_C(1000000) + 4095, "1000000.999755859375");
    expect_time(UINT64_MAX, "-0.000244140625");
    expect_time((uint64_t)0 - 40960, "-10");
    expect_time(UINT64_C(1) << 63, "-2251799813685248");
    expect_time((UINT64_C(1) << 63) - 1, "2251799813685247.999755859375");
}

int main(int argc, char **argv)
{
    int i;

    for (i = 1; i < argc; i++)
        compare_file(argv[i]);
    compare_hosts();
    compare_entries();
    test_no_reason();
    compare_changes();
    compare_searches();
    compare_records(0);
    compare_records(1);
    compare_psws(0);
    compare_psws(1);
    compare_results();
    compare_falls();
    compare_times();
    test_times();
    printf("test_rules: %lu compared, %lu differ\n", compared, failures);
    return failures != 0;
}
