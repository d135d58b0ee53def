#include "stage.h"

#include "../include/drevokas.h"
#include "walk.h"

static const char *stage_words(uint32_t stage)
{
    static const char *const words[] = {"no", "guest segment", "guest page", "host segment", "host page"};

    return words[stage < sizeof words / sizeof *words ? stage : DREVOKAS_STAGE_NONE];
}

static int is_guest_stage(uint32_t stage)
{
    return stage == DREVOKAS_STAGE_GUEST_SEGMENT || stage == DREVOKAS_STAGE_GUEST_PAGE;
}

/* The stage of an entry of these tables. */
static uint32_t stage_of(const struct tables *t, const struct last_entry *e)
{
    if (t->is_guest)
        return e->is_page ? DREVOKAS_STAGE_GUEST_PAGE : DREVOKAS_STAGE_GUEST_SEGMENT;
    return e->is_page ? DREVOKAS_STAGE_HOST_PAGE : DREVOKAS_STAGE_HOST_SEGMENT;
}

/* The guest's tables have real addresses, the host's absolute ones. */
static void add_address(int is_guest, uint32_t at, char *text)
{
    add(text, " at %s%08lx", is_guest ? "real " : "", (unsigned long)at);
}

/* ---- why ---- */

static unsigned ones(uint32_t word)
{
    unsigned count = 0;

    for (; word != 0; word &= word - 1)
        count++;
    return count;
}

/* The bits of a word that are one: "bit 0", "bits 0 and 20", "bits 0, 20 and 23". */
static void add_bits(uint32_t word, char *text)
{
    unsigned i;

    add(text, "bit%s", plural(ones(word)));
    for (i = 0; word != 0; word &= ~TABLE_BIT(i), i++)
        if (word & TABLE_BIT(i))
            add(text, " %u%s", i, ones(word) > 2 ? "," : ones(word) == 2 ? " and" : "");
}

void add_malformed(uint32_t bits, char text[SENTENCE])
{
    add(text, "malformed, ");
    add_bits(bits, text);
    add(text, " must be zero");
}

/* Why an entry that was read does not lead on. */
static void add_fault(const struct last_entry *e, unsigned code, char *text)
{
    switch (code) {
    case DREVOKAS_TRANSLATION_SPECIFICATION:
        add_malformed(e->word & (e->is_page ? PAGE_ZERO : SEGMENT_ZERO), text);
        break;
    case DREVOKAS_ADDRESSING:
        add(text, "its frame is beyond the storage");
        break;
    default:
        add(text, "invalid");
        break;
    }
}

/* Why an entry was not read. */
static void add_hindrance(const struct tables *t, const struct last_entry *e, char *text)
{
    const char *name = e->is_page ? "page" : "segment";

    if (e->index >= e->entries) {
        add(text, "%s index %lu is past the %s table", name, (unsigned long)e->index, name);
        add_address(t->is_guest, e->table, text);
        add(text, ", which has %lu entries", (unsigned long)e->entries);
    } else {
        add(text, "it would be");
        add_address(t->is_guest, e->at, text);
        add(text, ", past the %s", t->is_guest ? "guest's extent" : "storage");
    }
}

/* ---- the entry ---- */

/* Where and why a walk that ended with this code came to its end at an entry. */
static void add_reason(const struct tables *t, const struct last_entry *e, unsigned code, char *text)
{
    if (e->is_read) {
        add_address(t->is_guest, e->at, text);
        add(text, ": ");
        add_fault(e, code, text);
    } else {
        add(text, " not read: ");
        add_hindrance(t, e, text);
    }
}

void add_host_entry(const struct case_file *c, uint32_t host, char text[SENTENCE])
{
    struct tables t = tables_of_host(c);
    struct host_page p = walk_tables(&t, host);
    struct last_entry e = last_entry(&t, &p, host);

    add(text, "%s entry", stage_words(stage_of(&t, &e)));
    add_reason(&t, &e, p.code, text);
}

/* The walk of the case file's own tables, if it ends as the library says; else stage and address alone. */
static void add_end(const struct tables *t, uint32_t address, uint64_t answer, uint64_t where, char *text)
{
    struct host_page p = walk_tables(t, address);
    struct last_entry e = last_entry(t, &p, address);
    uint32_t at = drevokas_entry(where);
    int agrees = p.code == drevokas_number(answer) && stage_of(t, &e) == drevokas_stage(answer) && (e.is_read ? e.at : 0) == at;

    if (agrees)
        add_reason(t, &e, p.code, text);
    else if (at != 0)
        add_address(t->is_guest, at, text);
}

/* The guest's own entry, if it is that which the host could not give at this host virtual address. */
static void add_unread(const struct case_file *c, uint32_t virtual, uint32_t host, char *text)
{
    struct tables t = tables_of_guest(c);
    struct host_page p = walk_tables(&t, virtual);
    struct last_entry e = last_entry(&t, &p, virtual);

    if (p.code != DREVOKAS_ADDRESSING || host_virtual(&t, e.at) != host)
        return;
    add(text, "; so the %s entry", stage_words(stage_of(&t, &e)));
    add_address(t.is_guest, e.at, text);
    add(text, " cannot be read");
}

void add_entry(const struct case_file *c, const uint32_t *virtual, uint64_t answer, uint64_t where, char text[SENTENCE])
{
    uint32_t stage = drevokas_stage(answer), host = drevokas_address(where);
    int is_guest = is_guest_stage(stage);
    struct tables t = is_guest ? tables_of_guest(c) : tables_of_host(c);

    if (stage == DREVOKAS_STAGE_NONE)
        return;
    add(text, "%s entry", stage_words(stage));
    add_end(&t, is_guest && virtual != NULL ? *virtual : host, answer, where, text);
    if (!is_guest && virtual != NULL)
        add_unread(c, *virtual, host, text);
}
