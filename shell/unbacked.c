/* drevokas unbacked: the first of the pages asked about that is not valid. */
#include <stdio.h>

#include "../include/drevokas.h"
#include "arguments.h"
#include "command.h"
#include "desk_words.h"
#include "page_operand.h"
#include "stage.h"

static const struct usage usage = {
    "unbacked FILE [FROM [TO]]",
    "Finds the lowest page from FROM up to and not including TO that is not valid: the host has no valid\n"
    "entry for it. The guest is that of a case file, or of standard input if FILE is -; nothing in it is\n"
    "changed. Without FROM it is page 0, without TO the end of the extent.\n"
    "FROM and TO are numbers, counted from 0 at the start of the extent: 18, 0x12 or X'12'. Or they are\n"
    "addresses, hexadecimal: guest:12000, guest absolute, or host:112000, host virtual. An address stands\n"
    "for the page that it is in, of TO too: up to guest:12000, and up to guest:12fff, are the pages below\n"
    "18. The end of the extent is the number of its pages, or the address behind its last byte.\n\n"
    "Prints one line. Its first word is the page's number, or none:\n"
    "  PAGE  ADDRESSES  not valid, at host address ADDRESS; SENTENCE\n"
    "                   found: its guest absolute addresses, its host virtual address, and why\n"
    "  none  SENTENCE   every page asked about is valid, or there is none since FROM is TO\n"
    "  I 32: SENTENCE   entry would fail, and why\n"
    "  R NUMBER         refused, and a message on standard error says why:\n"
    "    16  FROM is above TO, or TO is past the end of the extent\n"
    "A valid page may still be protected, or its frame beyond the storage; explain shows that.\n\n"
    "Exit status: 0 if there is none; 3 if one is found; 1 if it is refused, and for code 32; 2 for bad\n"
    "usage or a file that cannot be read.\n",
    NULL, 3, 2, {NULL},
};

static uint64_t first_unbacked(const struct case_file *c, const struct page_range *r, uint64_t *where)
{
    return drevokas_first_unbacked(c->record, record_bytes(c->record), c->storage, (size_t)c->frames * FRAME_BYTES, c->keys,
                                   c->frames, c->designation, r->from, r->to, where);
}

/* The page as desk list has it. Why it is not valid is said where the shell's own walk of the tables finds it so. */
static void print_found(const struct case_file *c, uint32_t page)
{
    struct extent e = extent_of(c);
    uint32_t host = e.origin + page * FRAME_BYTES;
    unsigned long first = (unsigned long)page * FRAME_BYTES;
    char text[SENTENCE] = "";

    if (!page_of_extent(&e, page).valid) {
        add(text, "; ");
        add_host_entry(c, host, text);
    }
    printf("%lu  %08lx-%08lx  not valid, at host address %08lx%s\n", (unsigned long)page, first, first + FRAME_BYTES - 1,
           (unsigned long)host, text);
}

static void print_none(const struct page_range *r)
{
    if (r->from == r->to)
        printf("none  no page is asked about\n");
    else if (r->to - r->from == 1)
        printf("none  page %lu is valid\n", (unsigned long)r->from);
    else
        printf("none  pages %lu to %lu are valid\n", (unsigned long)r->from, (unsigned long)r->to - 1);
}

/* Says why no page is looked for. */
static void complain_of(const struct case_file *c, const char *name, const struct page_range *r, uint64_t answer)
{
    unsigned number = (unsigned)drevokas_number(answer);
    char text[SENTENCE];

    if (drevokas_kind(answer) == DREVOKAS_REFUSED) {
        search_refusal(number, c, r, text);
        complain("%s: refused, R %u: %s", name, number, text);
    } else {
        complain("%s: no page is looked for: code %u, the record is not valid for entry", name, number);
    }
}

static int show(const struct case_file *c, const char *name, const struct page_range *r)
{
    uint64_t where = 0, answer = first_unbacked(c, r, &where);

    switch (drevokas_kind(answer)) {
    case DREVOKAS_GOOD:
        print_found(c, drevokas_page(where));
        return STATUS_FOUND;
    case DREVOKAS_NONE:
        print_none(r);
        return STATUS_GOOD;
    default:
        print_no(stdout, c, answer);
        complain_of(c, name, r, answer);
        return STATUS_REFUSED;
    }
}

/* An operand that is not given leaves the page as it is. */
static int optional_page(const char *text, struct asked_page *p)
{
    return text == NULL ? GO_ON : page_operand(text, p);
}

int command_unbacked(int argc, char **argv)
{
    struct asked_page from = {BY_NUMBER, 0}, to = {BY_NUMBER, 0};
    struct page_range r;
    struct arguments a;
    struct case_file c;
    int status = sort_arguments(argc, argv, &usage, &a);

    if (status == GO_ON)
        status = optional_page(a.operands[1], &from);
    if (status == GO_ON)
        status = optional_page(a.operands[2], &to);
    if (status != GO_ON)
        return status;
    status = load(a.operands[0], &c);
    if (status == STATUS_REFUSED)
        printf("R 9\n");
    if (status != GO_ON)
        return finished(status);
    r.from = page_number(&c, &from);
    r.to = a.operands[2] != NULL ? page_number(&c, &to) : extent_of(&c).pages;
    return finished(show(&c, shown_name(a.operands[0]), &r));
}
