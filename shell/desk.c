/* drevokas desk: the pages of a guest listed; one of them added, removed or protected. */
#include <stdio.h>
#include <string.h>
#include <unistd.h>

#include "../include/drevokas.h"
#include "arguments.h"
#include "command.h"
#include "desk_words.h"
#include "interrupt.h"
#include "page_operand.h"

#define MOST_NAME 32        /* room for "desk" and an action, and for the numbers of two pages */
#define WORD_WIDTH 6        /* columns of "before", "after" and "valid" */
#define ADD "desk add FILE PAGE FRAME --after OUT"
#define REMOVE "desk remove FILE PAGE --after OUT"
#define PROTECT "desk protect FILE PAGE --after OUT"
#define LIST "desk list FILE"
#define AND "\n       drevokas "

#define HELP \
    "The host's desk for the pages of a guest, which is that of a case file, or of standard input if FILE\n" \
    "is -. A change is to the host's page entry of one page, and to nothing else:\n" \
    "  add        a page that is not valid gets FRAME: its entry names it, all other bits zero\n" \
    "  remove     a valid page becomes invalid: bit 21 of its entry becomes one\n" \
    "  protect    a valid page is protected from stores: bit 22 of its entry becomes one\n" \
    "  list       shows each page with its frame, or that it is not valid\n" \
    "PAGE is a number, counted from 0 at the start of the extent: 18, 0x12 or X'12'. Or it is an address\n" \
    "in the page, hexadecimal: guest:12000, guest absolute, or host:112000, host virtual, which is what a\n" \
    "host fault has. FRAME is a number likewise.\n\n" \
    "A change prints the page and the host absolute address of its entry; the entry before and after, in\n" \
    "hexadecimal and in words; and how many of the extent's pages are valid then. Or it prints one line,\n" \
    "and so does list:\n" \
    "  I 32: SENTENCE   entry would fail, and why; nothing is changed\n" \
    "  R NUMBER         refused; nothing is changed, and a message on standard error says why:\n" \
    "    10  the page is outside the extent, or its entry is out of reach\n" \
    "    11  add: the page is already valid\n" \
    "    12  remove, protect: the page is not valid\n" \
    "    13  add: the frame is outside the storage\n" \
    "    14  an entry that describes the extent would lie in a guest frame, or the page's entry is also\n" \
    "        that of another page of the extent, or of one of its segments\n\n" \
    "  --after OUT      write the case file as it stands after the call; OUT may be FILE. With OUT -, it\n" \
    "                   goes to standard output, and what is printed to standard error. OUT is written\n" \
    "                   whole or not at all, once the lines are printed, and only if the call is done;\n" \
    "                   a file that is there and is no case file is not written over\n\n" \
    "Exit status: 0; 1 if it is refused, or a page is not changed for code 32; 2 for bad usage or a\n" \
    "file that cannot be read or written. With 1 and 2 OUT is as it was.\n"

static const struct usage usage = {ADD AND REMOVE AND PROTECT AND LIST, HELP, NULL, 0, 0, {NULL}};

/* ---- the library's answers ---- */

#define GUEST(c) (c)->record, record_bytes((c)->record), (c)->storage, (size_t)(c)->frames * FRAME_BYTES, (c)->keys, (c)->frames

/* Lists the pages. The words are as many as the largest extent has pages, so that they are never too few. */
static uint64_t list_pages(const struct case_file *c, const uint32_t **frames)
{
    static uint32_t words[DREVOKAS_MOST_PAGES];

    *frames = words;
    return drevokas_list_pages(GUEST(c), c->designation, words, DREVOKAS_MOST_PAGES);
}

/* Changes a page. The number of valid pages starts from the list's. */
static uint64_t change_page(struct case_file *c, const struct desk_change *d, uint32_t *valid)
{
    const uint32_t *frames;

    *valid = drevokas_valid_pages(list_pages(c, &frames));
    switch (d->action) {
    case DESK_ADD:
        return drevokas_add_page(GUEST(c), c->designation, d->page, d->frame, valid);
    case DESK_REMOVE:
        return drevokas_remove_page(GUEST(c), c->designation, d->page, valid);
    default:
        return drevokas_protect_page(GUEST(c), c->designation, d->page, valid);
    }
}

/* ---- what is printed ---- */

static void print_valid(FILE *to, int width, uint32_t valid, uint32_t pages)
{
    fprintf(to, "%-*s  %lu of %lu pages\n", width, "valid", (unsigned long)valid, (unsigned long)pages);
}

static void print_entry(FILE *to, const char *when, const struct case_file *c, uint32_t place)
{
    uint32_t entry = (uint32_t)get_number(c->storage + place, ENTRY_BYTES);
    char text[SENTENCE] = "";

    add_page_entry(c, entry, text);
    fprintf(to, "%-*s  %08lx  %s\n", WORD_WIDTH, when, (unsigned long)entry, text);
}

/* A change that is done. */
static void print_change(FILE *to, const struct desk_change *d, const struct case_file *before, const struct case_file *after,
                         uint32_t valid)
{
    static const char *const done[] = {"added", "removed", "protected"};
    struct extent e = extent_of(before);
    uint32_t place = page_of_extent(&e, d->page).page_place;
    unsigned long first = (unsigned long)d->page * FRAME_BYTES;

    fprintf(to, "%s page %lu, guest absolute %08lx-%08lx, entry at %08lx\n", done[d->action], (unsigned long)d->page, first,
            first + FRAME_BYTES - 1, (unsigned long)place);
    print_entry(to, "before", before, place);
    print_entry(to, "after", after, place);
    print_valid(to, WORD_WIDTH, valid, e.pages);
}

/* One page, or pages one after the other that are not valid; their numbers take this width. */
static void print_pages(const struct case_file *c, uint32_t from, uint32_t last, uint32_t frame, int width)
{
    char pages[MOST_NAME];

    snprintf(pages, sizeof pages, "%lu", (unsigned long)from);
    if (from < last)
        snprintf(pages, sizeof pages, "%lu-%lu", (unsigned long)from, (unsigned long)last);
    printf("%-*s  %08lx-%08lx  ", width, pages, (unsigned long)from * FRAME_BYTES, (unsigned long)last * FRAME_BYTES + 0xfff);
    if (frame == DREVOKAS_NO_FRAME)
        printf("not valid\n");
    else
        printf("frame %lu%s\n", (unsigned long)frame, frame >= c->frames ? ", beyond the storage" : "");
}

/* The last of the pages that are not valid from this one on; itself if it is valid. */
static uint32_t last_alike(const uint32_t *frames, uint32_t from, uint32_t pages)
{
    uint32_t last = from;

    while (frames[from] == DREVOKAS_NO_FRAME && last + 1 < pages && frames[last + 1] == DREVOKAS_NO_FRAME)
        last++;
    return last;
}

static void print_list(const struct case_file *c, const uint32_t *frames, uint32_t valid)
{
    uint32_t pages = extent_of(c).pages, from, last;
    int width = 2 * snprintf(NULL, 0, "%lu", (unsigned long)pages - 1) + 1;

    for (from = 0; from < pages; from = last + 1) {
        last = last_alike(frames, from, pages);
        print_pages(c, from, last, frames[from], width);
    }
    print_valid(stdout, width, valid, pages);
}

/* ---- operands ---- */

static int frame_operand(const char *text, uint32_t *frame)
{
    if (text == NULL || marked_number(text, frame) == 0)
        return GO_ON;
    complain("frame %s: must be a number of 32 bits, decimal or 0x and hexadecimal digits", text);
    return STATUS_BAD;
}

/* ---- the actions ---- */

struct action {
    const char *name;
    int (*run)(const struct action *k, int argc, char **argv);
    struct usage usage;
    enum desk_action change;    /* of run_change */
};

/* Prints the answer; says why it is a refusal. The lines are out before the case file is written: STATUS_BAD means that it is
   as it was. */
static int conclude(const struct desk_change *d, struct case_file *c, const char *name, const struct output *after, FILE *to)
{
    struct case_file before = *c;
    uint32_t valid;
    uint64_t answer = change_page(c, d, &valid);
    char text[SENTENCE];

    if (drevokas_kind(answer) == DREVOKAS_GOOD)
        print_change(to, d, &before, c, valid);
    else
        print_no(to, c, answer);
    if (finished(STATUS_GOOD) != STATUS_GOOD || ferror(to))
        return STATUS_BAD;
    if (drevokas_kind(answer) == DREVOKAS_GOOD)
        return save_to(after, c, STATUS_GOOD);
    if (drevokas_kind(answer) == DREVOKAS_REFUSED) {
        desk_refusal((unsigned)drevokas_number(answer), c, d, text);
        complain("%s: refused, R %u: %s", name, (unsigned)drevokas_number(answer), text);
    } else {
        complain("%s: the page is not changed: code %u, the record is not valid for entry", name,
                 (unsigned)drevokas_number(answer));
    }
    return STATUS_REFUSED;
}

/* Once the file is read no signal that asks for an end stops the call: it is done at once, and the case file is written. */
static int change_file(const char *name, const struct asked_page *p, struct desk_change *d, const struct output *after)
{
    FILE *to = after->descriptor == STDOUT_FILENO ? stderr : stdout;   /* the case file takes standard output */
    struct case_file c;
    int status = load(name, &c);

    if (status == STATUS_REFUSED)
        fputs("R 9\n", to);
    if (status != GO_ON)
        return finished(status);
    d->page = page_number(&c, p);
    catch_interrupts();
    status = conclude(d, &c, shown_name(name), after, to);
    release_interrupts();
    return status;
}

static int find_after(const char *sub, const struct usage *u, const char *name, struct output *after)
{
    if (name != NULL)
        return find_output(name, after);
    complain("%s: needs --after OUT, which is where the case file goes", sub);
    return bad_usage(u);
}

static int run_change(const struct action *k, int argc, char **argv)
{
    struct desk_change d = {k->change, 0, 0};
    struct asked_page p;
    struct arguments a;
    struct output after;
    int status = sort_arguments(argc, argv, &k->usage, &a);

    if (status == GO_ON)
        status = page_operand(a.operands[1], &p);
    if (status == GO_ON)
        status = frame_operand(a.operands[2], &d.frame);
    if (status == GO_ON)
        status = find_after(argv[0], &k->usage, a.values[0], &after);
    if (status != GO_ON)
        return status;
    status = change_file(a.operands[0], &p, &d, &after);
    release_output(&after);
    return status;
}

static int show_list(const struct case_file *c, const char *name)
{
    const uint32_t *frames;
    uint64_t answer = list_pages(c, &frames);
    char text[SENTENCE];

    if (drevokas_kind(answer) == DREVOKAS_GOOD)
        print_list(c, frames, drevokas_valid_pages(answer));
    else
        print_no(stdout, c, answer);
    if (drevokas_kind(answer) != DREVOKAS_REFUSED)
        return STATUS_GOOD;
    refusal_sentence((unsigned)drevokas_number(answer), c, text, sizeof text);
    complain("%s: refused, R %u: %s", name, (unsigned)drevokas_number(answer), text);
    return STATUS_REFUSED;
}

static int run_list(const struct action *k, int argc, char **argv)
{
    struct arguments a;
    struct case_file c;
    int status = sort_arguments(argc, argv, &k->usage, &a);

    if (status != GO_ON)
        return status;
    status = load(a.operands[0], &c);
    if (status == STATUS_REFUSED)
        printf("R 9\n");
    return finished(status == GO_ON ? show_list(&c, shown_name(a.operands[0])) : status);
}

static const struct action actions[] = {
    {"add", run_change, {ADD, HELP, NULL, 3, 0, {"--after"}}, DESK_ADD},
    {"remove", run_change, {REMOVE, HELP, NULL, 2, 0, {"--after"}}, DESK_REMOVE},
    {"protect", run_change, {PROTECT, HELP, NULL, 2, 0, {"--after"}}, DESK_PROTECT},
    {"list", run_list, {LIST, HELP, NULL, 1, 0, {NULL}}, DESK_ADD},
};

#define ACTIONS (sizeof actions / sizeof *actions)

/* No action is named: help is asked for, or it is an error. */
static int without_action(int argc, char **argv)
{
    if (wants_help(argc, argv))
        return print_help(&usage);
    complain("desk: no action%s%s; it is add, remove, protect or list", argc > 1 ? " " : "", argc > 1 ? argv[1] : "");
    return bad_usage(&usage);
}

int command_desk(int argc, char **argv)
{
    char name[MOST_NAME];
    size_t i = 0;

    while (i < ACTIONS && (argc < 2 || strcmp(argv[1], actions[i].name) != 0))
        i++;
    if (i == ACTIONS)
        return without_action(argc, argv);
    snprintf(name, sizeof name, "desk %s", actions[i].name);
    argv[1] = name;
    return actions[i].run(&actions[i], argc - 1, argv + 1);
}
