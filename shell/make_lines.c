/* The lines of the text form by their kinds, the places of contents, and the labels. */
#include <stdlib.h>
#include <string.h>
#include <strings.h>

#include "assembler.h"
#include "text_form.h"

int take_word(const char **at, const char *word)
{
    const char *start = skip_blanks(*at);
    size_t length = name_length(start);

    if (length == 0 || !same_name(start, length, word))
        return 0;
    *at = skip_blanks(start + length);
    return 1;
}

/* ---- labels ---- */

/* The order of two labels by their letters, capital or not. */
static int by_letters(const struct line *a, const struct line *b)
{
    size_t shorter = a->label_length < b->label_length ? a->label_length : b->label_length;
    int order = strncasecmp(a->label, b->label, shorter);

    return order != 0 ? order : (a->label_length > b->label_length) - (a->label_length < b->label_length);
}

/* The same for qsort; labels that are the same are in the order of their lines. */
static int compare_labels(const void *a, const void *b)
{
    const struct line *first = *(const struct line *const *)a, *second = *(const struct line *const *)b;
    int order = by_letters(first, second);

    return order != 0 ? order : (first > second) - (first < second);
}

/* The same for bsearch. */
static int compare_name(const void *key, const void *element)
{
    return by_letters(key, *(const struct line *const *)element);
}

/* Sorts the labels; of those that are there twice, the later is a fault. */
static void sort_labels(struct text_form *f)
{
    struct message m;
    unsigned i;

    qsort(f->labels, f->label_count, sizeof *f->labels, compare_labels);
    for (i = 1; i < f->label_count && !enough_faults(f); i++) {
        const struct line *l = f->labels[i], *before = f->labels[i - 1];

        if (by_letters(l, before) != 0)
            continue;
        wrong(&m, "the label %.*s is in line %u already; give it another name", (int)l->label_length, l->label,
              (unsigned)(before - f->lines) + 1);
        note_fault(f, (unsigned)(l - f->lines) + 1, &m);
    }
}

static int find_address(void *book, const char *name, size_t length, uint64_t *address)
{
    const struct text_form *f = book;
    struct line key = {0};
    const struct line *const *found;

    key.label = name;
    key.label_length = length;
    found = bsearch(&key, f->labels, f->label_count, sizeof *f->labels, compare_name);
    if (found == NULL)
        return -1;
    *address = (*found)->place.address;
    return 0;
}

/* The base register in use that gives the smallest displacement; else none, if the address is a displacement by itself. */
static int reach(void *book, uint64_t address, unsigned *base, unsigned *displacement)
{
    const struct text_form *f = book;
    unsigned r;
    uint64_t nearest = FRAME_BYTES;

    for (r = 1; r < REGISTERS; r++)
        if (f->bases[r].used && address >= f->bases[r].address && address - f->bases[r].address < nearest) {
            nearest = address - f->bases[r].address;
            *base = r;
        }
    if (nearest == FRAME_BYTES) {
        nearest = address;
        *base = 0;
    }
    *displacement = (unsigned)nearest;
    return nearest < FRAME_BYTES ? 0 : -1;
}

struct labels labels_of(struct text_form *f)
{
    struct labels l = {find_address, reach, NULL};

    l.book = f;
    return l;
}

/* ---- kinds of lines ---- */

static const struct {
    const char *name;
    enum line_kind kind;
} directives[] = {
    {"key", KEY_LINE},   {"host", HOST_TABLES_LINE}, {"guest", GUEST_TABLES_LINE},
    {"map", MAP_LINE},   {"using", USING_LINE},      {"drop", DROP_LINE},
};

#define DIRECTIVES (sizeof directives / sizeof *directives)

/* at guest|real|virtual ADDRESS, or at frame NUMBER [OFFSET] */
static int parse_at(const char *at, struct place *here, struct message *m)
{
    uint64_t frame, offset = 0;

    if (take_word(&at, "frame")) {
        here->space = IN_FRAMES;
        if (parse_count(&at, "the frame", MOST_FRAMES - 1, &frame, m))
            return -1;
        if (*at != '\0' && parse_address(&at, "the offset", FRAME_BYTES - 1, &offset, m))
            return -1;
        here->address = frame * FRAME_BYTES + offset;
        return nothing_left(at, m);
    }
    if (take_word(&at, "guest"))
        here->space = IN_GUEST;
    else if (take_word(&at, "real"))
        here->space = IN_REAL;
    else if (take_word(&at, "virtual"))
        here->space = IN_VIRTUAL;
    else
        return wrong(m, "the place is missing; write \"at guest X'200'\", \"at real ...\", \"at virtual ...\" or \"at frame "
                     "3 X'200'\"");
    if (parse_address(&at, "the address", ADDRESS_LIMIT - 1, &here->address, m))
        return -1;
    return nothing_left(at, m);
}

static int parse_align(const char *at, struct place *here, struct message *m)
{
    uint64_t n;

    if (parse_count(&at, "the alignment", FRAME_BYTES, &n, m) || nothing_left(at, m))
        return -1;
    if (n == 0 || (n & (n - 1)) != 0)
        return wrong(m, "the alignment is %llu; it must be 1, 2, 4, 8 or another power of two up to 4096",
                     ull(n));
    if (here->space == NO_SPACE)
        return wrong(m, "nothing is to be aligned before the first \"at\"; write \"at guest X'200'\" or the like first");
    here->address = (here->address + n - 1) & ~(n - 1);
    return 0;
}

static int check_label(const struct line *l, const struct place *here, struct message *m)
{
    if (l->label_length > MOST_LABEL)
        return wrong(m, "the label is %u characters long; at most %u", (unsigned)l->label_length, MOST_LABEL);
    if (memchr(l->label, '.', l->label_length))
        return wrong(m, "the label %.*s has a dot; it may have letters, digits, _ @ and $", (int)l->label_length, l->label);
    if (here->space == IN_FRAMES)
        return wrong(m, "a label has no guest address after \"at frame\"; use \"at guest\", \"at real\" or \"at virtual\"");
    return 0;
}

/* The label of a line gets its address. */
static int take_label(struct text_form *f, unsigned line, const struct place *here, struct message *m)
{
    struct line *l = &f->lines[line - 1];

    l->place = *here;
    if (check_label(l, here, m))
        return -1;
    f->labels[f->label_count++] = l;
    return 0;
}

/* Neither the first nor the second word is an operation. */
static int no_operation(const char *first, size_t length, const char *second, struct message *m)
{
    char names[160];
    int n = (int)name_length(second);

    if (*second == '\0')
        return wrong(m, "%.*s is no directive or operation, and stands alone; a label needs an instruction or data after it "
                     "in its line", length > 40 ? 40 : (int)length, first);
    list_instructions(names, sizeof names);
    return wrong(m, "%s%.*s%s%.*s is %san instruction (%s, extended branches), data (bytes half word double psw space) or a "
                 "directive", n == 0 ? "" : "neither ", length > 40 ? 40 : (int)length, first, n == 0 ? "" : " nor ",
                 n > 40 ? 40 : n, second, n == 0 ? "not " : "", names);
}

static int check_place(const struct place *here, unsigned alignment, struct message *m)
{
    if (here->space == NO_SPACE)
        return wrong(m, "there is no place for this yet; write \"at guest X'200'\" or the like before the first instruction "
                     "or data");
    if (here->address % alignment != 0)
        return wrong(m, "the address is X'%llX' here and must be a multiple of %u; write \"align %u\" before this line",
                     ull(here->address), alignment, alignment);
    return 0;
}

/* Whether the first word is a label though it names an instruction of channels: an operation follows it. */
static int is_label_all_the_same(const char *text, size_t length)
{
    unsigned bytes, alignment;
    struct message unused;

    return is_channel_name(text, length) && measure(skip_blanks(text + length), &bytes, &alignment, &unused) != 0;
}

/* An instruction or data, perhaps with a label. */
static int sort_content(struct text_form *f, unsigned line, struct place *here, struct message *m)
{
    struct line *l = &f->lines[line - 1];
    size_t length = name_length(l->text);
    unsigned alignment = 1;
    int operation = is_label_all_the_same(l->text, length) ? 0 : measure(l->text, &l->length, &alignment, m);

    if (operation == 0) {
        l->label = l->text;
        l->label_length = length;
        l->text = skip_blanks(l->text + length);
        operation = measure(l->text, &l->length, &alignment, m);
    }
    if (operation == 0)
        return no_operation(l->label, length, l->text, m);
    if (l->label != NULL && take_label(f, line, here, m))
        operation = -1;
    if (operation < 0 || check_place(here, alignment, m))
        return -1;
    l->kind = CONTENT_LINE;
    l->place = *here;
    here->address += l->length;
    return 0;
}

static int sort_line(struct text_form *f, unsigned line, struct place *here, struct message *m)
{
    struct line *l = &f->lines[line - 1];
    size_t length = name_length(l->text), i;
    const char *after = skip_blanks(l->text + length);

    if (*l->text == '\0')
        return 0;
    if (length == 0)
        return wrong(m, "a line starts with a name, a directive or an instruction, and not with \"%.10s\"; a comment starts "
                     "with # or *", l->text);
    if (*after == '=') {
        l->kind = SETTING_LINE;
        return 0;
    }
    for (i = 0; i < DIRECTIVES; i++)
        if (same_name(l->text, length, directives[i].name)) {
            l->kind = directives[i].kind;
            return 0;
        }
    if (same_name(l->text, length, "at"))
        return parse_at(after, here, m);
    if (same_name(l->text, length, "align"))
        return parse_align(after, here, m);
    return sort_content(f, line, here, m);
}

void sort_lines(struct text_form *f)
{
    struct place here = {NO_SPACE, 0};
    struct message m;
    unsigned line;

    for (line = 1; line <= f->count && !enough_faults(f); line++)
        if (sort_line(f, line, &here, &m)) {
            note_fault(f, line, &m);
            if (here.space == NO_SPACE)
                here.space = IN_GUEST;
        }
    sort_labels(f);
}
