/* Parts of fields by name, in settings and in the lines of a PSW. Those of a PSW stand where its form has them. */
#include <stdio.h>
#include <string.h>

#include "text_form.h"

/* ---- names ---- */

const char *split_setting(const char *text, char name[MOST_NAME])
{
    size_t length = name_length(text), i;

    for (i = 0; i < length; i++)
        name[i] = (char)(text[i] >= 'A' && text[i] <= 'Z' ? text[i] + ('a' - 'A') : text[i]);
    name[i] = '\0';
    return skip_blanks(text + length) + 1;
}

/* ---- the parts ---- */

/* amode and system are apart, for their values are no numbers of bits. */
static const struct part xa_parts[] = {
    {"per", 1, 1},    {"dat", 5, 1},      {"io", 6, 1},     {"external", 7, 1}, {"key", 8, 4},   {"check", 13, 1},
    {"wait", 14, 1},  {"problem", 15, 1}, {"space", 16, 1}, {"cc", 18, 2},      {"mask", 20, 4}, {"amode", 32, 1},
    {"address", 33, 31}, {NULL, 0, 0},
};

static const struct part ec_parts[] = {
    {"per", 1, 1},    {"dat", 5, 1},      {"io", 6, 1},     {"external", 7, 1}, {"key", 8, 4},   {"ec", 12, 1},
    {"check", 13, 1}, {"wait", 14, 1},    {"problem", 15, 1}, {"space", 16, 1}, {"cc", 18, 2},   {"mask", 20, 4},
    {"address", 40, 24}, {NULL, 0, 0},
};

static const struct part bc_parts[] = {
    {"channels", 0, 6}, {"channel0", 0, 1}, {"channel1", 1, 1}, {"channel2", 2, 1}, {"channel3", 3, 1}, {"channel4", 4, 1},
    {"channel5", 5, 1}, {"io", 6, 1},       {"external", 7, 1}, {"key", 8, 4},      {"ec", 12, 1},     {"check", 13, 1},
    {"wait", 14, 1},    {"problem", 15, 1}, {"code", 16, 16},   {"ilc", 32, 2},     {"cc", 34, 2},      {"mask", 36, 4},
    {"address", 40, 24}, {NULL, 0, 0},
};

static const struct part mode_parts[] = {{"system", 4, 2}, {"inactive", 7, 1}, {NULL, 0, 0}};
static const struct part request_parts[] = {{"t", 0, 1}, {NULL, 0, 0}};
static const struct part no_parts[] = {{NULL, 0, 0}};

/* What the parts of a PSW of each form are called in messages, by enum psw_form. */
static const struct {
    const struct part *parts;
    const char *form;
} psws[] = {{xa_parts, ""}, {ec_parts, " in EC form"}, {bc_parts, " in BC form"}};

static const struct part *parts_of(const char *field, enum psw_form form)
{
    if (strcmp(field, "psw") == 0)
        return psws[form].parts;
    if (strcmp(field, "mode") == 0)
        return mode_parts;
    return strcmp(field, "request") == 0 ? request_parts : no_parts;
}

/* "bit21" in a word of `width` bits; the digits are decimal. Returns 0, or -1. */
static int parse_bit_name(const char *name, unsigned width, unsigned *bit)
{
    uint64_t n;
    struct message unused;
    const char *at;

    if (strncmp(name, "bit", 3) != 0)
        return -1;
    at = name + 3;
    if (at[strspn(at, "0123456789")] != '\0' || parse_count(&at, "", width - 1, &n, &unused))
        return -1;
    *bit = (unsigned)n;
    return 0;
}

int find_part(const char *field, enum psw_form form, const char *name, unsigned width, struct part *part)
{
    const struct part *p;

    part->name = name;
    part->bits = 1;
    if (parse_bit_name(name, width, &part->first) == 0)
        return 0;
    for (p = parts_of(field, form); p->name != NULL; p++)
        if (strcmp(p->name, name) == 0) {
            *part = *p;
            return 0;
        }
    return -1;
}

/* The names of the parts of a field, with a blank behind each. */
static void list_parts(const struct part *p, char *names, size_t room)
{
    size_t used = 0;

    names[0] = '\0';
    for (; p->name != NULL && used < room; p++)
        used += (size_t)snprintf(names + used, room - used, "%s ", p->name);
}

int no_part(const char *field, enum psw_form form, const char *part, unsigned width, struct message *m)
{
    char names[160];

    list_parts(parts_of(field, form), names, sizeof names);
    if (strcmp(field, "psw") == 0) {
        names[strlen(names) - 1] = '\0';
        return wrong(m, "the PSW%s has no part \"%.40s\"; parts are %s, and bit0 to bit63", psws[form].form, part, names);
    }
    return wrong(m, "the field %s has no part \"%.40s\"; its parts are %s%sbit0 to bit%u", field, part, names,
                 *names == '\0' ? "" : "and ", width - 1);
}

/* ---- their values ---- */

/* Whether the field or part of this name is an address. */
static int is_address(const char *name)
{
    return strcmp(name, "prefix") == 0 || strcmp(name, "address") == 0;
}

int parse_value(const char **at, const struct labels *labels, const char *name, unsigned bits, uint64_t *n, struct message *m)
{
    struct value v;

    if (is_address(name) ? parse_address_expression(at, labels, &v, m) : parse_expression(at, labels, &v, m))
        return -1;
    return value_in_bits(&v, bits, n, m);
}

/* 24 or 31, as bit 32 has it. */
static int parse_amode(const char **at, uint64_t *n, struct message *m)
{
    if (parse_value(at, NULL, "amode", PSW_BITS, n, m))
        return -1;
    if (*n != 24 && *n != 31)
        return wrong(m, "amode is 24 or 31, the bits of an address");
    *n = *n == 31;
    return 0;
}

/* 370 or XA, as mode bits 4-5 have it. */
static int parse_system(const char **at, uint64_t *n, struct message *m)
{
    struct message unused;

    if (take_word(at, "xa")) {
        *n = SYSTEM_XA;
        return 0;
    }
    if (parse_value(at, NULL, "system", PSW_BITS, n, &unused) || *n != 370)
        return wrong(m, "the system is 370, for System/370, or xa, for 370-XA");
    *n = SYSTEM_370;
    return 0;
}

int parse_part(const char **at, const struct labels *labels, const struct part *part, uint64_t *n, struct message *m)
{
    if (strcmp(part->name, "amode") == 0)
        return parse_amode(at, n, m);
    if (strcmp(part->name, "system") == 0)
        return parse_system(at, n, m);
    return parse_value(at, labels, part->name, part->bits, n, m);
}

void set_bits(uint64_t *word, unsigned width, unsigned first, unsigned bits, uint64_t n)
{
    unsigned shift = width - first - bits;
    uint64_t ones = (UINT64_C(1) << bits) - 1;

    *word = (*word & ~(ones << shift)) | (n & ones) << shift;
}

/* ---- a PSW in a line ---- */

int gives_form(const struct part *part)
{
    return part->first == FORM_BIT && part->bits == 1;
}

/* Whether the parts of a System/370 PSW put it in EC form. What is wrong with them is not told here. */
static int says_extended(const char *at, const struct labels *labels)
{
    struct message unused;
    struct part part;
    char name[MOST_NAME];
    uint64_t n;

    while (name_length(at) > 0 && *skip_blanks(at + name_length(at)) == '=') {
        const char *value = split_setting(at, name);

        if (find_part("psw", EC_PSW, name, PSW_BITS, &part) == 0 && gives_form(&part))
            return parse_part(&value, labels, &part, &n, &unused) == 0 && n == 1;
        at = strchr(value, ',');
        if (at == NULL)
            return 0;
        at = skip_blanks(at + 1);
    }
    return 0;
}

int parse_psw(const char *at, int system370, const struct labels *labels, uint64_t *psw, struct message *m)
{
    enum psw_form form;
    struct part part;
    char name[MOST_NAME];
    uint64_t n, ones, given = 0;

    *psw = system370 ? 0 : BLANK_PSW;
    at = skip_blanks(at);
    if (*at == '\0')
        return 0;
    form = !system370 ? XA_PSW : says_extended(at, labels) ? EC_PSW : BC_PSW;
    for (;;) {
        if (name_length(at) == 0 || *skip_blanks(at + name_length(at)) != '=')
            return wrong(m, "\"%.20s\" is not NAME=VALUE; write a PSW as \"psw dat=1, address=start\"", at);
        at = split_setting(at, name);
        if (find_part("psw", form, name, PSW_BITS, &part))
            return no_part("psw", form, name, PSW_BITS, m);
        if (parse_part(&at, labels, &part, &n, m))
            return -1;
        ones = 0;
        set_bits(&ones, PSW_BITS, part.first, part.bits, UINT64_MAX);
        if (given & ones)
            return wrong(m, "%.40s, or a bit of it, is given twice in this PSW; leave one out", name);
        given |= ones;
        set_bits(psw, PSW_BITS, part.first, part.bits, n);
        if (*skip_blanks(at) != ',')
            return nothing_left(at, m);
        at = skip_blanks(skip_blanks(at) + 1);
    }
}
