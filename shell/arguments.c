#include "arguments.h"

#include <errno.h>
#include <stdio.h>
#include <string.h>

#include "command.h"

#define MOST_UNITS 4294967295u

int bad_usage(const struct usage *u)
{
    fprintf(stderr, "usage: drevokas %s\n", u->synopsis);
    return STATUS_BAD;
}

int print_help(const struct usage *u)
{
    printf("usage: drevokas %s\n\n%s%s", u->synopsis, u->help, u->more != NULL ? u->more : "");
    return finished(STATUS_GOOD);
}

/* The number of the option that this argument names, "--name" or "--name=VALUE"; MOST_OPTIONS if it is none. */
static unsigned named(const struct usage *u, const char *argument)
{
    size_t length = strcspn(argument, "=");
    unsigned i;

    for (i = 0; i < MOST_OPTIONS && u->options[i] != NULL; i++)
        if (strlen(u->options[i]) == length && memcmp(u->options[i], argument, length) == 0)
            return i;
    return MOST_OPTIONS;
}

/* Takes the option at argv[i]. Returns the number of arguments that it uses, or 0 after a complaint. */
static int take_option(int argc, char **argv, int i, const struct usage *u, struct arguments *a)
{
    unsigned o = named(u, argv[i]);
    const char *equals = strchr(argv[i], '=');
    int flag = o < MOST_OPTIONS && strcmp(u->options[o], QUIET_OPTION) == 0;

    if (o == MOST_OPTIONS)
        complain("%s: unknown option %s", argv[0], argv[i]);
    else if (a->values[o] != NULL)
        complain("%s: option %s is given twice", argv[0], u->options[o]);
    else if (flag && equals != NULL)
        complain("%s: option %s takes no value", argv[0], u->options[o]);
    else if (!flag && equals == NULL && i + 1 == argc)
        complain("%s: option %s needs a value", argv[0], u->options[o]);
    else {
        int used = flag || equals != NULL ? 1 : 2;

        a->values[o] = equals != NULL ? equals + 1 : argv[i + used - 1];
        return used;
    }
    return 0;
}

static int is_option(const char *argument)
{
    return argument[0] == '-' && argument[1] != '\0';
}

int wants_help(int argc, char **argv)
{
    int i;

    for (i = 1; i < argc && strcmp(argv[i], "--") != 0; i++)
        if (strcmp(argv[i], "--help") == 0 || strcmp(argv[i], "-h") == 0)
            return 1;
    return 0;
}

/* Complains that so many operands are given. */
static int bad_count(const char *sub, const struct usage *u, unsigned count)
{
    unsigned least = u->operands - u->optional;
    const char *how = count < least ? "few" : "many";

    if (u->optional == 0)
        complain("%s: too %s arguments: %u, and must be %u", sub, how, count, least);
    else
        complain("%s: too %s arguments: %u, and must be %u to %u", sub, how, count, least, u->operands);
    return bad_usage(u);
}

int sort_arguments(int argc, char **argv, const struct usage *u, struct arguments *a)
{
    unsigned count = 0;
    int i = 1, options = 1, used;

    memset(a, 0, sizeof *a);
    if (wants_help(argc, argv))
        return print_help(u);
    while (i < argc) {
        used = 1;
        if (options && strcmp(argv[i], "--") == 0)
            options = 0;
        else if (options && is_option(argv[i]))
            used = take_option(argc, argv, i, u, a);
        else if (count++ < u->operands)
            a->operands[count - 1] = argv[i];
        if (used == 0)
            return bad_usage(u);
        i += used;
    }
    if (count + u->optional >= u->operands && count <= u->operands)
        return GO_ON;
    return bad_count(argv[0], u, count);
}

/* ---- numbers ---- */

static int digit_of(char c, int base)
{
    static const char digits[] = "0123456789abcdefABCDEF";
    const char *at = strchr(digits, c);
    int digit = at == NULL || c == '\0' ? -1 : (int)(at - digits);

    if (digit >= 16)
        digit -= 6;
    return digit < base ? digit : -1;
}

static int number(const char *text, const char *end, int base, uint64_t most, uint64_t *value)
{
    uint64_t v = 0;

    if (text == end)
        return -1;
    for (; text != end; text++) {
        int digit = digit_of(*text, base);

        if (digit < 0 || v > (most - (uint64_t)digit) / (uint64_t)base)
            return -1;
        v = v * (uint64_t)base + (uint64_t)digit;
    }
    *value = v;
    return 0;
}

int decimal_number(const char *text, uint64_t most, uint64_t *value)
{
    return number(text, text + strlen(text), 10, most, value);
}

int hex_number(const char *text, uint64_t most, uint64_t *value)
{
    const char *end = text + strlen(text);

    if (text[0] == '0' && (text[1] == 'x' || text[1] == 'X'))
        text += 2;
    else if (text[0] == 'x' || text[0] == 'X') {
        text++;
        if (end - text >= 2 && text[0] == '\'' && end[-1] == '\'') {
            text++;
            end--;
        }
    }
    return number(text, end, 16, most, value);
}

int marked_number(const char *text, uint32_t *value)
{
    uint64_t n = 0;
    int is_hex = text[0] == 'x' || text[0] == 'X' || (text[0] == '0' && (text[1] == 'x' || text[1] == 'X'));
    int result = is_hex ? hex_number(text, 0xffffffffu, &n) : decimal_number(text, 0xffffffffu, &n);

    *value = (uint32_t)n;
    return result;
}

/* Whether the digits might be meant in binary, by a prefix that elsewhere means it. */
static int may_be_binary(const char *text)
{
    return text[0] == '0' && (text[1] == 'b' || text[1] == 'B') && text[2] != '\0' && text[2 + strspn(text + 2, "01")] == '\0';
}

int address_operand(const char *text, uint32_t *address)
{
    uint64_t n = 0;

    if (hex_number(text, 0xffffffffu, &n) != 0)
        complain("address %s: must be a hexadecimal number of 32 bits: digits, 0x and digits, or X'digits'", text);
    else if (may_be_binary(text))
        complain("address %s: is it hexadecimal, 0x%s, or binary? Write 0x and hexadecimal digits", text, text);
    else {
        *address = (uint32_t)n;
        return GO_ON;
    }
    return STATUS_BAD;
}

int units_option(const char *option, const char *value, uint32_t least, uint32_t *units)
{
    uint64_t n = 0;

    if (value == NULL)
        return GO_ON;
    if (decimal_number(value, MOST_UNITS, &n) != 0 || n < least) {
        complain("%s %s: must be a decimal number from %u to %u", option, value, (unsigned)least, MOST_UNITS);
        return STATUS_BAD;
    }
    *units = (uint32_t)n;
    return GO_ON;
}

/* ---- files ---- */

int load(const char *name, struct case_file *c)
{
    char message[8192];
    enum read_result result = read_case_file(name, c, message, sizeof message);

    if (result == READ_GOOD)
        return GO_ON;
    complain("%s", message);
    return result == READ_MALFORMED ? STATUS_REFUSED : STATUS_BAD;
}

int save_to(const struct output *o, const struct case_file *c, int status)
{
    if (write_output(o, c) == 0)
        return status;
    complain("%s: cannot be written: %s", o->name, strerror(errno));
    return STATUS_BAD;
}

int save(const char *name, const struct case_file *c, int status)
{
    struct output o;

    if (find_output(name, &o) != GO_ON)
        return STATUS_BAD;
    status = save_to(&o, c, status);
    release_output(&o);
    return status;
}
