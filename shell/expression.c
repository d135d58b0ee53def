#include "expression.h"

#include <stdarg.h>
#include <stdio.h>
#include <string.h>
#include <strings.h>

#define UNITS_IN_MICROSECOND 4096u
#define MOST_SHOWN 40

int wrong(struct message *m, const char *format, ...)
{
    va_list list;

    va_start(list, format);
    vsnprintf(m->text, sizeof m->text, format, list);
    va_end(list);
    return -1;
}

const char *skip_blanks(const char *at)
{
    while (*at == ' ' || *at == '\t')
        at++;
    return at;
}

static int is_digit(char c)
{
    return c >= '0' && c <= '9';
}

static int is_name_start(char c)
{
    return (c >= 'a' && c <= 'z') || (c >= 'A' && c <= 'Z') || c == '_' || c == '@' || c == '$';
}

static int is_name_part(char c)
{
    return is_name_start(c) || is_digit(c) || c == '.';
}

size_t name_length(const char *at)
{
    size_t n = 0;

    if (is_name_start(*at))
        while (is_name_part(at[n]))
            n++;
    return n;
}

int same_name(const char *name, size_t length, const char *word)
{
    return strlen(word) == length && strncasecmp(name, word, length) == 0;
}

/* The characters of a word that a message shows. */
static int shown(const char *at)
{
    int n = 0;

    while (n < MOST_SHOWN && (is_name_part(at[n]) || at[n] == '\''))
        n++;
    return n > 0 ? n : at[0] != '\0';
}

static int digit_value(char c)
{
    if (is_digit(c))
        return c - '0';
    if (c >= 'a' && c <= 'f')
        return c - 'a' + 10;
    if (c >= 'A' && c <= 'F')
        return c - 'A' + 10;
    return 99;
}

/* n = n * by + more; -1 if that is over 64 bits. */
static int grow(uint64_t *n, uint64_t by, uint64_t more)
{
    if (*n > (UINT64_MAX - more) / by)
        return -1;
    *n = *n * by + more;
    return 0;
}

/* Digits to a base; at least one. */
static int parse_digits(const char **at, int base, uint64_t *n, struct message *m)
{
    const char *start = *at;

    for (*n = 0; digit_value(**at) < base; ++*at)
        if (grow(n, (uint64_t)base, (uint64_t)digit_value(**at)))
            return wrong(m, "the number %.*s is too large; a number has at most 64 bits", shown(start), start);
    if (*at == start)
        return wrong(m, "%s digits are missing", base == 16 ? "hex" : base == 2 ? "binary" : "decimal");
    return 0;
}

/* X'1F' or B'101', from its first quote on. */
static int parse_quoted(const char **at, int base, uint64_t *n, struct message *m)
{
    const char *start = *at - 1;

    ++*at;
    if (parse_digits(at, base, n, m))
        return -1;
    if (**at != '\'')
        return wrong(m, "%.*s is not closed, or has a wrong digit; write it like %s", shown(start), start,
                     base == 16 ? "X'1F'" : "B'101'");
    ++*at;
    return 0;
}

/* The clock units of us, ms or s, or 0 for another name. */
static uint64_t unit_named(const char *name, size_t length)
{
    if (same_name(name, length, "us"))
        return UNITS_IN_MICROSECOND;
    if (same_name(name, length, "ms"))
        return UNITS_IN_MICROSECOND * UINT64_C(1000);
    return same_name(name, length, "s") ? UNITS_IN_MICROSECOND * UINT64_C(1000000) : 0;
}

/* The fraction after the dot, as up to nine digits of a number that is `tenths` times too large. */
static int parse_fraction(const char **at, uint64_t *fraction, uint64_t *tenths, struct message *m)
{
    const char *start = *at;

    *fraction = 0;
    *tenths = 1;
    if (**at != '.')
        return 0;
    for (++*at; is_digit(**at); ++*at) {
        if (*at - start > 9)
            return wrong(m, "the fraction %.*s has too many digits; at most nine", shown(start), start);
        *fraction = *fraction * 10 + (uint64_t)digit_value(**at);
        *tenths *= 10;
    }
    if (*tenths == 1)
        return wrong(m, "digits are missing after the dot; write a fraction like 0.5us");
    return 0;
}

/* A decimal number, perhaps an amount of time. */
static int parse_decimal(const char **at, uint64_t *n, struct message *m)
{
    const char *start = *at;
    uint64_t fraction, tenths, unit;
    size_t length;

    if (parse_digits(at, 10, n, m) || parse_fraction(at, &fraction, &tenths, m))
        return -1;
    length = name_length(*at);
    unit = unit_named(*at, length);
    if (length > 0 && unit == 0)
        return wrong(m, "%.*s is not a decimal number; write hex as X'1F' or 0x1F, and time as 20us, 20ms or 20s",
                     shown(start), start);
    *at += length;
    if (unit == 0)
        return tenths == 1 ? 0 : wrong(m, "%.*s has a fraction; only amounts of time may, as 0.5us", shown(start), start);
    if (fraction * unit % tenths != 0)
        return wrong(m, "%.*s is not a whole number of clock units; one unit is 1/4096 us", shown(start), start);
    if (grow(n, unit, fraction * unit / tenths))
        return wrong(m, "the time %.*s is too large; it must fit 64 bits of clock units", shown(start), start);
    return 0;
}

static int parse_number(const char **at, uint64_t *n, struct message *m)
{
    const char *start = *at;
    char first = *start, second = first == '\0' ? '\0' : start[1];
    int result;

    if ((first == 'X' || first == 'x' || first == 'B' || first == 'b') && second == '\'') {
        ++*at;
        result = parse_quoted(at, first == 'X' || first == 'x' ? 16 : 2, n, m);
    } else if (first == '0' && (second == 'x' || second == 'X')) {
        *at += 2;
        result = parse_digits(at, 16, n, m);
    } else
        result = parse_decimal(at, n, m);
    if (result == 0 && (is_name_part(**at) || **at == '\''))
        return wrong(m, "%.*s is not a number; write 31, X'1F', 0x1F or B'11111'", shown(start), start);
    return result;
}

static int parse_label(const char **at, const struct labels *labels, struct value *v, struct message *m)
{
    size_t length = name_length(*at);

    if (labels == NULL)
        return wrong(m, "%.*s is not a number; write 31, X'1F', 0x1F or B'11111'", shown(*at), *at);
    if (labels->find(labels->book, *at, length, &v->magnitude))
        return wrong(m, "there is no label %.*s; a label stands before an instruction or data (hex is written X'1F' or 0x1F)",
                     shown(*at), *at);
    v->labels = 1;
    *at += length;
    return 0;
}

static int parse_term(const char **at, const struct labels *labels, struct value *v, struct message *m)
{
    v->negative = 0;
    v->labels = 0;
    *at = skip_blanks(*at);
    if (is_digit(**at) || (**at != '\0' && (*at)[1] == '\'' && strchr("XxBb", **at)))
        return parse_number(at, &v->magnitude, m);
    if (is_name_start(**at))
        return parse_label(at, labels, v, m);
    if (**at == '\0')
        return wrong(m, "a number%s is missing at the end of the line", labels ? " or label" : "");
    return wrong(m, "a number%s is missing before \"%.*s\"", labels ? " or label" : "", MOST_SHOWN, *at);
}

/* v = v + t, or v - t. */
static int add_term(struct value *v, struct value t, int minus, struct message *m)
{
    if (minus)
        t.negative = !t.negative;
    v->labels += minus ? -t.labels : t.labels;
    if (v->negative == t.negative) {
        if (v->magnitude > UINT64_MAX - t.magnitude)
            return wrong(m, "the sum is too large; a number has at most 64 bits");
        v->magnitude += t.magnitude;
    } else if (v->magnitude >= t.magnitude) {
        v->magnitude -= t.magnitude;
    } else {
        v->magnitude = t.magnitude - v->magnitude;
        v->negative = t.negative;
    }
    if (v->magnitude == 0)
        v->negative = 0;
    return 0;
}

int parse_expression(const char **at, const struct labels *labels, struct value *v, struct message *m)
{
    struct value t, sum = {0, 0, 0};
    char sign = '+';

    *at = skip_blanks(*at);
    if (**at == '-' || **at == '+')
        sign = *(*at)++;
    for (;;) {
        if (parse_term(at, labels, &t, m) || add_term(&sum, t, sign == '-', m))
            return -1;
        *at = skip_blanks(*at);
        if (**at != '-' && **at != '+')
            break;
        sign = *(*at)++;
    }
    *v = sum;
    if (v->labels != 0 && v->labels != 1)
        return wrong(m, "labels can be taken from one another, as end-start, but not added");
    return 0;
}

/* ---- numbers that stand alone ---- */

/* Whether digits start there that have no mark of their base. */
static int is_unmarked(const char *at)
{
    return is_digit(*at) && !(*at == '0' && (at[1] == 'x' || at[1] == 'X'));
}

/* An address in hex digits without a mark, if they can be read in one way only. */
static int parse_unmarked(const char **at, uint64_t *n, struct message *m)
{
    const char *start = *at, *digits = start;
    uint64_t decimal;

    if (parse_digits(at, 16, n, m))
        return -1;
    if (is_name_part(**at) || **at == '\'')
        return wrong(m, "%.*s is not an address; write 0FFF, X'FFF' or 0xFFF", shown(start), start);
    if (parse_digits(&digits, 10, &decimal, m))
        return -1;
    if (digits != *at || decimal == *n)
        return 0;
    return wrong(m, "%.*s is X'%llX' in decimal and X'%llX' in hex: write which", shown(start), start, ull(decimal), ull(*n));
}

int parse_address_expression(const char **at, const struct labels *labels, struct value *v, struct message *m)
{
    const char *end = skip_blanks(*at);

    if (is_unmarked(end)) {
        while (is_name_part(*end))
            end++;
        end = skip_blanks(end);
        if (*end != '+' && *end != '-') {
            *at = skip_blanks(*at);
            v->negative = 0;
            v->labels = 0;
            return parse_unmarked(at, &v->magnitude, m);
        }
    }
    return parse_expression(at, labels, v, m);
}

/* One number of at most `most`, which may be an address. */
static int parse_alone(const char **at, const char *what, int is_address, uint64_t most, uint64_t *n, struct message *m)
{
    struct value v = {0, 0, 0};

    *at = skip_blanks(*at);
    if (**at == '-')
        return wrong(m, "%s must not be negative", what);
    if (is_address && is_name_start(**at) && (*at)[1] != '\'')
        return wrong(m, "%.*s is not an address; write 0FFF, X'FFF' or 0xFFF", shown(*at), *at);
    if (is_address && is_unmarked(*at) ? parse_unmarked(at, &v.magnitude, m) : parse_term(at, NULL, &v, m))
        return -1;
    if (v.magnitude > most)
        return wrong(m, "%s is %llu (X'%llX'), and may be at most %llu (X'%llX')", what, ull(v.magnitude),
                     ull(v.magnitude), ull(most), ull(most));
    *n = v.magnitude;
    *at = skip_blanks(*at);
    return 0;
}

int parse_count(const char **at, const char *what, uint64_t most, uint64_t *count, struct message *m)
{
    return parse_alone(at, what, 0, most, count, m);
}

int parse_address(const char **at, const char *what, uint64_t most, uint64_t *address, struct message *m)
{
    return parse_alone(at, what, 1, most, address, m);
}

int value_in_bits(const struct value *v, unsigned bits, uint64_t *number, struct message *m)
{
    uint64_t ones = bits < 64 ? (UINT64_C(1) << bits) - 1 : UINT64_MAX;

    if (v->negative ? v->magnitude > ones / 2 + 1 : v->magnitude > ones)
        return wrong(m, "%s%llu (X'%llX') does not fit %u bit%s; it may be at most %llu (X'%llX')%s", v->negative ? "-" : "",
                     ull(v->magnitude), ull(v->magnitude), bits, bits == 1 ? "" : "s",
                     ull(ones), ull(ones), v->negative ? ", or a smaller negative number" : "");
    *number = (v->negative ? 0 - v->magnitude : v->magnitude) & ones;
    return 0;
}

int nothing_left(const char *at, struct message *m)
{
    at = skip_blanks(at);
    if (*at == '\0')
        return 0;
    return wrong(m, "\"%.*s\" is too much at the end of the line; a comment starts with #", MOST_SHOWN, at);
}
