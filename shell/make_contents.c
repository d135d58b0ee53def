/* The contents of the text form: instructions and data. */
#include <string.h>

#include "assembler.h"
#include "interval.h"
#include "text_form.h"

#define MOST_CONTENT (4 * MOST_LINE_LENGTH)    /* the shortest text for its bytes: "1," for a doubleword */
#define PSW_BYTES 8

enum data_kind { HEX_DATA, NUMBERS, PSW_DATA, SPACE_DATA };

static const struct data {
    const char *name;
    enum data_kind kind;
    unsigned bytes;         /* of one number; its address is a multiple of that */
} data_names[] = {
    {"bytes", HEX_DATA, 1}, {"dc", HEX_DATA, 1},         {"half", NUMBERS, 2},    {"word", NUMBERS, 4},
    {"double", NUMBERS, 8}, {"psw", PSW_DATA, PSW_BYTES}, {"space", SPACE_DATA, 1},
};

static const struct data *find_data(const char *name, size_t length)
{
    size_t i;

    for (i = 0; i < sizeof data_names / sizeof *data_names; i++)
        if (same_name(name, length, data_names[i].name))
            return &data_names[i];
    return NULL;
}

static int hex_digit(char c)
{
    static const char digits[] = "0123456789abcdef0123456789ABCDEF";
    const char *at = c == '\0' ? NULL : strchr(digits, c);

    return at == NULL ? -1 : (int)((at - digits) % 16);
}

/* X'01 02', into bytes unless that is NULL. */
static int parse_hex(const char *at, uint8_t *bytes, unsigned *length, struct message *m)
{
    unsigned digits = 0;

    at = skip_blanks(at);
    if ((*at != 'X' && *at != 'x') || at[1] != '\'')
        return wrong(m, "the hex digits are missing; write bytes as X'0102 0304'");
    for (at += 2; *at != '\'' && *at != '\0'; at++) {
        if (*at == ' ')
            continue;
        if (hex_digit(*at) < 0)
            return wrong(m, "\"%c\" is not a hex digit; write bytes as X'0102 0304'", *at);
        if (bytes != NULL)
            bytes[digits / 2] = (uint8_t)((digits % 2 ? bytes[digits / 2] << 4 : 0) | hex_digit(*at));
        digits++;
    }
    if (*at != '\'')
        return wrong(m, "the closing quote is missing; write bytes as X'0102 0304'");
    if (digits == 0 || digits % 2 != 0)
        return wrong(m, "there are %u hex digits; a byte has two", digits);
    *length = digits / 2;
    return nothing_left(at + 1, m);
}

static unsigned items(const char *at)
{
    unsigned n = 1;

    for (; *at != '\0'; at++)
        n += *at == ',';
    return n;
}

static int measure_data(const struct data *d, const char *at, unsigned *length, struct message *m)
{
    uint64_t n;

    *length = PSW_BYTES;
    switch (d->kind) {
    case HEX_DATA:
        return parse_hex(at, NULL, length, m);
    case NUMBERS:
        *length = items(at) * d->bytes;
        return 0;
    case SPACE_DATA:
        if (parse_count(&at, "the space", MOST_FRAMES * FRAME_BYTES, &n, m) || nothing_left(at, m))
            return -1;
        *length = (unsigned)n;
        return 0;
    default:
        return 0;
    }
}

int measure(const char *text, unsigned *length, unsigned *alignment, struct message *m)
{
    size_t name = name_length(text);
    const struct data *d = find_data(text, name);

    if (d != NULL) {
        *alignment = d->bytes;
        return measure_data(d, text + name, length, m) ? -1 : 1;
    }
    *alignment = 2;
    *length = length_of_named(text, name);
    return *length > 0;
}

/* Numbers of so many bytes, with commas between them. */
static int parse_numbers(const char *at, const struct labels *labels, unsigned size, uint8_t *bytes, struct message *m)
{
    struct value v;
    uint64_t n;

    for (;; at++, bytes += size) {
        if (parse_expression(&at, labels, &v, m) || value_in_bits(&v, 8 * size, &n, m))
            return -1;
        put_number(bytes, size, n);
        if (*at != ',')
            return nothing_left(at, m);
    }
}

/* The bytes of a line with contents. */
static int encode(struct text_form *f, const struct line *l, uint8_t *bytes, struct message *m)
{
    struct labels labels = labels_of(f);
    size_t name = name_length(l->text);
    const struct data *d = find_data(l->text, name);
    const char *at = l->text + name;
    unsigned length;
    uint64_t psw;

    if (d == NULL)
        return assemble_with_labels(l->text, &labels, bytes, m) ? 0 : -1;
    switch (d->kind) {
    case HEX_DATA:
        return parse_hex(at, bytes, &length, m);
    case NUMBERS:
        return parse_numbers(at, &labels, d->bytes, bytes, m);
    case PSW_DATA:
        if (parse_psw(at, is_system370(f->c.record), &labels, &psw, m))
            return -1;
        put_number(bytes, PSW_BYTES, psw);
        return 0;
    default:
        return 0;
    }
}

/* using ADDRESS,REGISTER */
static int parse_using(struct text_form *f, const char *at, struct message *m)
{
    struct labels labels = labels_of(f);
    struct value v;
    uint64_t r;

    take_word(&at, "using");
    if (parse_address_expression(&at, &labels, &v, m))
        return -1;
    if (v.negative || v.magnitude >= ADDRESS_LIMIT)
        return wrong(m, "the address is not 0 to X'7FFFFFFF'; write \"using LABEL,12\"");
    at = skip_blanks(at);
    if (*at != ',')
        return wrong(m, "the register is missing; write \"using LABEL,12\"");
    at++;
    if (parse_count(&at, "the base register", REGISTERS - 1, &r, m) || nothing_left(at, m))
        return -1;
    if (r == 0)
        return wrong(m, "register 0 cannot be a base register; use 1 to 15");
    f->bases[r].used = 1;
    f->bases[r].address = v.magnitude;
    return 0;
}

/* drop REGISTER */
static int parse_drop(struct text_form *f, const char *at, struct message *m)
{
    uint64_t r;

    take_word(&at, "drop");
    if (parse_count(&at, "the base register", REGISTERS - 1, &r, m) || nothing_left(at, m))
        return -1;
    if (!f->bases[r].used)
        return wrong(m, "register %u is not in use as a base register here; \"using LABEL,%u\" must come before", (unsigned)r,
                     (unsigned)r);
    f->bases[r].used = 0;
    return 0;
}

/* Works out one line, and puts its bytes in storage if that is asked for. */
static int apply_line(struct text_form *f, unsigned line, int put, struct message *m)
{
    const struct line *l = &f->lines[line - 1];
    uint8_t bytes[MOST_CONTENT];
    int is_space;

    if (l->kind == USING_LINE)
        return parse_using(f, l->text, m);
    if (l->kind == DROP_LINE)
        return parse_drop(f, l->text, m);
    if (l->kind != CONTENT_LINE)
        return 0;
    is_space = same_name(l->text, name_length(l->text), "space");
    if (encode(f, l, bytes, m))
        return -1;
    return put ? put_contents(f, line, l->place, is_space ? NULL : bytes, l->length, m) : 0;
}

/* The word of the interval timer, which a setting gives. */
static int put_interval(struct text_form *f, struct message *m)
{
    struct place p = {IN_REAL, INTERVAL_REAL};
    uint8_t bytes[4];

    if (!is_system370(f->c.record))
        return wrong(m, "interval is the word of System/370's interval timer; add \"mode.system = 370\"");
    put_number(bytes, sizeof bytes, f->interval);
    return put_contents(f, f->interval_line, p, bytes, sizeof bytes, m);
}

void apply_contents(struct text_form *f)
{
    int put = f->fault_count == 0;
    struct message m;
    unsigned line;

    for (line = 1; line <= f->count && !enough_faults(f); line++)
        if (apply_line(f, line, put, &m))
            note_fault(f, line, &m);
    if (put && f->interval_line != 0 && put_interval(f, &m))
        note_fault(f, f->interval_line, &m);
}
