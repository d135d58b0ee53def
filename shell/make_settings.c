/* The settings of the text form: the numbers of a case file, the record's fields and their parts, and the keys. */
#include <stdio.h>
#include <string.h>

#include "text_form.h"
#include "words.h"

/* Settings are applied in this order, whatever that of their lines: what comes first decides what a later one means. */
enum stage {
    WHOLES,     /* whole fields, and numbers beside the record */
    MODES,      /* parts of the mode, which have the record's size and the PSW's system in them */
    FORMS,      /* bit 12 of a System/370 PSW */
    PARTS,      /* all other parts */
    STAGES
};

/* The numbers beside the record, by their kinds. */
static const struct {
    const char *name;
    unsigned bits;
} numbers[NUMBER_KINDS] = {{"designation", 32}, {"clock", 64}, {"time", 32}, {"budget", 16}, {"frames", 32}};

static int set_twice(unsigned line, struct message *m)
{
    return wrong(m, "this is set in line %u already; leave one of the lines out", line);
}

/* ---- one setting ---- */

static void set_number(struct case_file *c, unsigned kind, uint64_t n)
{
    switch (kind) {
    case DESIGNATION:
        c->designation = (uint32_t)n;
        break;
    case CLOCK:
        c->clock = n;
        break;
    case TIME:
        c->time = (uint32_t)n;
        break;
    case BUDGET:
        c->budget = (uint16_t)n;
        break;
    default:
        c->frames = (unsigned)n;
        break;
    }
}

/* Returns 1 if the name is that of a number beside the record, -1 with a message if its value is wrong. */
static int apply_number(struct text_form *f, const char *name, const char *at, unsigned line, struct message *m)
{
    struct labels labels = labels_of(f);
    unsigned i = 0;
    uint64_t n;

    while (i < NUMBER_KINDS && strcmp(numbers[i].name, name) != 0)
        i++;
    if (i == NUMBER_KINDS)
        return 0;
    if (f->number_lines[i] != 0)
        return set_twice(f->number_lines[i], m);
    f->number_lines[i] = line;
    if (parse_value(&at, &labels, name, numbers[i].bits, &n, m) || nothing_left(at, m))
        return -1;
    if (i == FRAMES && (n < 1 || n > MOST_FRAMES))
        return wrong(m, "a case file has 1 to %d frames; write \"frames = 8\" or fewer", MOST_FRAMES);
    set_number(&f->c, i, n);
    return 1;
}

static int apply_field(struct text_form *f, const struct field *field, const char *at, unsigned line, struct message *m)
{
    struct labels labels = labels_of(f);
    uint64_t n;

    if (f->field_lines[field->at] != 0)
        return set_twice(f->field_lines[field->at], m);
    f->field_lines[field->at] = line;
    if (parse_value(&at, &labels, field->name, 8 * field->bytes, &n, m) || nothing_left(at, m))
        return -1;
    put_field(f->c.record, field, n);
    return 0;
}

uint64_t given_bits(const struct text_form *f, const struct field *field)
{
    const unsigned *lines = f->bit_lines + 8 * field->at;
    uint64_t given = 0;
    unsigned i;

    for (i = 0; i < 8 * field->bytes; i++)
        given = given << 1 | (lines[i] != 0);
    return given;
}

/* Takes the bits of a part for a line, unless another line has one of them. */
static int take_bits(struct text_form *f, const struct field *field, const struct part *part, unsigned line, struct message *m)
{
    unsigned *lines = f->bit_lines + 8 * field->at, i;

    for (i = part->first; i < part->first + part->bits; i++) {
        if (lines[i] != 0)
            return wrong(m, "bit %u of %s is set in line %u already; leave one of the lines out", i, field->name, lines[i]);
        lines[i] = line;
    }
    return 0;
}

static int apply_part(struct text_form *f, const struct field *field, const char *name, const char *at, unsigned line,
                      struct message *m)
{
    struct labels labels = labels_of(f);
    unsigned width = 8 * field->bytes;
    uint64_t word = get_field(f->c.record, field), n;
    struct part part;

    if (find_part(field->name, psw_form(psw_of(f->c.record)), name, width, &part))
        return no_part(field->name, psw_form(psw_of(f->c.record)), name, width, m);
    if (take_bits(f, field, &part, line, m) || parse_part(&at, &labels, &part, &n, m) || nothing_left(at, m))
        return -1;
    set_bits(&word, width, part.first, part.bits, n);
    put_field(f->c.record, field, word);
    if (strcmp(part.name, "system") == 0 && n == SYSTEM_370)
        f->system_line = line;
    return 0;
}

/* interval = WORD; it goes into storage with the contents. */
static int apply_interval(struct text_form *f, const char *at, unsigned line, struct message *m)
{
    struct labels labels = labels_of(f);

    if (f->interval_line != 0)
        return set_twice(f->interval_line, m);
    f->interval_line = line;
    return parse_value(&at, &labels, "interval", 32, &f->interval, m) || nothing_left(at, m) ? -1 : 0;
}

static int no_name(const char *name, struct message *m)
{
    return wrong(m, "there is nothing named \"%.40s\" to set; names are designation clock time budget frames interval, the "
                 "record's fields (length version ... cr0 gr0), psw.NAME and FIELD.bitN: see drevokas make --help", name);
}

/* The stage of a setting; part is NULL for a whole. */
static enum stage stage_of(const struct text_form *f, const char *field, const char *part)
{
    struct part found;

    if (part == NULL)
        return WHOLES;
    if (strcmp(field, "mode") == 0)
        return MODES;
    if (strcmp(field, "psw") != 0 || !is_system370(f->c.record))
        return PARTS;
    return find_part(field, EC_PSW, part, PSW_BITS, &found) == 0 && gives_form(&found) ? FORMS : PARTS;
}

/* Applies a setting if it is one of this stage. */
static int apply_setting(struct text_form *f, unsigned line, enum stage stage, struct message *m)
{
    char name[MOST_NAME];
    const char *at = split_setting(f->lines[line - 1].text, name);
    char *dot = strchr(name, '.');
    const struct field *field;
    int result;

    if (dot != NULL)
        *dot = '\0';
    if (stage_of(f, name, dot != NULL ? dot + 1 : NULL) != stage)
        return 0;
    field = find_field(name);
    if (field != NULL)
        return dot != NULL ? apply_part(f, field, dot + 1, at, line, m) : apply_field(f, field, at, line, m);
    if (dot != NULL) {
        *dot = '.';
        return no_name(name, m);
    }
    if (strcmp(name, "interval") == 0)
        return apply_interval(f, at, line, m);
    result = apply_number(f, name, at, line, m);
    return result == 0 ? no_name(name, m) : result < 0 ? -1 : 0;
}

/* ---- keys ---- */

/* key FRAME[-FRAME] = VALUE */
static int apply_key(struct text_form *f, const char *at, struct message *m)
{
    uint64_t first, last, n;

    take_word(&at, "key");
    if (parse_count(&at, "the frame", f->c.frames - 1, &first, m))
        return -1;
    last = first;
    if (*at == '-') {
        at++;
        if (parse_count(&at, "the last frame", f->c.frames - 1, &last, m))
            return -1;
    }
    if (last < first)
        return wrong(m, "the frames are the wrong way round; write the lower one first");
    if (*at != '=')
        return wrong(m, "\"=\" is missing; write \"key 3 = X'10'\" or \"key 3-5 = X'10'\"");
    at++;
    if (parse_value(&at, NULL, "key", 8, &n, m) || nothing_left(at, m))
        return -1;
    memset(f->c.keys + first, (int)n, (size_t)(last - first + 1));
    return 0;
}

/* ---- all of them ---- */

static void set_defaults(struct case_file *c)
{
    memset(c, 0, sizeof *c);
    c->time = 4096;
    c->budget = 65535;
    c->frames = MOST_FRAMES;
    put_field(c->record, find_field("length"), RECORD_BYTES);
    put_field(c->record, find_field("version"), right_version(c->record));
    put_field(c->record, find_field("mode"), 8);
    put_field(c->record, find_field("extent"), 1);
    put_field(c->record, find_field("psw"), BLANK_PSW);
}

/* Whether a line of the text gives the whole of this field. */
static int is_given(const struct text_form *f, const char *name)
{
    return f->field_lines[find_field(name)->at] != 0;
}

/* Once the mode is known: System/370 that is asked for by name takes the larger record, the version goes with a size that the
   text changes, and a new PSW of System/370 is one of zeros, unless lines say otherwise. */
static void settle_record(struct text_form *f)
{
    uint8_t *record = f->c.record;
    unsigned before = f->from_file ? record_bytes(f->old.record) : RECORD_BYTES;

    if (f->system_line != 0 && !is_given(f, "length"))
        put_field(record, find_field("length"), MOST_RECORD_BYTES);
    if (record_bytes(record) != before && !is_given(f, "version"))
        put_field(record, find_field("version"), right_version(record));
    if (!f->from_file && is_system370(record) && !is_given(f, "psw"))
        put_field(record, find_field("psw"), 0);
}

/* A line that gives this field, or a bit of it; 0 is none. */
static unsigned line_of(const struct text_form *f, const struct field *field)
{
    unsigned line = f->field_lines[field->at], bit;

    for (bit = 0; line == 0 && bit < 8 * field->bytes; bit++)
        line = f->bit_lines[8 * field->at + bit];
    return line;
}

/* The fields that a record of 200 bytes has not are zeros, and lines that give them are wrong. */
static void clear_missing(struct text_form *f)
{
    struct message m;
    unsigned i;

    for (i = 0; i < record_field_count; i++) {
        const struct field *field = &record_fields[i];

        if (has_field(f->c.record, field))
            continue;
        memset(f->c.record + field->at, 0, field->bytes);
        wrong(&m, "%s is a field of the record of 208 bytes; add \"mode.system = 370\" or \"length = 208\"", field->name);
        if (line_of(f, field) != 0)
            note_fault(f, line_of(f, field), &m);
    }
}

/* Applies the settings of one stage. */
static void apply_all(struct text_form *f, enum stage stage)
{
    struct message m;
    unsigned line;

    for (line = 1; line <= f->count && !enough_faults(f); line++)
        if (f->lines[line - 1].kind == SETTING_LINE && apply_setting(f, line, stage, &m))
            note_fault(f, line, &m);
}

void apply_settings(struct text_form *f)
{
    enum stage stage;
    struct message m;
    unsigned line;

    if (!f->from_file)
        set_defaults(&f->c);
    for (stage = WHOLES; stage < STAGES; stage++) {
        apply_all(f, stage);
        if (stage == MODES)
            settle_record(f);
    }
    clear_missing(f);
    for (line = 1; line <= f->count && !enough_faults(f); line++)
        if (f->lines[line - 1].kind == KEY_LINE && apply_key(f, f->lines[line - 1].text, &m))
            note_fault(f, line, &m);
}
