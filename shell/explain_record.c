/* The record's fields in words. */
#include <stdio.h>

#include "explain.h"
#include "instructions.h"
#include "interval.h"
#include "words.h"

#define MEANING 42      /* column from which a field's meaning stands */

/* A bit of a byte and what it asks for. */
struct bit_words {
    unsigned bit;
    const char *words;
};

/* Bits that are one and that no rule names. */
static void add_ignored(char *text, uint64_t bits)
{
    if (bits != 0)
        add(text, "; ignored: bits %02llx hex", (unsigned long long)bits);
}

/* The bits of a byte that are one, by the table. */
static void add_bits(char *text, const char *what, uint64_t value, const struct bit_words *table, size_t count)
{
    const char *separator = ": ";
    uint64_t known = 0;
    size_t i;

    add(text, "%s", what);
    for (i = 0; i < count; i++) {
        known |= 0x80u >> table[i].bit;
        if ((value & 0x80u >> table[i].bit) == 0)
            continue;
        add(text, "%s%s", separator, table[i].words);
        separator = ", ";
    }
    if ((value & known) == 0)
        add(text, ": none");
    add_ignored(text, value & ~known);
}

static unsigned code_of(const uint8_t *record)
{
    return (unsigned)field_of(record, "code");
}

static void length_words(const uint8_t *record, uint64_t value, char *text)
{
    int good = value == RECORD_BYTES || value == MOST_RECORD_BYTES;

    (void)record;
    add(text, "%llu byte%s%s", (unsigned long long)value, plural(value),
        good ? "" : ": must be 200 or 208, so the record is refused (R 1)");
}

static void version_words(const uint8_t *record, uint64_t value, char *text)
{
    add(text, "version %llu", (unsigned long long)value);
    if (value != right_version(record))
        add(text, ": must be %u, so the record is refused (R 2)", right_version(record));
}

static void intervention_words(const uint8_t *record, uint64_t value, char *text)
{
    static const struct bit_words bits[] = {
        {5, "stop (bit 5, code 40)"}, {6, "I/O (bit 6, code 24)"}, {7, "external (bit 7, code 16)"},
    };

    (void)record;
    add_bits(text, "intervention requests", value, bits, sizeof bits / sizeof *bits);
}

static void mode_words(const uint8_t *record, uint64_t value, char *text)
{
    int system370 = is_system370(record);

    if ((value & 0x0c) == 0x08)
        add(text, "370-XA (bits 4-5 are 10)");
    else if (system370)
        add(text, "System/370 (bits 4-5 are 01)");
    else if (record_bytes(record) == MOST_RECORD_BYTES)
        add(text, "neither 370-XA nor System/370 (bits 4-5 are neither 10 nor 01): entry fails");
    else
        add(text, "not 370-XA (bits 4-5 are not 10): entry fails");
    add(text, "; %s", value & 0x02 ? "preferred storage (bit 6 is one): entry fails" : "pageable storage (bit 6 is zero)");
    if (system370)
        add(text, "; interval timer %s", value & 0x01 ? "inactive (bit 7 is one)" : "active (bit 7 is zero)");
    add_ignored(text, value & (system370 ? 0xf0 : 0xf1));
}

static void interception_control_words(const uint8_t *record, uint64_t value, char *text)
{
    static const struct bit_words bits[] = {
        {0, "operation exceptions (bit 0, code 44)"}, {1, "program exceptions (bit 1, code 8)"}, {2, "LPSW (bit 2, code 4)"},
    };

    (void)record;
    add_bits(text, "to be intercepted", value, bits, sizeof bits / sizeof *bits);
}

static void lctl_words(const uint8_t *record, uint64_t value, char *text)
{
    unsigned i;

    (void)record;
    add(text, "LCTL to be intercepted (code 4): %s", value == 0 ? "none" : "of control register");
    if ((value & (value - 1)) != 0)
        add(text, "s");
    for (i = 0; i < 16; i++)
        if (value & 0x8000u >> i)
            add(text, " %u", i);
}

static void prefix_words(const uint8_t *record, uint64_t value, char *text)
{
    unsigned long block = (unsigned long)value & 0x7ffff000;

    (void)record;
    if (block == 0)
        add(text, "prefix: real is absolute");
    else
        add(text, "prefix: guest real 00000000-00000fff and %08lx-%08lx are exchanged", block, block + 0xfff);
}

static void origin_words(const uint8_t *record, uint64_t value, char *text)
{
    (void)record;
    add(text, "origin %lu: guest absolute 0 is host virtual %08lx", (unsigned long)value, (unsigned long)value << 16);
}

static void extent_words(const uint8_t *record, uint64_t value, char *text)
{
    (void)record;
    add(text, "extent %lu: %lu KiB, %lu pages", (unsigned long)value, (unsigned long)value << 6, (unsigned long)value << 4);
}

static void psw_words(const uint8_t *record, uint64_t value, char *text)
{
    (void)record;
    (void)value;
    add(text, "PSW: see there");
}

static void timer_words(const uint8_t *record, uint64_t value, char *text)
{
    (void)record;
    (void)value;
    add(text, "CPU timer: see Timers");
}

static void comparator_words(const uint8_t *record, uint64_t value, char *text)
{
    (void)record;
    (void)value;
    add(text, "clock comparator: see Timers");
}

static void epoch_words(const uint8_t *record, uint64_t value, char *text)
{
    char time[SENTENCE];

    (void)record;
    signed_microseconds(value, time, sizeof time);
    add(text, "epoch difference to the host clock: %s us", time);
}

static void svc_words(const uint8_t *record, uint64_t value, char *text)
{
    static const struct bit_words bits[] = {
        {0, "every SVC (bit 0)"},
        {1, "SVC of the first number (bit 1)"},
        {2, "of the second (bit 2)"},
        {3, "of the third (bit 3)"},
    };

    (void)record;
    add_bits(text, "SVC to be intercepted (code 4)", value, bits, sizeof bits / sizeof *bits);
}

static void svc_number_words(const uint8_t *record, uint64_t value, char *text)
{
    (void)record;
    add(text, "SVC number %lu", (unsigned long)value);
}

static void code_words(const uint8_t *record, uint64_t value, char *text)
{
    (void)record;
    if (value == 0)
        add(text, "interception code: none");
    else
        add(text, "interception code %lu: %s", (unsigned long)value, interception_words((unsigned)value));
}

static void ilc_words(const uint8_t *record, uint64_t value, char *text)
{
    (void)record;
    add(text, "instruction-length code: %lu halfword%s", (unsigned long)value, plural(value));
}

static const char *none_or_meaningless(uint64_t value)
{
    return value == 0 ? "none" : "without a meaning beside this interception code";
}

static void interruption_words(const uint8_t *record, uint64_t value, char *text)
{
    unsigned code = code_of(record);

    if (code == 8)
        add(text, "interruption code %02lx hex: %s", (unsigned long)value, program_words((unsigned)value));
    else if (code == 20)
        add(text, "interruption code %04lx hex: %s", (unsigned long)value, external_words((unsigned)value));
    else
        add(text, "interruption code: %s", none_or_meaningless(value));
}

static void address_words(const uint8_t *record, uint64_t value, char *text)
{
    if (code_of(record) == 8 && is_translation(field_of(record, "interruption")))
        add(text, "address: that of the virtual page without a translation");
    else
        add(text, "address: %s", none_or_meaningless(value));
}

static void result_text_words(const uint8_t *record, uint64_t value, char *text)
{
    const uint8_t *at = record + find_field("text")->at;
    char line[128];

    if (code_of(record) == 4 || code_of(record) == 44) {
        disassemble(at, instruction_length(at[0]), is_system370(record), line, sizeof line);
        add(text, "instruction text: %s", line);
    } else
        add(text, "instruction text: %s", none_or_meaningless(value));
}

static void reserved_words(const uint8_t *record, uint64_t value, char *text)
{
    (void)record;
    add(text, "%s", value == 0 ? "zero, as it must be" : "must be zero, so the record is refused (R 7)");
}

/* What the interval timer's fields are for where they are not used; NULL where they are. */
static const char *unused_words(const uint8_t *record)
{
    if (!is_system370(record))
        return "not used in 370-XA";
    return interval_active(record) ? NULL : "not used, since the timer is inactive";
}

static void request_words(const uint8_t *record, uint64_t value, char *text)
{
    const char *unused = unused_words(record);

    if (unused != NULL)
        add(text, "interval-timer request: %s", unused);
    else
        add(text, "interval-timer request: T (bit 0) is %s", interval_requested(record) ? "one: see Timers" : "zero");
    add_ignored(text, value & 0x7f);
}

static void residue_words(const uint8_t *record, uint64_t value, char *text)
{
    const char *unused = unused_words(record);

    if (value >= INTERVAL_PERIOD)
        add(text, "residue %lu: must be below %u, so the record is refused (R 7)", (unsigned long)value, INTERVAL_PERIOD);
    else
        add(text, "residue of the interval timer: %s", unused != NULL ? unused : "see Timers");
}

static const struct {
    const char *name;
    void (*words)(const uint8_t *record, uint64_t value, char *text);
} views[] = {
    {"length", length_words},
    {"version", version_words},
    {"interventions", intervention_words},
    {"mode", mode_words},
    {"interceptions", interception_control_words},
    {"lctl", lctl_words},
    {"prefix", prefix_words},
    {"origin", origin_words},
    {"extent", extent_words},
    {"psw", psw_words},
    {"timer", timer_words},
    {"comparator", comparator_words},
    {"epoch", epoch_words},
    {"svc", svc_words},
    {"svc1", svc_number_words},
    {"svc2", svc_number_words},
    {"svc3", svc_number_words},
    {"code", code_words},
    {"ilc", ilc_words},
    {"interruption", interruption_words},
    {"address", address_words},
    {"text", result_text_words},
    {"reserved", reserved_words},
    {"request", request_words},
    {"reserved2", reserved_words},
    {"residue", residue_words},
};

static void print_field(const struct field *f, const char *hex, const char *words)
{
    char bytes[16];
    int width = 5;      /* of the column of bytes; wider places start earlier */

    if (f->bytes == 1)
        snprintf(bytes, sizeof bytes, "%u", f->at);
    else
        width = snprintf(bytes, sizeof bytes, "%u-%u", f->at, f->at + f->bytes - 1);
    if (width < 5)
        width = 5;
    printf("  %-*s  %-*s  %-16s  ", 18 - width, f->name, width, bytes, hex);
    print_from(MEANING, "%s", words);
}

void explain_record(const struct case_file *c)
{
    size_t i;

    printf("\nRecord\n  field          bytes  hex               meaning\n");
    for (i = 0; i < sizeof views / sizeof *views; i++) {
        const struct field *f = find_field(views[i].name);
        uint64_t value = get_field(c->record, f);
        char hex[24], text[SENTENCE] = "";

        if (!has_field(c->record, f))
            continue;
        snprintf(hex, sizeof hex, "%0*llx", (int)(2 * f->bytes), (unsigned long long)value);
        views[i].words(c->record, value, text);
        print_field(f, hex, text);
    }
}
