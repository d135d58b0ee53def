/* The PSW bit by bit, by its form. */
#include <stdio.h>

#include "explain.h"
#include "psw.h"

/* The bits of a PSW before the address: what they are called, and what zero and one mean where it is one bit. */
struct psw_field {
    unsigned from, to;
    const char *name, *zero, *one;
};

#define CONTROL(dat_is_on) \
    {0, 0, "zero", "as it must be", "must be zero"}, {1, 1, "PER", "off", "on: not installed, code 32"}, \
    {2, 4, "zero", NULL, NULL}, {5, 5, "DAT", "off", dat_is_on}, {6, 6, "I/O mask", "disabled", "enabled"}
#define EXTERNAL_AND_KEY {7, 7, "external mask", "disabled", "enabled"}, {8, 11, "access key", NULL, NULL}
#define CHECK_TO_PROBLEM \
    {13, 13, "machine-check mask", "disabled", "enabled"}, {14, 14, "wait", "running", "waiting: code 28"}, \
    {15, 15, "problem state", "supervisor state", "problem state"}
#define SPACE_AND_CODE \
    {16, 16, "address space", "primary", "secondary: not installed, code 32"}, \
    {17, 17, "zero", "as it must be", "must be zero"}, {18, 19, "condition code", NULL, NULL}
#define PROGRAM_MASK(first) \
    {first, first, "fixed-point-overflow mask", "no exception", "exception 08 hex"}, \
    {first + 1, first + 1, "decimal-overflow mask", "off", "on"}, \
    {first + 2, first + 2, "exponent-underflow mask", "off", "on"}, {first + 3, first + 3, "significance mask", "off", "on"}
#define CHANNEL(n) {n, n, "channel " #n " mask", "disabled", "enabled"}

static const struct psw_field xa_fields[] = {
    CONTROL("on"),
    EXTERNAL_AND_KEY,
    {12, 12, "one", "must be one", "as it must be"},
    CHECK_TO_PROBLEM,
    SPACE_AND_CODE,
    PROGRAM_MASK(20),
    {24, 31, "zero", NULL, NULL},
    {32, 32, "addressing mode", "24-bit", "31-bit"},
};

static const struct psw_field ec_fields[] = {
    CONTROL("on: not installed, code 32"),
    EXTERNAL_AND_KEY,
    {12, 12, "extended control", "BC", "EC"},
    CHECK_TO_PROBLEM,
    SPACE_AND_CODE,
    PROGRAM_MASK(20),
    {24, 39, "zero", NULL, NULL},
};

static const struct psw_field bc_fields[] = {
    CHANNEL(0), CHANNEL(1), CHANNEL(2), CHANNEL(3), CHANNEL(4), CHANNEL(5),
    {6, 6, "mask of other channels", "disabled", "enabled"},
    EXTERNAL_AND_KEY,
    {12, 12, "extended control", "BC", "EC"},
    CHECK_TO_PROBLEM,
    {16, 31, "interruption code", NULL, NULL},
    {32, 33, "instruction-length code", NULL, NULL},
    {34, 35, "condition code", NULL, NULL},
    PROGRAM_MASK(36),
};

#define COUNT(table) (sizeof table / sizeof *table)

static const struct {
    const struct psw_field *fields;
    size_t count;
    const char *title;      /* behind the PSW in its heading */
    unsigned address;       /* the first bit of the instruction address */
} forms[] = {
    {xa_fields, COUNT(xa_fields), "", 33},              /* by enum psw_form */
    {ec_fields, COUNT(ec_fields), ", EC form", 40},
    {bc_fields, COUNT(bc_fields), ", BC form", 40},
};

static void print_field(uint64_t psw, const struct psw_field *f)
{
    unsigned value = psw_bits(psw, f->from, f->to);
    char bits[16];

    if (f->from == f->to)
        snprintf(bits, sizeof bits, "%u", f->from);
    else
        snprintf(bits, sizeof bits, "%u-%u", f->from, f->to);
    if (f->to - f->from == 15)      /* a code or zeros, in hex */
        printf("  %-5s  %-25s %04x", bits, f->name, value);
    else
        printf("  %-5s  %-25s  %3u", bits, f->name, value);
    if (f->from == f->to)
        printf("  %s", value ? f->one : f->zero);
    putchar('\n');
}

/* Whether a unit can start with this PSW. */
static void print_verdict(struct psw p)
{
    const char *wrong = psw_not_installed(p);

    if (wrong != NULL)
        printf("  It cannot be run with: %s (code 32).\n", wrong);
    else if ((wrong = psw_malformed(p)) != NULL)
        printf("  It is malformed: %s (specification exception, ILC 0).\n", wrong);
    else if (psw_form(p) == BC_PSW)
        printf("  In BC form every PSW is well formed.\n");
    else
        printf("  It is well formed.\n");
}

void explain_psw(const struct case_file *c)
{
    struct psw p = psw_of(c->record);
    enum psw_form form = psw_form(p);
    size_t i;

    printf("\nPSW %08lx %08lx%s\n", (unsigned long)(p.bits >> 32), (unsigned long)(p.bits & 0xffffffff), forms[form].title);
    printf("  bits   name                     value\n");
    for (i = 0; i < forms[form].count; i++)
        print_field(p.bits, &forms[form].fields[i]);
    printf("  %u-63  instruction address    %08lx\n", forms[form].address,
           (unsigned long)psw_bits(p.bits, forms[form].address, 63));
    print_verdict(p);
}
