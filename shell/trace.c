/* drevokas trace: a case file run unit by unit, each from where the one before it ended. */
#include <stdio.h>
#include <unistd.h>

#include "../include/drevokas.h"
#include "command.h"
#include "ending.h"
#include "fetch.h"
#include "interval.h"
#include "progress.h"
#include "psw.h"
#include "resume.h"
#include "words.h"

#define NUMBER 6            /* digits of a unit's number, if those of the budget are not more */
#define SVC 0x0a
#define PROGRAM_OLD 40u     /* real addresses of the old PSW and of ILC and code, */
#define PROGRAM_CODE 140u
#define SVC_OLD 32u         /* and the same for SVC */
#define SVC_CODE 136u

static const struct usage usage = {
    "trace FILE [--budget N] [--after OUT [--checkpoint N]] [--quiet]",
    "Runs a case file, or standard input if FILE is -, unit by unit: a run with budget 1, resumed. Prints\n"
    "one line for each unit completed: its number, the instruction's address and the instruction; the\n"
    "condition code and the CPU timer after it, the timer in hexadecimal and in microseconds; then what\n"
    "else happened:\n"
    "  gr1=00000009                     the register that changed, with its new value; LCTL: the first\n"
    "  operand 00000218                 the logical address of the operand in storage\n"
    "  program interruption 11 hex, address 00003000\n"
    "  SVC interruption 5               the unit ended in an interruption of the guest; System/370: also\n"
    "                                   where code and ILC stand: in a BC old PSW, or beside it\n"
    "  interval=00000100                the interval timer's word fell to this; T=1 is what that set, and\n"
    "                                   T=0 what its interception, code 20, took back\n"
    "  -> 0000020c                      the next instruction is not the one that follows\n"
    "If an interception or a host fault ends the run, a line \"exit\" has the instruction at which it did,\n"
    "and the cause. The last line is the one that run prints; the sentence goes to standard error.\n\n"
    RUN_OPTIONS_HELP,
    NULL, 1, 0, RUN_OPTIONS,
};

/* Where the lines go, and the case file as it was before what is to be shown. */
struct trace {
    FILE *to;
    int width;              /* of a unit's number */
    struct case_file before;
};

/* ---- columns ---- */

/* Number, address and instruction; the condition code is that of c. */
static void print_columns(const struct trace *r, const char *number, const struct text *t, const struct case_file *c)
{
    char line[SENTENCE];

    text_column(t, line, sizeof line);
    fprintf(r->to, "%*s  %08lx  %-*s  cc %u", r->width, number, (unsigned long)psw_address(t->psw), COLUMN, line,
            psw_condition_code(psw_of(c->record)));
}

/* In hex, exactly; and in microseconds, as many places as the column holds. */
static void print_timer(const struct trace *r, uint64_t timer)
{
    char time[SENTENCE];

    signed_microseconds(timer, time, sizeof time);
    fprintf(r->to, "  timer %016llx %17.17s us", (unsigned long long)timer, time);
}

/* ---- what happened ---- */

/* The first register of a kind that is not as it was before, and how many more there are. */
static void print_changes(const struct trace *r, const struct case_file *c, const char *kind, unsigned first_byte)
{
    unsigned i, more = 0;

    for (i = 0; i < REGISTERS; i++) {
        unsigned at = first_byte + 4 * i;
        uint64_t now = get_number(c->record + at, 4);

        if (now == get_number(r->before.record + at, 4))
            continue;
        if (more++ == 0)
            fprintf(r->to, "  %s%u=%08lx", kind, i, (unsigned long)now);
    }
    if (more > 1)
        fprintf(r->to, ", %u more", more - 1);
}

static void print_registers(const struct trace *r, const struct case_file *c)
{
    print_changes(r, c, "gr", find_field("gr0")->at);
    print_changes(r, c, "cr", find_field("cr0")->at);
}

static void print_operand(const struct trace *r, const struct text *t)
{
    uint32_t address;

    if (text_operand(t, r->before.record, &address))
        fprintf(r->to, "  operand %08lx", (unsigned long)address);
}

/* Whether the unit ended in a program interruption: it would then be intercepted, with the same code and address, if program
   exceptions were. The case file after that is left in probe. */
static int is_program_interruption(const struct trace *r, struct case_file *probe)
{
    struct ending e = intercepted_unit(&r->before, probe);

    return e.kind == DREVOKAS_INTERCEPTED && e.number == DREVOKAS_CODE_PROGRAM;
}

/* The ILC of a System/370 guest's interruption, and where it stands with the code: by the form of the old PSW. */
static void print_code_place(const struct trace *r, struct psw old, unsigned long ilc, unsigned old_at, unsigned code_at)
{
    switch (psw_form(old)) {
    case BC_PSW:
        fprintf(r->to, ", ILC %lu, both in the old PSW at real %08x", ilc, old_at);
        break;
    case EC_PSW:
        fprintf(r->to, ", ILC %lu, both at real %08x", ilc, code_at);
        break;
    default:
        break;
    }
}

/* The interruption of the guest in which the unit ended, if it did. A completed SVC is always one. */
static void print_interruption(const struct trace *r, const struct text *t)
{
    const char *wrong = psw_malformed(t->psw);
    struct case_file probe;

    if (is_program_interruption(r, &probe)) {
        fprintf(r->to, "  program interruption %02lx hex", (unsigned long)field_of(probe.record, "interruption"));
        if (is_translation(field_of(probe.record, "interruption")))
            fprintf(r->to, ", address %08lx", (unsigned long)field_of(probe.record, "address"));
        print_code_place(r, t->psw, (unsigned long)field_of(probe.record, "ilc"), PROGRAM_OLD, PROGRAM_CODE);
        if (wrong != NULL)
            fprintf(r->to, ", PSW %s", wrong);
    } else if (t->bytes[0] == SVC) {
        fprintf(r->to, "  SVC interruption %u", t->bytes[1]);
        print_code_place(r, t->psw, 1, SVC_OLD, SVC_CODE);
    }
}

/* The word of the interval timer if it fell, where the tables had it as the unit began; and T if the fall set it. */
static void print_interval(const struct trace *r, const struct case_file *c)
{
    struct interval_place i;

    if (!interval_falls(&r->before))
        return;
    i = interval_place(&r->before);
    fprintf(r->to, "  interval=%08lx", (unsigned long)get_number(c->storage + i.place, 4));
    if (interval_requested(c->record) && !interval_requested(r->before.record))
        fprintf(r->to, "  T=1");
}

/* ---- lines ---- */

/* The unit that left c. */
static void print_unit(const struct trace *r, uint64_t number, const struct case_file *c)
{
    struct text t = fetch_text(&r->before, psw_of(r->before.record));
    uint32_t next = psw_address(psw_of(c->record));
    char digits[24];

    snprintf(digits, sizeof digits, "%llu", (unsigned long long)number);
    print_columns(r, digits, &t, c);
    print_timer(r, field_of(c->record, "timer"));
    print_registers(r, c);
    print_operand(r, &t);
    print_interruption(r, &t);
    print_interval(r, c);
    if (!is_whole(&t) || next != psw_wrapped(t.psw, psw_address(t.psw) + t.length))
        fprintf(r->to, "  -> %08lx", (unsigned long)next);
    fputc('\n', r->to);
}

/* The interception or host fault that left c. It charges no time: the cause stands in the timer's place. */
static void print_exit(const struct trace *r, const struct ending *e, const struct case_file *c)
{
    struct text t = ending_text(c);
    char cause[SENTENCE] = "";

    add_cause(e, c, cause);
    print_columns(r, "exit", &t, c);
    fprintf(r->to, "  %s", cause);
    if (interval_requested(r->before.record) && !interval_requested(c->record))
        fprintf(r->to, "  T=0");
    print_registers(r, c);
    if (ended_by_instruction(e))
        print_operand(r, &t);
    fputc('\n', r->to);
}

/* All units, as long as the run goes on, and how it ended. */
static struct ending trace_units(FILE *to, struct case_file *c, uint32_t units, struct course *k)
{
    struct progress p = progress_of(units);
    struct trace r;
    struct ending e;
    uint64_t done = 0;

    r.to = to;
    r.width = snprintf(NULL, 0, "%0*lu", NUMBER, (unsigned long)units);
    p.shown = p.shown && !isatty(fileno(to));
    do {
        r.before = *c;
        e = run_slice(c, units > 0);
        done += e.units;
        if (e.units == 1)
            print_unit(&r, done, c);
        progress_at(&p, done);
    } while (e.kind == DREVOKAS_BUDGET_USED && done < units && goes_on(k, c, done));
    progress_over(&p);
    if (e.kind == DREVOKAS_INTERCEPTED || e.kind == DREVOKAS_HOST_FAULT)
        print_exit(&r, &e, c);
    e.units = done;
    return e;
}

int command_trace(int argc, char **argv)
{
    return run_as_asked(argc, argv, &usage, trace_units);
}
