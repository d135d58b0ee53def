/* drevokas explain: a case file for a person to read. */
#include "explain.h"

#include <stdio.h>

#include "../include/drevokas.h"
#include "arguments.h"
#include "command.h"
#include "ending.h"
#include "fetch.h"
#include "fields.h"
#include "psw.h"
#include "resume.h"
#include "words.h"

#define PAGE_LINES 64
#define MOST_PAGE_LINES 524288      /* pages of the largest extent */
#define NUMBER_WORDS 35             /* columns from which the words stand: of the numbers, */
#define ENTRY_WORDS 4               /* of further lines on the entry, */
#define TEXT_WORDS 12               /* and of the instruction */

static const struct usage usage = {
    "explain FILE [--pages N]",
    "Shows a case file, or standard input if FILE is -: its numbers; the record field by field; whether\n"
    "entry would succeed, and what a run of one unit would answer; the PSW bit by bit, by its form;\n"
    "timers in hexadecimal and in microseconds, and System/370's interval timer; control and general\n"
    "registers; the guest's pages by the host's tables, with the host absolute address of the page's\n"
    "entry, frame, protection, key and the pages that share the frame; and the instruction at the PSW.\n"
    "Nothing is changed.\n\n"
    "  --pages N        list the pages in N lines at most, 0 to 524288; 64 if nothing is said\n\n"
    "Exit status: 0, 1 if the file is malformed or a run of it would be refused, 2 for bad usage or a\n"
    "file that cannot be read.\n",
    NULL, 1, 0, {"--pages"},
};

static void explain_numbers(const struct case_file *c)
{
    unsigned long length = (unsigned long)c->designation & 0x7f;
    char time[SENTENCE], wrong[SENTENCE] = "";

    printf("Numbers\n  designation    %08lx          ", (unsigned long)c->designation);
    print_from(NUMBER_WORDS, "host segment table at %08lx, length %lu: %lu segments of 1 MiB",
               (unsigned long)c->designation & 0x7ffff000, length, (length + 1) * 16);
    microseconds(0, c->clock, time, sizeof time);
    printf("  clock          %016llx  %s us\n", (unsigned long long)c->clock, time);
    microseconds(0, c->time, time, sizeof time);
    printf("  time per unit  %-16lu  ", (unsigned long)c->time);
    if (*wrong_time(c->time) != '\0')
        add(wrong, ": %s, else a run is refused (R 6)", wrong_time(c->time));
    print_from(NUMBER_WORDS, "clock unit%s, %s us%s", plural(c->time), time, wrong);
    printf("  budget         %-16u  unit%s\n", (unsigned)c->budget, plural(c->budget));
    printf("  storage        %-16u  frame%s, %08lx-%08lx\n", c->frames, plural(c->frames), 0ul,
           (unsigned long)c->frames * FRAME_BYTES - 1);
}

static void explain_check(const struct case_file *c, uint64_t check)
{
    unsigned number = (unsigned)drevokas_number(check);
    char text[SENTENCE];

    if (drevokas_kind(check) == DREVOKAS_REFUSED) {
        refusal_sentence(number, c, text, sizeof text);
        print_from(ENTRY_WORDS, "  check answers: refused, R %u: %s", number, text);
    } else if (entry_sentence(c->record, text, sizeof text))
        print_from(ENTRY_WORDS, "  check answers: entry fails, code %u: %s", number, text);
    else
        print_from(ENTRY_WORDS, "  check answers: good");
}

/* after is the case file after a run of one unit, which ended with e. */
static void explain_entry(const struct case_file *c, uint64_t check, const struct ending *e, const struct case_file *after)
{
    char text[SENTENCE];

    printf("\nEntry\n");
    explain_check(c, check);
    ending_sentence(e, after, text);
    print_from(ENTRY_WORDS, "  a run of one unit answers: %s", text);
}

static void explain_instruction(const struct case_file *c)
{
    struct text t = fetch_text(c, psw_of(c->record));
    char line[SENTENCE], hex[2 * MOST_TEXT + 3] = "";
    unsigned i;

    text_words(&t, line, sizeof line);
    for (i = 0; i < t.fetched; i++)
        snprintf(hex + 2 * i, 5, "%02x  ", t.bytes[i]);
    printf("\nInstruction at the PSW\n  %08lx  ", (unsigned long)psw_address(t.psw));
    print_from(TEXT_WORDS, "%s%s", hex, line);
}

/* Returns the exit status. */
static int explain(const struct case_file *c, const char *name, uint64_t lines)
{
    uint64_t check = drevokas_check(c->record, record_bytes(c->record));
    struct case_file after = *c;
    struct ending unit = run_slice(&after, 1);
    char text[SENTENCE];

    explain_numbers(c);
    explain_record(c);
    explain_entry(c, check, &unit, &after);
    explain_psw(c);
    explain_timers(c);
    explain_registers(c);
    if (drevokas_kind(check) == DREVOKAS_GOOD)
        explain_pages(c, lines);
    else
        printf("\nPages: none, since there is no entry\n");
    explain_instruction(c);
    if (unit.kind != DREVOKAS_REFUSED)
        return STATUS_GOOD;
    ending_sentence(&unit, &after, text);
    complain("%s: %s", shown_name(name), text);
    return STATUS_REFUSED;
}

int command_explain(int argc, char **argv)
{
    struct arguments a;
    struct case_file c;
    uint64_t lines = PAGE_LINES;
    int status = sort_arguments(argc, argv, &usage, &a);

    if (status != GO_ON)
        return status;
    if (a.values[0] != NULL && decimal_number(a.values[0], MOST_PAGE_LINES, &lines) != 0) {
        complain("--pages %s: must be a decimal number from 0 to %u", a.values[0], MOST_PAGE_LINES);
        return STATUS_BAD;
    }
    status = load(a.operands[0], &c);
    return finished(status == GO_ON ? explain(&c, a.operands[0], lines) : status);
}
