#include "ending.h"

#include <string.h>

#include "../include/drevokas.h"
#include "faulted.h"
#include "interval.h"
#include "psw.h"
#include "stage.h"

/* ---- where ---- */

int ended_by_instruction(const struct ending *e)
{
    if (e->kind != DREVOKAS_INTERCEPTED)
        return e->kind == DREVOKAS_HOST_FAULT;
    return e->number == DREVOKAS_CODE_INSTRUCTION || e->number == DREVOKAS_CODE_PROGRAM || e->number == DREVOKAS_CODE_OPERATION;
}

/* Bytes by which the end advanced the PSW's address. The ILC is zero but for the codes 4, 8 and 44. */
static uint32_t advanced(const struct case_file *c)
{
    return is_translation(field_of(c->record, "interruption")) ? 0 : 2 * (uint32_t)field_of(c->record, "ilc");
}

struct text ending_text(const struct case_file *c)
{
    struct psw psw = psw_of(c->record);
    uint32_t back = advanced(c);

    return fetch_text(c, back != 0 ? psw_at(psw, psw_address(psw) - back) : psw);
}

/* The instruction with one blank after its name, and its address: "SVC 5 at 00000206". */
static void add_instruction(const struct text *t, char *text)
{
    char line[SENTENCE];
    size_t name;

    text_words(t, line, sizeof line);
    name = strcspn(line, " ");
    add(text, "%.*s %s at %08lx", (int)name, line, line + name + strspn(line + name, " "), (unsigned long)psw_address(t->psw));
}

/* The instruction that did it; or the address, and why there is no instruction. */
static void add_doer(const struct text *t, char *text)
{
    const char *wrong = psw_malformed(t->psw);
    unsigned long at = (unsigned long)psw_address(t->psw);

    if (wrong != NULL)
        add(text, ", PSW malformed: %s, at %08lx", wrong, at);
    else if (at % 2 != 0)
        add(text, ", at the odd address %08lx", at);
    else if (!is_whole(t))
        add(text, ", in fetching the instruction at %08lx", at);
    else {
        add(text, ", by ");
        add_instruction(t, text);
    }
}

/* ---- why ---- */

static void add_program_cause(const struct case_file *c, char *text)
{
    unsigned code = (unsigned)field_of(c->record, "interruption");

    add(text, "program exception %02x hex, %s", code, program_words(code));
    if (is_translation(code))
        add(text, ", address %08lx", (unsigned long)field_of(c->record, "address"));
}

static void add_validity_cause(const struct case_file *c, char *text)
{
    char entry[SENTENCE];

    if (entry_sentence(c->record, entry, sizeof entry))
        add(text, "validity, %s", entry);
    else
        add(text, "validity, PSW %s", psw_not_installed(psw_of(c->record)));
}

/* Why the run was intercepted with this code. */
static void add_interception_cause(unsigned code, const struct case_file *c, char *text)
{
    unsigned external = (unsigned)field_of(c->record, "interruption");

    add(text, "code %u: ", code);
    switch (code) {
    case DREVOKAS_CODE_PROGRAM:
        add_program_cause(c, text);
        break;
    case DREVOKAS_CODE_EXTERNAL:
        add(text, "external interruption %04x hex, %s", external, external_words(external));
        break;
    case DREVOKAS_CODE_VALIDITY:
        add_validity_cause(c, text);
        break;
    default:
        add(text, "%s", interception_words(code));
        break;
    }
}

void add_cause(const struct ending *e, const struct case_file *c, char text[SENTENCE])
{
    unsigned number = (unsigned)e->number;

    if (e->kind == DREVOKAS_INTERCEPTED)
        add_interception_cause(number, c, text);
    else
        add(text, "host fault %02x hex, %s, at host address %08lx", number, program_words(number),
            (unsigned long)drevokas_address(e->where));
}

/* The table entry from which a host fault came, if one did: "; host page entry at 00002004: invalid". */
static void add_table(const struct ending *e, const struct case_file *c, char *text)
{
    uint32_t address;

    if (e->kind != DREVOKAS_HOST_FAULT || drevokas_stage(e->answer) == DREVOKAS_STAGE_NONE)
        return;
    add(text, "; ");
    add_entry(c, faulted_address(e, c, &address) ? &address : NULL, e->answer, e->where, text);
}

/* ---- the sentence ---- */

/* An entry that fails has no place. */
static void interception_sentence(const struct ending *e, const struct case_file *c, char *text)
{
    struct text t = ending_text(c);
    char entry[SENTENCE];

    add(text, "intercepted, ");
    if (e->number == DREVOKAS_CODE_INSTRUCTION) {
        add(text, "code %u: ", (unsigned)e->number);
        add_instruction(&t, text);
        return;
    }
    add_cause(e, c, text);
    if (ended_by_instruction(e))
        add_doer(&t, text);
    else if (!entry_sentence(c->record, entry, sizeof entry))
        add(text, ", at %08lx", (unsigned long)psw_address(t.psw));
}

static void fault_sentence(const struct ending *e, const struct case_file *c, char *text)
{
    struct text t = ending_text(c);

    add_cause(e, c, text);
    add_doer(&t, text);
    if (interval_falls(c) && interval_place(c).host == drevokas_address(e->where))
        add(text, ", with the fall of the interval timer's word");
    add_table(e, c, text);
}

void ending_sentence(const struct ending *e, const struct case_file *c, char text[SENTENCE])
{
    char why[SENTENCE];

    text[0] = '\0';
    switch (e->kind) {
    case DREVOKAS_INTERCEPTED:
        interception_sentence(e, c, text);
        break;
    case DREVOKAS_HOST_FAULT:
        fault_sentence(e, c, text);
        break;
    case DREVOKAS_BUDGET_USED:
        add(text, "budget used: %llu unit%s completed", (unsigned long long)e->units, plural(e->units));
        break;
    default:
        refusal_sentence(e->number, c, why, sizeof why);
        add(text, "refused, R %u: %s", (unsigned)e->number, why);
        break;
    }
}
