#include "resume.h"

#include <string.h>
#include <unistd.h>

#include "../include/drevokas.h"
#include "command.h"
#include "ending.h"
#include "interrupt.h"
#include "progress.h"
#include "words.h"

#define TO_BE_INTERCEPTED 0x40      /* interception control bit 1: program exceptions */

struct ending run_slice(struct case_file *c, uint32_t units)
{
    struct ending e;

    e.where = 0;
    e.answer = drevokas_run(c->record, record_bytes(c->record), c->storage, (size_t)c->frames * FRAME_BYTES, c->keys, c->frames,
                            c->designation, c->clock, c->time, units, &e.where);
    e.kind = drevokas_kind(e.answer);
    e.number = drevokas_number(e.answer);
    e.units = drevokas_units(e.answer);
    c->clock += e.units * c->time;
    return e;
}

struct ending intercepted_unit(const struct case_file *c, struct case_file *copy)
{
    *copy = *c;
    copy->record[find_field("interceptions")->at] |= TO_BE_INTERCEPTED;
    return run_slice(copy, 1);
}

struct ending run_units(struct case_file *c, uint32_t units, struct course *k)
{
    struct progress p = progress_of(units);
    struct ending e;
    uint64_t done = 0;

    do {
        e = run_slice(c, units_at_once(k, done, units - done));
        done += e.units;
        progress_at(&p, done);
    } while (e.kind == DREVOKAS_BUDGET_USED && done < units && goes_on(k, c, done));
    progress_over(&p);
    e.units = done;
    return e;
}

/* ---- the end ---- */

/* Document 01's line. */
static void print_line(FILE *to, const struct ending *e)
{
    if (e->kind == DREVOKAS_REFUSED)
        fprintf(to, "R %u\n", (unsigned)e->number);
    else
        fprintf(to, "%c %u %llu\n", "RIHB"[e->kind & 3], (unsigned)e->number, (unsigned long long)e->units);
}

/* Whether the line, and all before it, is written; complains if not. */
static int line_is_out(FILE *to, const struct ending *e)
{
    if (!ferror(to))
        print_line(to, e);
    return finished(STATUS_GOOD) == STATUS_GOOD && !ferror(to);
}

/* How the run ended, in words, but not where that is asked to be quiet and nothing is refused. Returns the exit status. */
static int comment_on(const struct ending *e, const struct case_file *c, const char *name, int quiet)
{
    char text[SENTENCE];

    ending_sentence(e, c, text);
    if (!quiet || e->kind == DREVOKAS_REFUSED)
        complain("%s: %s", name, text);
    return e->kind == DREVOKAS_REFUSED ? STATUS_REFUSED : STATUS_GOOD;
}

/* The exit status of a run that a signal ended, as a shell gives it for the signal itself. */
static int interrupted(const struct ending *e, int number, const char *name)
{
    complain("%s: interrupted by %s after %llu unit%s", name, interrupt_name(number), (unsigned long long)e->units,
             plural(e->units));
    return 128 + number;
}

/* An error ends the run: the case file did not advance, but by checkpoints. */
static int ended_badly(const struct course *k)
{
    if (k->kept > 0)
        complain("%s: is as it stood after %llu unit%s, at its last checkpoint", k->after->name, (unsigned long long)k->kept,
                 plural(k->kept));
    return STATUS_BAD;
}

/* Prints the line and says the rest. Returns the exit status if the case file can then be written. A run that was interrupted
   leaves its case file even if nobody reads the line. */
static int conclude(const struct course *k, const struct ending *e, const struct case_file *c, const struct arguments *a)
{
    const char *name = shown_name(a->operands[0]);
    int printed;

    if (k->why != 0) {
        complain("%s: the checkpoint after %llu unit%s cannot be written: %s", k->after->name, (unsigned long long)e->units,
                 plural(e->units), strerror(k->why));
        return STATUS_BAD;
    }
    printed = line_is_out(k->to, e);
    if (k->signal != 0)
        return interrupted(e, k->signal, name);
    return printed ? comment_on(e, c, name, a->values[QUIET] != NULL) : STATUS_BAD;
}

/* The line is out before the case file is written: STATUS_BAD means that the file did not advance. */
static int end_with(const struct course *k, const struct ending *e, const struct case_file *c, const struct arguments *a)
{
    int status = conclude(k, e, c, a);

    if (k->after != NULL && status != STATUS_BAD && status != STATUS_REFUSED)
        status = save_to(k->after, c, status);
    return status == STATUS_BAD ? ended_badly(k) : status;
}

/* ---- the sub-command ---- */

/* Finds where the case file after the run goes. */
static int find_after(const struct arguments *a, struct output *after, struct course *k)
{
    if (a->values[AFTER] == NULL && k->every == 0)
        return GO_ON;
    if (a->values[AFTER] == NULL) {
        complain("--checkpoint: needs --after OUT, which is where checkpoints go");
        return STATUS_BAD;
    }
    if (find_output(a->values[AFTER], after) != GO_ON)
        return STATUS_BAD;
    if (k->every > 0 && after->descriptor >= 0) {
        complain("--checkpoint: needs an ordinary file after --after, and %s is none", after->name);
        release_output(after);
        return STATUS_BAD;
    }
    k->after = after;
    if (after->descriptor == STDOUT_FILENO)     /* which the case file takes */
        k->to = stderr;
    return GO_ON;
}

/* Loads the case file and runs it, by its own budget if none is asked for. Returns the exit status. */
static int run_file(const struct arguments *a, uint32_t budget, struct course *k, run_function *run)
{
    struct case_file c;
    struct ending e;
    int status = load(a->operands[0], &c);

    if (status == STATUS_REFUSED)
        fputs("R 9\n", k->to);
    if (status != GO_ON)
        return finished(status);
    catch_interrupts();
    e = run(k->to, &c, a->values[BUDGET] != NULL ? budget : c.budget, k);
    status = end_with(k, &e, &c, a);
    release_interrupts();
    return status;
}

int run_as_asked(int argc, char **argv, const struct usage *u, run_function *run)
{
    struct arguments a;
    struct output after;
    struct course k = {stdout, NULL, 0, 0, 0, 0};
    uint32_t budget = 0;
    int status = sort_arguments(argc, argv, u, &a);

    if (status == GO_ON)
        status = units_option(u->options[BUDGET], a.values[BUDGET], 0, &budget);
    if (status == GO_ON)
        status = units_option(u->options[CHECKPOINT], a.values[CHECKPOINT], 1, &k.every);
    if (status == GO_ON)
        status = find_after(&a, &after, &k);
    if (status != GO_ON)
        return status;
    status = run_file(&a, budget, &k, run);
    if (k.after != NULL)
        release_output(&after);
    return status;
}
