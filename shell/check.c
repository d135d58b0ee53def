/* drevokas check: whether entry would succeed. */
#include <stdio.h>

#include "../include/drevokas.h"
#include "arguments.h"
#include "command.h"
#include "words.h"

static const struct usage usage = {
    "check FILE",
    "Checks the record of a case file, or of standard input if FILE is -, and prints one line:\n"
    "  good                 entry would succeed\n"
    "  I 32: SENTENCE       entry would fail: the first test that does, of mode, extent or prefix\n"
    "  R NUMBER: SENTENCE   refused, and why\n"
    "The case file's numbers are no part of this: run refuses a time per unit that is 0 or\n"
    "over 1048576 (R 6).\n\n"
    "Exit status: 0, 1 if the check is refused, 2 for bad usage or a file that cannot be read.\n",
    NULL, 1, 0, {NULL},
};

static int answer(const struct case_file *c)
{
    uint64_t answer = drevokas_check(c->record, record_bytes(c->record));
    char text[SENTENCE];

    if (drevokas_kind(answer) == DREVOKAS_REFUSED) {
        refusal_sentence(drevokas_number(answer), c, text, sizeof text);
        printf("R %u: %s\n", (unsigned)drevokas_number(answer), text);
        return STATUS_REFUSED;
    }
    entry_sentence(c->record, text, sizeof text);
    if (drevokas_kind(answer) == DREVOKAS_INTERCEPTED)
        printf("I %u: %s\n", (unsigned)drevokas_number(answer), text);
    else
        printf("good\n");
    return STATUS_GOOD;
}

int command_check(int argc, char **argv)
{
    struct arguments a;
    struct case_file c;
    int status = sort_arguments(argc, argv, &usage, &a);

    if (status != GO_ON)
        return status;
    status = load(a.operands[0], &c);
    if (status == STATUS_REFUSED)
        printf("R 9: case file malformed\n");
    return finished(status == GO_ON ? answer(&c) : status);
}
