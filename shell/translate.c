/* drevokas translate: where one byte of the guest is. */
#include <stdio.h>
#include <string.h>

#include "../include/drevokas.h"
#include "arguments.h"
#include "command.h"
#include "psw.h"
#include "stage.h"
#include "words.h"

static const struct usage usage = {
    "translate FILE ADDRESS [--access fetch|store|instruction]",
    "Translates a guest logical address of a case file, or of standard input if FILE is -. ADDRESS is\n"
    "hexadecimal: 3000, 0x3000 or X'3000'. It wraps by the PSW's addressing mode, for System/370 at 24\n"
    "bits. Prints one line:\n"
    "  good ADDRESS: SENTENCE                the host absolute address\n"
    "  exception CODE hex: SENTENCE          the guest's program exception\n"
    "  fault CODE hex at ADDRESS: SENTENCE   the host fault and its host virtual address\n"
    "  I 32: SENTENCE                        entry would fail, and why; or DAT is on for System/370\n"
    "  R NUMBER: SENTENCE                    refused, and why\n"
    "An address is printed as eight hexadecimal digits. If a table entry is to blame, a message on\n"
    "standard error says which: guest or host, segment or page, its address (of the guest's entries real,\n"
    "of the host's absolute), and what is wrong with it.\n\n"
    "  --access KIND    fetch (an operand; if nothing is said), store, or instruction\n\n"
    "Exit status: 0, 1 if it is refused, 2 for bad usage or a file that cannot be read.\n",
    NULL, 2, 0, {"--access"},
};

/* The access kind of this name; fetch for NULL. */
static int access_kind(const char *name, uint32_t *access)
{
    if (name == NULL || strcmp(name, "fetch") == 0)
        *access = DREVOKAS_OPERAND_FETCH;
    else if (strcmp(name, "store") == 0)
        *access = DREVOKAS_STORE;
    else if (strcmp(name, "instruction") == 0)
        *access = DREVOKAS_INSTRUCTION_FETCH;
    else {
        complain("--access %s: must be fetch, store or instruction", name);
        return STATUS_BAD;
    }
    return GO_ON;
}

static int print_answer(const struct case_file *c, uint64_t answer, uint64_t where)
{
    unsigned number = (unsigned)drevokas_number(answer);
    unsigned long at = (unsigned long)drevokas_address(where);
    char text[SENTENCE];

    switch (drevokas_kind(answer)) {
    case DREVOKAS_GOOD:
        printf("good %08lx: frame %lu, offset %03lx hex\n", at, at / FRAME_BYTES, at % FRAME_BYTES);
        return STATUS_GOOD;
    case DREVOKAS_PROGRAM_EXCEPTION:
        printf("exception %02x hex: %s, a program exception of the guest\n", number, program_words(number));
        return STATUS_GOOD;
    case DREVOKAS_HOST_FAULT:
        printf("fault %02x hex at %08lx: %s, a host fault at that host address\n", number, at, program_words(number));
        return STATUS_GOOD;
    case DREVOKAS_INTERCEPTED:
        if (!entry_sentence(c->record, text, sizeof text))
            snprintf(text, sizeof text, "PSW %s", DAT_NOT_INSTALLED);
        printf("I %u: %s\n", number, text);
        return STATUS_GOOD;
    default:
        refusal_sentence(number, c, text, sizeof text);
        printf("R %u: %s\n", number, text);
        return STATUS_REFUSED;
    }
}

/* The table entry at which the translation failed, if it did at one. */
static void name_entry(const char *name, const struct case_file *c, uint32_t address, uint64_t answer, uint64_t where)
{
    struct psw psw = psw_of(c->record);
    uint32_t virtual = psw_wrapped(psw, address);
    char text[SENTENCE] = "";

    add_entry(c, psw_dat_is_on(psw) ? &virtual : NULL, answer, where, text);
    if (text[0] != '\0')
        complain("%s: %s", name, text);
}

/* The line is out before the message. */
static int translate(const char *name, const struct case_file *c, uint32_t address, uint32_t access)
{
    uint64_t where = 0;
    uint64_t answer = drevokas_translate(c->record, record_bytes(c->record), c->storage, (size_t)c->frames * FRAME_BYTES,
                                         c->keys, c->frames, c->designation, address, access, &where);
    int status = finished(print_answer(c, answer, where));

    if (status == STATUS_GOOD)
        name_entry(name, c, address, answer, where);
    return status;
}

int command_translate(int argc, char **argv)
{
    struct arguments a;
    struct case_file c;
    uint32_t access = 0, address = 0;
    int status = sort_arguments(argc, argv, &usage, &a);

    if (status == GO_ON)
        status = access_kind(a.values[0], &access);
    if (status == GO_ON)
        status = address_operand(a.operands[1], &address);
    if (status != GO_ON)
        return status;
    status = load(a.operands[0], &c);
    if (status == STATUS_REFUSED)
        printf("R 9: case file malformed\n");
    if (status != GO_ON)
        return finished(status);
    return translate(shown_name(a.operands[0]), &c, address, access);
}
