#include "fetch.h"

#include <stdio.h>
#include <string.h>

#include "../include/drevokas.h"
#include "words.h"

/* The byte that is i bytes into the instruction. Returns 0 if it was fetched. */
static int fetch_byte(const struct case_file *c, struct text *t, unsigned i)
{
    t->answer = drevokas_translate(c->record, record_bytes(c->record), c->storage, (size_t)c->frames * FRAME_BYTES, c->keys,
                                   c->frames, c->designation, psw_address(t->psw) + i, DREVOKAS_INSTRUCTION_FETCH, &t->where);
    if (drevokas_kind(t->answer) != DREVOKAS_GOOD)
        return -1;
    t->bytes[i] = c->storage[drevokas_address(t->where)];
    t->fetched = i + 1;
    return 0;
}

struct text fetch_text(const struct case_file *c, struct psw psw)
{
    struct text t;

    memset(&t, 0, sizeof t);
    t.psw = psw;
    if (fetch_byte(c, &t, 0) != 0) {
        t.no_entry = drevokas_kind(drevokas_check(c->record, record_bytes(c->record))) == DREVOKAS_INTERCEPTED;
        return t;
    }
    if (psw_address(t.psw) % 2 != 0) {
        t.fetched = 0;
        return t;
    }
    t.length = instruction_length(t.bytes[0]);
    while (t.fetched < t.length && fetch_byte(c, &t, t.fetched) == 0)
        ;
    return t;
}

int is_whole(const struct text *t)
{
    return t->length != 0 && t->fetched == t->length;
}

int text_operand(const struct text *t, const uint8_t *record, uint32_t *address)
{
    uint32_t registers[REGISTERS];
    unsigned i;

    for (i = 0; i < REGISTERS; i++)
        registers[i] = (uint32_t)get_number(record + find_field("gr0")->at + 4 * i, 4);
    if (psw_malformed(t->psw) != NULL || !operand_address(t->bytes, t->fetched, registers, address))
        return 0;
    *address = psw_wrapped(t->psw, *address);
    return 1;
}

/* Why the byte after those that were fetched is not there. */
static void missing_words(const struct text *t, char *line, size_t room)
{
    unsigned number = (unsigned)drevokas_number(t->answer);

    switch (drevokas_kind(t->answer)) {
    case DREVOKAS_PROGRAM_EXCEPTION:
        snprintf(line, room, "(not fetched: exception %02x hex, %s, at %08lx)", number, program_words(number),
                 (unsigned long)psw_wrapped(t->psw, psw_address(t->psw) + t->fetched));
        break;
    case DREVOKAS_HOST_FAULT:
        snprintf(line, room, "(not fetched: host fault %02x hex, %s, at host address %08lx)", number, program_words(number),
                 (unsigned long)drevokas_address(t->where));
        break;
    case DREVOKAS_INTERCEPTED:
        snprintf(line, room, "(not fetched: %s)", t->no_entry ? "entry fails" : "PSW " DAT_NOT_INSTALLED);
        break;
    default:
        snprintf(line, room, "(not fetched: refused)");
        break;
    }
}

void text_words(const struct text *t, char *line, size_t room)
{
    if (is_whole(t))
        disassemble(t->bytes, t->length, t->psw.system370, line, room);
    else if (psw_address(t->psw) % 2 != 0)
        snprintf(line, room, "(not fetched: exception 06 hex, specification, since the address is odd)");
    else
        missing_words(t, line, room);
}

void text_column(const struct text *t, char *line, size_t room)
{
    if (t->no_entry)
        snprintf(line, room, "(no entry)");
    else if (psw_not_installed(t->psw) != NULL)
        snprintf(line, room, "(PSW not installed)");
    else if (psw_malformed(t->psw) != NULL)
        snprintf(line, room, "(PSW malformed)");
    else if (psw_bits(t->psw.bits, 14, 14))
        snprintf(line, room, "(wait state)");
    else if (psw_address(t->psw) % 2 != 0)
        snprintf(line, room, "(odd address)");
    else if (!is_whole(t))
        snprintf(line, room, "(not fetched)");
    else
        text_words(t, line, room);
}
