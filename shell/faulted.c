#include "faulted.h"

#include "../include/drevokas.h"
#include "ending.h"
#include "fetch.h"
#include "psw.h"

#define MOST_PAGES 2        /* of an operand */

/* Whether an answer is the run's host fault. */
static int is_fault(const struct ending *e, uint64_t answer, uint64_t where)
{
    return drevokas_kind(answer) == DREVOKAS_HOST_FAULT && drevokas_number(answer) == e->number && where == e->where;
}

/* Whether the fault came before any program interruption: it comes also where program exceptions are intercepted. */
static int is_of_instruction(const struct ending *e, const struct case_file *c)
{
    struct case_file copy;
    struct ending again = intercepted_unit(c, &copy);

    return is_fault(e, again.answer, again.where);
}

/* The first byte of the operand that cannot be accessed is its first one, or the first one of its second page. */
static int faulted_operand(const struct ending *e, const struct case_file *c, const struct text *t, uint32_t *virtual)
{
    uint64_t answer, where = 0;
    unsigned pages;

    if (!text_operand(t, c->record, virtual))
        return 0;
    for (pages = 0; pages < MOST_PAGES; pages++) {
        answer = drevokas_translate(c->record, record_bytes(c->record), c->storage, (size_t)c->frames * FRAME_BYTES, c->keys,
                                    c->frames, c->designation, *virtual, DREVOKAS_OPERAND_FETCH, &where);
        if (drevokas_kind(answer) != DREVOKAS_GOOD)
            return is_fault(e, answer, where);
        *virtual = psw_wrapped(t->psw, (*virtual | (FRAME_BYTES - 1)) + 1);
    }
    return 0;
}

int faulted_address(const struct ending *e, const struct case_file *c, uint32_t *virtual)
{
    struct text t = ending_text(c);

    if (!psw_dat_is_on(t.psw) || !is_of_instruction(e, c))
        return 0;
    if (is_whole(&t))
        return faulted_operand(e, c, &t, virtual);
    *virtual = psw_wrapped(t.psw, psw_address(t.psw) + t.fetched);
    return is_fault(e, t.answer, t.where);
}
