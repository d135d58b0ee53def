/* What the tests of run share: the call, its answer, and the general registers of a record. */
#ifndef RUNNING_H
#define RUNNING_H

#include "machine.h"

/* What *where holds before a call. */
#define NOT_TOUCHED 0x5555555555555555u

static inline uint32_t general(const struct machine *m, int i)
{
    return get32(m->record.at + AT_GENERAL + 4 * i);
}

static inline void put_general(struct machine *m, int i, uint32_t value)
{
    put32(m->record.at + AT_GENERAL + 4 * i, value);
}

static inline uint64_t run(struct machine *m, uint64_t clock, uint32_t time, uint32_t budget, uint64_t *where)
{
    return drevokas_run(m->record.at, m->record.len, m->storage.at, m->storage.len, m->keys.at, m->keys.len,
                        m->designation, clock, time, budget, where);
}

static inline uint64_t ended(uint32_t kind, uint32_t number, uint32_t units)
{
    return answer_of(kind, number) | units;
}

/* A host fault that names a table. */
static inline uint64_t faulted(uint32_t code, uint32_t units, struct table t)
{
    return answer_in(DREVOKAS_HOST_FAULT, code, t) | units;
}

static inline void remember_all(struct machine *m)
{
    remember(&m->record);
    remember(&m->storage);
    remember(&m->keys);
}

static inline int all_unchanged(const struct machine *m)
{
    return unchanged(&m->record) && unchanged(&m->storage) && unchanged(&m->keys);
}

/* A run that is refused changes nothing, *where neither. */
static inline void expect_refused_at(const char *file, int line, struct machine *m, uint32_t time, uint32_t budget,
                                     uint32_t number)
{
    uint64_t where = NOT_TOUCHED, answer;

    remember_all(m);
    answer = run(m, 0, time, budget, &where);
    expect_at(file, line, answer == ended(DREVOKAS_REFUSED, number, 0), "run is refused with this number");
    expect_at(file, line, where == NOT_TOUCHED, "a refusal leaves *where");
    expect_at(file, line, all_unchanged(m), "a refusal leaves every byte");
}

#define RUN_REFUSED(m, time, budget, number) expect_refused_at(__FILE__, __LINE__, m, time, budget, number)

#endif
