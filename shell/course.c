#include "course.h"

#include <errno.h>

#include "../include/drevokas.h"
#include "interrupt.h"

uint32_t units_at_once(const struct course *k, uint64_t done, uint64_t left)
{
    if (k->every > 0 && left > k->every - done % k->every)
        left = k->every - done % k->every;
    return left < DREVOKAS_MOST_UNITS ? (uint32_t)left : DREVOKAS_MOST_UNITS;
}

/* Whether the checkpoint is written, and the lines before it. */
static int is_kept(struct course *k, const struct case_file *c, uint64_t done)
{
    if (fflush(k->to) != 0)
        return 0;
    if (write_output(k->after, c) == 0)
        k->kept = done;
    else
        k->why = errno;
    return k->why == 0;
}

int goes_on(struct course *k, const struct case_file *c, uint64_t done)
{
    k->signal = interrupted_by();
    if (k->signal != 0 || ferror(k->to))
        return 0;
    return k->every == 0 || done % k->every != 0 || is_kept(k, c, done);
}
