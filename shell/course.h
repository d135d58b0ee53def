/* What goes beside a run, from slice to slice or from unit to unit: its checkpoints, and the signals that end it early. */
#ifndef COURSE_H
#define COURSE_H

#include <stdint.h>
#include <stdio.h>

#include "case_file.h"
#include "output.h"

struct course {
    FILE *to;                       /* the run's lines, which are out before the checkpoint that follows them */
    const struct output *after;     /* where checkpoints go */
    uint32_t every;                 /* units from one checkpoint to the next; 0 for no checkpoints */
    uint64_t kept;                  /* units at the last checkpoint; 0 if there was none */
    int signal;                     /* that ended the run early, or 0 */
    int why;                        /* errno of the checkpoint that ended it, or 0 */
};

/* How many of the units that are left can be run at once: as many as one call takes, up to the next checkpoint. */
uint32_t units_at_once(const struct course *k, uint64_t done, uint64_t left);

/* Whether a run that is not over after so many units goes on: no signal came, its lines could be written, and so could the
   checkpoint if one is due. */
int goes_on(struct course *k, const struct case_file *c, uint64_t done);

#endif
