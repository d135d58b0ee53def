/* The access that ended a run in a host fault. */
#ifndef FAULTED_H
#define FAULTED_H

#include "case_file.h"
#include "resume.h"

/* The guest virtual address of the text or the operand, in a run that left c. Returns 0 where there was none: DAT is off, or an
   area of an interruption was accessed. */
int faulted_address(const struct ending *e, const struct case_file *c, uint32_t *virtual);

#endif
