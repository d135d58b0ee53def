/* The sections of the view that explain prints. Each prints its heading and its lines on standard output. */
#ifndef EXPLAIN_H
#define EXPLAIN_H

#include "case_file.h"

/* The record's fields up to byte 71 and from byte 200 on, and the results in words. */
void explain_record(const struct case_file *c);

/* The PSW bit by bit, by its form. */
void explain_psw(const struct case_file *c);

/* CPU timer, clock comparator and guest clock, the interval timer of System/370, and what is due. */
void explain_timers(const struct case_file *c);

/* Control registers with the bits that the machine uses, and general registers. */
void explain_registers(const struct case_file *c);

/* The guest's pages by the host's tables, in at most this many lines. Entry must be good. */
void explain_pages(const struct case_file *c, uint64_t lines);

#endif
