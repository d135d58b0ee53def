/* The table entry at which a walk of the tables ended, in words. */
#ifndef STAGE_H
#define STAGE_H

#include "words.h"

/* Adds the entry of an answer that has a stage: "host page entry at 00002004: invalid". Stage and address are the library's.
   Why the entry did not lead on is said where the shell's own walk of the tables ends there too. virtual is the guest virtual
   address that was translated, NULL where there was none. */
void add_entry(const struct case_file *c, const uint32_t *virtual, uint64_t answer, uint64_t where, char text[SENTENCE]);

/* Adds the entry at which the shell's own walk of the host's tables ends for a host virtual address without a frame, and why:
   "host segment entry at 00001004: invalid". */
void add_host_entry(const struct case_file *c, uint32_t host, char text[SENTENCE]);

/* Adds which bits of a malformed entry must be zero: "malformed, bits 0 and 20 must be zero". */
void add_malformed(uint32_t bits, char text[SENTENCE]);

#endif
