/* How a run ended, in words. Every function takes the case file as the run left it. */
#ifndef ENDING_H
#define ENDING_H

#include "fetch.h"
#include "resume.h"
#include "words.h"

/* Whether an instruction ended the run: a host fault, or code 4, 8 or 44. The other codes are tested for before it. */
int ended_by_instruction(const struct ending *e);

/* The instruction at which the run ended: where the end advanced the PSW's address, the one before that. */
struct text ending_text(const struct case_file *c);

/* Adds why the run was intercepted, or its host fault: "code 20: external interruption 1005 hex, CPU timer". */
void add_cause(const struct ending *e, const struct case_file *c, char text[SENTENCE]);

/* Any end, with the instruction or its address: "intercepted, code 4: SVC 5 at 00000206". */
void ending_sentence(const struct ending *e, const struct case_file *c, char text[SENTENCE]);

#endif
