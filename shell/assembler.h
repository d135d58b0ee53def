/* The assembler with labels, for the text form. */
#ifndef ASSEMBLER_H
#define ASSEMBLER_H

#include "expression.h"
#include "instructions.h"

/* The length in bytes of the instruction of this name, an extended branch too; 0 if there is none. */
unsigned length_of_named(const char *name, size_t length);

/* Whether this is the name of an instruction of System/370's channels. */
int is_channel_name(const char *name, size_t length);

/* The names of the listed instructions, in one line. */
void list_instructions(char *line, size_t room);

/* Assembles one instruction, whose operands may be labels. labels may be NULL. Returns its length in
   bytes, or 0 with a message. */
unsigned assemble_with_labels(const char *line, const struct labels *labels, uint8_t text[MOST_TEXT], struct message *m);

#endif
