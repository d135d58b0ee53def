/* The listed instructions by name: one table of names and formats, for the assembler and for the disassembler. */
#ifndef INSTRUCTIONS_H
#define INSTRUCTIONS_H

#include <stddef.h>
#include <stdint.h>

#define MOST_TEXT 6

/* The length in bytes of an instruction, by its first byte: 2, 4 or 6. */
unsigned instruction_length(uint8_t first);

/* Writes the instruction at text (of length bytes, at least instruction_length's for its first byte; otherwise it is shown as
   data) in assembler: "AR    1,2", "BC    15,X'200'(1,2)"; an opcode that is not listed is shown as "DC    X'...'". Those of
   channels, 9C to 9F hex, are listed for System/370 only. */
void disassemble(const uint8_t *text, size_t length, int system370, char *line, size_t room);

/* The address of the storage operand with these general registers, not yet wrapped by the addressing mode. Returns 0 if the
   text (of length bytes) is not a whole listed instruction with such an operand. */
int operand_address(const uint8_t *text, size_t length, const uint32_t registers[16], uint32_t *address);

/* Assembles one instruction ("L 1,X'10'(2,3)"). Returns its length in bytes, or 0, and then message says what is wrong. */
unsigned assemble(const char *line, uint8_t text[MOST_TEXT], char *message, size_t room);

#endif
