/* The instruction at a PSW, fetched as the machine would: halfword by halfword, each byte by the library's translation. */
#ifndef FETCH_H
#define FETCH_H

#include "case_file.h"
#include "instructions.h"
#include "psw.h"

struct text {
    struct psw psw;             /* that it was fetched by */
    uint8_t bytes[MOST_TEXT];
    unsigned fetched;           /* bytes that were fetched */
    unsigned length;            /* bytes of the instruction; 0 if the first halfword was not fetched */
    uint64_t answer, where;     /* the library's answer for the last byte that was asked for */
    int no_entry;               /* entry fails, so nothing is fetched */
};

/* The instruction at this PSW, which differs from the case file's in the address at most. */
struct text fetch_text(const struct case_file *c, struct psw psw);

/* Whether all of the instruction is there. */
int is_whole(const struct text *t);

/* The logical address of the operand in storage, with the registers of this record. Returns 0 if there is none. */
int text_operand(const struct text *t, const uint8_t *record, uint32_t *address);

/* The instruction in assembler, or in parentheses why it is not there. */
void text_words(const struct text *t, char *line, size_t room);

/* The same for a column of COLUMN characters: where no unit could start with an instruction, only what is wrong. */
#define COLUMN 22
void text_column(const struct text *t, char *line, size_t room);

#endif
