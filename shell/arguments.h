/* The arguments of a sub-command: operands, options with a value, and numbers. */
#ifndef ARGUMENTS_H
#define ARGUMENTS_H

#include <stdint.h>

#include "case_file.h"
#include "output.h"

#define GO_ON (-1)      /* the arguments are good; any other result is the exit status */

#define MOST_OPERANDS 3
#define MOST_OPTIONS 4
#define QUIET_OPTION "--quiet"      /* the only option without a value */

/* What a sub-command takes. */
struct usage {
    const char *synopsis;               /* without the program's name */
    const char *help, *more;            /* the rest of what --help prints; more may be NULL */
    unsigned operands, optional;        /* so many, no more; of them so many may be left out at the end */
    const char *options[MOST_OPTIONS];  /* names with their dashes, or NULL; with a value: "--name VALUE", "--name=VALUE" */
};

/* What it is given. */
struct arguments {
    const char *operands[MOST_OPERANDS];    /* NULL for one that is not given */
    const char *values[MOST_OPTIONS];   /* of the options, in the order of struct usage; NULL for one that is not given */
};

/* Whether one of the arguments asks for help. */
int wants_help(int argc, char **argv);

/* Prints the help. Returns the exit status. */
int print_help(const struct usage *u);

/* Prints the synopsis, after a complaint. Returns STATUS_BAD. */
int bad_usage(const struct usage *u);

/* Sorts the arguments, in any order; "--" ends the options. Prints the help, or complains. */
int sort_arguments(int argc, char **argv, const struct usage *u, struct arguments *a);

/* A decimal number from 0 to most: digits and nothing else. Returns 0, or -1. */
int decimal_number(const char *text, uint64_t most, uint64_t *value);

/* A hexadecimal number from 0 to most: digits, 0x and digits, X'digits', or X and digits, which a shell makes of X'digits'.
   Returns 0, or -1. */
int hex_number(const char *text, uint64_t most, uint64_t *value);

/* A number of 32 bits, decimal, or hexadecimal if it is marked by 0x or X. Returns 0, or -1. */
int marked_number(const char *text, uint32_t *value);

/* An address of 32 bits, as hex_number takes it. Complains of any other text, and of one that could be meant in binary. */
int address_operand(const char *text, uint32_t *address);

/* The units, least at least, that this option asks for, left as they are when its value is NULL. Complains of a value that is
   no such number. */
int units_option(const char *option, const char *value, uint32_t least, uint32_t *units);

/* Reads a case file. Complains if it cannot: STATUS_REFUSED if it is malformed, STATUS_BAD if it cannot be read. */
int load(const char *name, struct case_file *c);

/* Writes a case file to this output. Complains and returns STATUS_BAD if it cannot, else returns status. */
int save_to(const struct output *o, const struct case_file *c, int status);

/* The same for the output of this name. */
int save(const char *name, const struct case_file *c, int status);

#endif
