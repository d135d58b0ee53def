/*
 * Numbers and expressions of the text form. A number is decimal unless it is marked: X'1F' and 0x1F are hex, B'101' is binary.
 * A decimal number may be an amount of time, in us, ms or s, also with a fraction: it stands for clock units of 2^-12
 * microsecond. An expression is numbers and labels with + and - between them. An address may be hex without a mark, where it
 * starts with a digit and has a letter; digits alone are taken only where they are the same in decimal and in hex.
 */
#ifndef EXPRESSION_H
#define EXPRESSION_H

#include <stddef.h>
#include <stdint.h>

#define MOST_MESSAGE 300

/* What is wrong, and what would be right. */
struct message {
    char text[MOST_MESSAGE];
};

/* Sets the message; returns -1. */
int wrong(struct message *m, const char *format, ...) __attribute__((format(printf, 2, 3)));

/* A number for %llu and %llX. */
static inline unsigned long long ull(uint64_t n)
{
    return n;
}

/* A number with its sign; labels is how many labels were added less how many were taken away. */
struct value {
    uint64_t magnitude;
    int negative;
    int labels;
};

/* Where labels are known. find gives a label's address, and reach a base register (0 for none) and the displacement for an
   address; both return 0, or -1 where there is none. */
struct labels {
    int (*find)(void *book, const char *name, size_t length, uint64_t *address);
    int (*reach)(void *book, uint64_t address, unsigned *base, unsigned *displacement);
    void *book;
};

/* The place after the blanks. */
const char *skip_blanks(const char *at);

/* How many characters of a name stand there: letters, digits, _ @ $ and the dot, not starting with a digit; 0 if none. */
size_t name_length(const char *at);

/* Whether a name of this length is the word, capital letters or not. */
int same_name(const char *name, size_t length, const char *word);

/* Reads an expression and moves past it. labels may be NULL: then there are none. Returns 0, or -1 with a message. */
int parse_expression(const char **at, const struct labels *labels, struct value *v, struct message *m);

/* Reads one number of at most `most`, and moves past it and the blanks after it; what says what it is. Returns 0, or -1 with a
   message. */
int parse_count(const char **at, const char *what, uint64_t most, uint64_t *count, struct message *m);

/* The same for an address. */
int parse_address(const char **at, const char *what, uint64_t most, uint64_t *address, struct message *m);

/* Reads an expression that is an address; a number that is all of it is read as one. */
int parse_address_expression(const char **at, const struct labels *labels, struct value *v, struct message *m);

/* The number as `bits` bits, two's complement if it is negative. Returns 0, or -1 with a message if it does not fit. */
int value_in_bits(const struct value *v, unsigned bits, uint64_t *number, struct message *m);

/* Returns 0 if nothing but blanks is left, else -1 with a message. */
int nothing_left(const char *at, struct message *m);

#endif
