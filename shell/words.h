/* The numbers of document 01 in words. */
#ifndef WORDS_H
#define WORDS_H

#include <stddef.h>
#include <stdint.h>

#include "case_file.h"

/* Room that every sentence fits in. */
#define SENTENCE 400

/* Adds to a sentence. */
void add(char text[SENTENCE], const char *format, ...) __attribute__((format(printf, 2, 3)));

/* Program codes, of the guest's exceptions and of host faults: "addressing", "page translation". */
const char *program_words(unsigned code);

/* Whether a program exception of this code has an address, and leaves that of the PSW at the instruction. */
int is_translation(uint64_t code);

/* Interception codes: "stop request". */
const char *interception_words(unsigned code);

/* Codes of external interruptions: "CPU timer". */
const char *external_words(unsigned code);

/* The ending of a noun after this number: "1 unit", "2 units". */
const char *plural(uint64_t number);

/* The version that a record of this size has. */
unsigned right_version(const uint8_t *record);

/* What a time per unit must be, for which a run with this one is refused (R 6); empty if it is right. */
const char *wrong_time(uint32_t time);

/* Why a case file is refused with this number: what stands there, and what would be right. */
void refusal_sentence(unsigned number, const struct case_file *c, char *text, size_t room);

/* The entry test that this record fails first. Returns 0 if all pass, and then text is empty. */
int entry_sentence(const uint8_t *record, char *text, size_t room);

/* Prints the rest of a line, from this column on. What does not fit into WIDTH columns goes on in further lines. */
#define WIDTH 100
void print_from(unsigned column, const char *format, ...) __attribute__((format(printf, 2, 3)));

/* How many lines that takes for this text. */
unsigned lines_from(unsigned column, const char *text);

/* Clock units of 2^-12 microsecond as microseconds, exactly: "-0.5". */
void microseconds(int negative, uint64_t units, char *text, size_t room);

/* The same for a signed number in 64 bits, as the CPU timer is. */
void signed_microseconds(uint64_t value, char *text, size_t room);

#endif
