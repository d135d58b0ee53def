/*
 * A case file of document 01: the numbers, a record, up to eight frames and their keys. Reading tests everything that document
 * 01 calls malformed and tells what is wrong.
 */
#ifndef CASE_FILE_H
#define CASE_FILE_H

#include <stddef.h>
#include <stdint.h>

#include "fields.h"

#define FRAME_BYTES 4096
#define MOST_FRAMES 8
#define MOST_FILE_BYTES 33008
#define FILE_VERSION 1

struct case_file {
    uint32_t designation;
    uint64_t clock;
    uint32_t time;
    uint16_t budget;
    uint8_t record[MOST_RECORD_BYTES];  /* zeros behind one of 200 bytes */
    unsigned frames;
    uint8_t keys[MOST_FRAMES];
    uint8_t storage[MOST_FRAMES * FRAME_BYTES];
};

enum read_result {
    READ_GOOD,
    READ_MALFORMED,     /* the file is there, and is not a case file: refusal 9 */
    READ_FAILED         /* the file cannot be opened or read */
};

/* The name of an input as messages have it: "-" is standard input. */
const char *shown_name(const char *name);

/* Reads a case file; "-" is standard input. On another result than READ_GOOD, message (of room bytes) says why. */
enum read_result read_case_file(const char *name, struct case_file *c, char *message, size_t room);

/* The bytes of a case file, at most MOST_FILE_BYTES. Returns how many. */
size_t case_file_bytes(const struct case_file *c, uint8_t *bytes);

/* Takes bytes apart as a case file; NULL if they are one, else what is wrong with them. */
const char *parse_case_file(const uint8_t *bytes, size_t length, struct case_file *c);

#endif
