#include "case_file.h"

#include <errno.h>
#include <fcntl.h>
#include <stdio.h>
#include <string.h>
#include <unistd.h>

#include "plain_text.h"

#define LENGTH_BYTES 4      /* of the length field itself, which it does not count */

/* Where each part of the file starts. */
#define AT_VERSION 4
#define AT_DESIGNATION 5
#define AT_CLOCK 9
#define AT_TIME 17
#define AT_BUDGET 21
#define AT_RECORD 23
#define LEAST_LENGTH 224    /* the keys start here, or with the larger record eight bytes further */

/* ---- parts and bytes ---- */

/* Where the frame count stands, behind a record, and where the keys start. */
static size_t count_place(const uint8_t *record)
{
    return AT_RECORD + record_bytes(record);
}

static size_t keys_place(const uint8_t *record)
{
    return count_place(record) + 1;
}

static size_t whole_length(const uint8_t *record, unsigned frames)
{
    return keys_place(record) + (size_t)frames * (1 + FRAME_BYTES);
}

/* The one of two messages that fits the record's size. */
static const char *by_size(const uint8_t *record, const char *smaller, const char *larger)
{
    return record_bytes(record) == RECORD_BYTES ? smaller : larger;
}

/* What is wrong with the frame count, or with the length by it; NULL if nothing is. */
static const char *malformed_count(const uint8_t *bytes, size_t length)
{
    const uint8_t *record = bytes + AT_RECORD;
    unsigned frames = bytes[count_place(record)];

    if (frames < 1 || frames > MOST_FRAMES)
        return by_size(record, "the frame count in byte 223 is not 1 to 8",
                       "the frame count in byte 231, behind a record of 208 bytes, is not 1 to 8");
    if (length != whole_length(record, frames))
        return by_size(record, "the length in bytes 0-3 is not 220 and 4097 for each frame of the count in byte 223",
                       "the length in bytes 0-3 is not 228 and 4097 for each frame of the count in byte 231, behind a record "
                       "of 208 bytes");
    return NULL;
}

/* What is wrong with the head of the file, its length or its count; NULL if nothing is. */
static const char *malformed(const uint8_t *bytes, size_t length)
{
    if (length < LEAST_LENGTH)
        return "the file is cut short: the numbers, the record and the frame count take 224 bytes";
    if (length < keys_place(bytes + AT_RECORD))
        return "the file is cut short: the numbers, a record of 208 bytes and the frame count take 232 bytes";
    if (get_number(bytes, LENGTH_BYTES) != length - LENGTH_BYTES)
        return "the length in bytes 0-3 is not the number of bytes that follow it";
    if (bytes[AT_VERSION] != FILE_VERSION)
        return "the version in byte 4 is not 1";
    return malformed_count(bytes, length);
}

const char *parse_case_file(const uint8_t *bytes, size_t length, struct case_file *c)
{
    const char *wrong = malformed(bytes, length);
    const uint8_t *record = bytes + AT_RECORD, *keys;

    if (wrong != NULL)
        return wrong;
    keys = bytes + keys_place(record);
    memset(c, 0, sizeof *c);
    c->designation = (uint32_t)get_number(bytes + AT_DESIGNATION, 4);
    c->clock = get_number(bytes + AT_CLOCK, 8);
    c->time = (uint32_t)get_number(bytes + AT_TIME, 4);
    c->budget = (uint16_t)get_number(bytes + AT_BUDGET, 2);
    memcpy(c->record, record, record_bytes(record));
    c->frames = bytes[count_place(record)];
    memcpy(c->keys, keys, c->frames);
    memcpy(c->storage, keys + c->frames, (size_t)c->frames * FRAME_BYTES);
    return NULL;
}

size_t case_file_bytes(const struct case_file *c, uint8_t *bytes)
{
    size_t length = whole_length(c->record, c->frames);
    uint8_t *keys = bytes + keys_place(c->record);

    put_number(bytes, LENGTH_BYTES, length - LENGTH_BYTES);
    bytes[AT_VERSION] = FILE_VERSION;
    put_number(bytes + AT_DESIGNATION, 4, c->designation);
    put_number(bytes + AT_CLOCK, 8, c->clock);
    put_number(bytes + AT_TIME, 4, c->time);
    put_number(bytes + AT_BUDGET, 2, c->budget);
    memcpy(bytes + AT_RECORD, c->record, record_bytes(c->record));
    bytes[count_place(c->record)] = (uint8_t)c->frames;
    memcpy(keys, c->keys, c->frames);
    memcpy(keys + c->frames, c->storage, (size_t)c->frames * FRAME_BYTES);
    return length;
}

/* ---- reading ---- */

/* Reads until the end of the file or until room bytes are there. Returns how many, or -1 with errno set. */
static ssize_t read_up_to(int file, uint8_t *bytes, size_t room)
{
    size_t length = 0;

    while (length < room) {
        ssize_t got = read(file, bytes + length, room - length);

        if (got == 0)
            break;
        if (got > 0)
            length += (size_t)got;
        else if (errno != EINTR)
            return -1;
    }
    return (ssize_t)length;
}

const char *shown_name(const char *name)
{
    return strcmp(name, "-") == 0 ? "standard input" : name;
}

static enum read_result read_failed(const char *name, char *message, size_t room)
{
    snprintf(message, room, "%s: cannot be read: %s", shown_name(name), strerror(errno));
    return READ_FAILED;
}

enum read_result read_case_file(const char *name, struct case_file *c, char *message, size_t room)
{
    uint8_t bytes[MOST_FILE_BYTES + 1];
    int from_input = strcmp(name, "-") == 0;
    int file = from_input ? STDIN_FILENO : open(name, O_RDONLY);
    const char *wrong;
    ssize_t length;

    if (file < 0)
        return read_failed(name, message, room);
    length = read_up_to(file, bytes, sizeof bytes);
    if (length < 0)
        read_failed(name, message, room);
    if (!from_input)
        close(file);
    if (length < 0)
        return READ_FAILED;
    if (is_plain_text(bytes, (size_t)length))
        wrong = "this is a text: use drevokas make";
    else if (length > MOST_FILE_BYTES)
        wrong = "the file is over 33008 bytes, the most that eight frames take";
    else
        wrong = parse_case_file(bytes, (size_t)length, c);
    if (wrong == NULL)
        return READ_GOOD;
    snprintf(message, room, "%s: not a case file: %s", shown_name(name), wrong);
    return READ_MALFORMED;
}
