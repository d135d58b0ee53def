#include "words.h"

#include <stdarg.h>
#include <stdio.h>
#include <string.h>

#include "../include/drevokas.h"
#include "interval.h"

#define PARAGRAPH (2 * SENTENCE)      /* room for what print_from prints at once */

struct word {
    unsigned number;
    const char *words;
};

static const struct word program_codes[] = {
    {0x01, "operation"},
    {0x02, "privileged operation"},
    {0x04, "protection"},
    {0x05, "addressing"},
    {0x06, "specification"},
    {0x08, "fixed-point overflow"},
    {0x10, "segment translation"},
    {0x11, "page translation"},
    {0x12, "translation specification"},
};

static const struct word external_codes[] = {
    {0x0080, "interval timer"},
    {0x1004, "clock comparator"},
    {0x1005, "CPU timer"},
};

static const struct word interception_codes[] = {
    {4, "instruction"},
    {8, "program exception"},
    {16, "external request"},
    {20, "external interruption"},
    {24, "I/O request"},
    {28, "wait state"},
    {32, "validity"},
    {40, "stop request"},
    {44, "operation exception"},
};

/* Refusals of which more is not known here. A case file has whole frames, a key for each, and a budget of 16 bits. */
static const struct word refusals[] = {
    {3, "the storage is empty, over 4096 frames or not whole frames"},
    {4, "the number of keys differs from the number of frames"},
    {5, "the budget is over 65535 units"},
    {8, "the access kind is not 0, 1 or 2"},
    {9, "case file malformed"},
    {10, "the page is outside the extent, or its entry is out of reach"},
    {11, "the page is already valid"},
    {12, "the page is not valid"},
    {13, "the frame is outside the storage"},
    {14, "after it an entry that describes the extent would lie in a guest frame, or the page's entry serves twice"},
    {15, "the workspace is shorter than the extent's pages"},
    {16, "the pages asked about end before they begin, or past the extent"},
};

static const char *look_up(const struct word *words, size_t count, unsigned number)
{
    size_t i;

    for (i = 0; i < count; i++)
        if (words[i].number == number)
            return words[i].words;
    return "not a code of this machine";
}

void add(char text[SENTENCE], const char *format, ...)
{
    size_t length = strlen(text);
    va_list arguments;

    va_start(arguments, format);
    vsnprintf(text + length, SENTENCE - length, format, arguments);
    va_end(arguments);
}

const char *program_words(unsigned code)
{
    return look_up(program_codes, sizeof program_codes / sizeof *program_codes, code);
}

int is_translation(uint64_t code)
{
    return code == DREVOKAS_SEGMENT_TRANSLATION || code == DREVOKAS_PAGE_TRANSLATION;
}

const char *interception_words(unsigned code)
{
    return look_up(interception_codes, sizeof interception_codes / sizeof *interception_codes, code);
}

const char *external_words(unsigned code)
{
    return look_up(external_codes, sizeof external_codes / sizeof *external_codes, code);
}

const char *plural(uint64_t number)
{
    return number == 1 ? "" : "s";
}

unsigned right_version(const uint8_t *record)
{
    return record_bytes(record) == RECORD_BYTES ? 1 : 2;
}

const char *wrong_time(uint32_t time)
{
    if (time < DREVOKAS_LEAST_TIME)
        return "must be 1 at least, so that any two values of STCK differ";
    return time > DREVOKAS_MOST_TIME ? "must be 1048576 at most" : "";
}

/* Refusal 7: bytes that must be zero, or the residue. */
static void reserved_sentence(const uint8_t *record, char *text, size_t room)
{
    if (field_of(record, "reserved") != 0)
        snprintf(text, room, "bytes 66-71 of the record are %012llx hex, and must be zero",
                 (unsigned long long)field_of(record, "reserved"));
    else if (field_of(record, "reserved2") != 0)
        snprintf(text, room, "bytes 201-203 of the record are %06lx hex, and must be zero",
                 (unsigned long)field_of(record, "reserved2"));
    else
        snprintf(text, room, "the residue is %lu, and must be below %u", (unsigned long)field_of(record, "residue"),
                 INTERVAL_PERIOD);
}

void refusal_sentence(unsigned number, const struct case_file *c, char *text, size_t room)
{
    switch (number) {
    case 1:
        snprintf(text, room, "the record's length field is %lu, and must be 200 or 208",
                 (unsigned long)field_of(c->record, "length"));
        break;
    case 2:
        snprintf(text, room, "the record's version is %lu, and must be %u with a length of %u",
                 (unsigned long)field_of(c->record, "version"), right_version(c->record), record_bytes(c->record));
        break;
    case 6:
        snprintf(text, room, "the time per unit is %lu clock units, and %s", (unsigned long)c->time, wrong_time(c->time));
        break;
    case 7:
        reserved_sentence(c->record, text, room);
        break;
    default:
        snprintf(text, room, "%s", look_up(refusals, sizeof refusals / sizeof *refusals, number));
        break;
    }
}

/* The mode, of which bits 4-5 are wrong. */
static void mode_sentence(const uint8_t *record, char *text, size_t room)
{
    unsigned mode = (unsigned)field_of(record, "mode");

    if (record_bytes(record) == MOST_RECORD_BYTES)
        snprintf(text, room, "mode is %02x hex: bits 4-5 must be 10, for 370-XA, or 01, for System/370", mode);
    else if ((mode & 0x0c) == 0x04)
        snprintf(text, room, "mode is %02x hex: bits 4-5 must be 10, for 370-XA; System/370 needs the record of 208 bytes",
                 mode);
    else
        snprintf(text, room, "mode is %02x hex: bits 4-5 must be 10, for 370-XA", mode);
}

int entry_sentence(const uint8_t *record, char *text, size_t room)
{
    unsigned mode = (unsigned)field_of(record, "mode");
    unsigned long origin = (unsigned long)field_of(record, "origin"), extent = (unsigned long)field_of(record, "extent");
    unsigned long prefix = (unsigned long)field_of(record, "prefix") & 0x7ffff000;

    text[0] = '\0';
    if ((mode & 0x0c) != 0x08 && !is_system370(record))
        mode_sentence(record, text, room);
    else if (mode & 0x02)
        snprintf(text, room, "mode is %02x hex: bit 6 must be zero, since preferred storage is not installed", mode);
    else if (origin > 32767)
        snprintf(text, room, "origin is %lu blocks, and must be 32767 at most", origin);
    else if (extent == 0)
        snprintf(text, room, "extent is 0 blocks, and must be 1 at least");
    else if (origin + extent > 32768)
        snprintf(text, room, "origin %lu and extent %lu are %lu blocks together, and must be 32768 at most", origin, extent,
                 origin + extent);
    else if (is_system370(record) && (prefix & 0x7f000000) != 0)
        snprintf(text, room, "prefix is %08lx: bits 1-7 must be zero for System/370, whose addresses have 24 bits",
                 (unsigned long)field_of(record, "prefix"));
    else if (prefix + 4096 > extent * 65536)
        snprintf(text, room, "prefix: the block at %08lx is not below the extent, which ends at %08lx", prefix,
                 extent * 65536);
    return text[0] != '\0';
}

/* The last blank up to this place that follows one of these characters, or any if they are NULL; 0 if there is none. */
static size_t last_blank(const char *text, size_t at, const char *after)
{
    while (at > 0 && (text[at] != ' ' || (after != NULL && strchr(after, text[at - 1]) == NULL)))
        at--;
    return at;
}

/* How many characters of the text go into a line of this room: all, or up to a blank, by choice one between two parts of a
   sentence. */
static size_t fitting(const char *text, size_t room)
{
    size_t length = strlen(text), part, word;

    if (length <= room)
        return length;
    part = last_blank(text, room, ",;:");
    word = last_blank(text, room, NULL);
    return part > room / 2 ? part : word > 0 ? word : room;
}

/* The rest of a text, so many characters of which stand in a line; NULL if that is all. */
static const char *rest_of(const char *text, size_t length)
{
    return text[length] == '\0' ? NULL : text + length + strspn(text + length, " ");
}

unsigned lines_from(unsigned column, const char *text)
{
    unsigned lines = 0;

    for (; text != NULL; text = rest_of(text, fitting(text, WIDTH - column)))
        lines++;
    return lines;
}

void print_from(unsigned column, const char *format, ...)
{
    char text[PARAGRAPH];
    const char *at = text, *rest;
    va_list arguments;

    va_start(arguments, format);
    vsnprintf(text, sizeof text, format, arguments);
    va_end(arguments);
    while ((rest = rest_of(at, fitting(at, WIDTH - column))) != NULL) {
        printf("%.*s\n%*s", (int)fitting(at, WIDTH - column), at, (int)column, "");
        at = rest;
    }
    puts(at);
}

void microseconds(int negative, uint64_t units, char *text, size_t room)
{
    char fraction[16];
    size_t digits = 12;     /* 2^-12 has twelve decimal places */

    snprintf(fraction, sizeof fraction, "%012llu", (unsigned long long)(units & 4095) * 244140625u);
    while (digits > 0 && fraction[digits - 1] == '0')
        digits--;
    fraction[digits] = '\0';
    snprintf(text, room, "%s%llu%s%s", negative ? "-" : "", (unsigned long long)(units >> 12), digits > 0 ? "." : "", fraction);
}

void signed_microseconds(uint64_t value, char *text, size_t room)
{
    int negative = value >> 63 != 0;

    microseconds(negative, negative ? 0 - value : value, text, room);
}
