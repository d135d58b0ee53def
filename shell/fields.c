#include "fields.h"

#include <stddef.h>
#include <string.h>

#define CONTROL(n) {"cr" #n, 72 + 4 * n, 4, "control register " #n}
#define GENERAL(n) {"gr" #n, 136 + 4 * n, 4, "general register " #n}

const struct field record_fields[] = {
    {"length", 0, 2, "length of the record, 200 or 208"},
    {"version", 2, 1, "version of the record, 1 or 2"},
    {"interventions", 3, 1, "intervention requests"},
    {"mode", 4, 1, "mode"},
    {"interceptions", 5, 1, "interception controls"},
    {"lctl", 6, 2, "LCTL controls"},
    {"prefix", 8, 4, "prefix"},
    {"origin", 12, 2, "origin in blocks of 64 KiB"},
    {"extent", 14, 2, "extent in blocks of 64 KiB"},
    {"psw", 16, 8, "PSW"},
    {"timer", 24, 8, "CPU timer"},
    {"comparator", 32, 8, "clock comparator"},
    {"epoch", 40, 8, "epoch difference"},
    {"svc", 48, 1, "SVC flags"},
    {"svc1", 49, 1, "first SVC number"},
    {"svc2", 50, 1, "second SVC number"},
    {"svc3", 51, 1, "third SVC number"},
    {"code", 52, 1, "result: interception code"},
    {"ilc", 53, 1, "result: instruction-length code"},
    {"interruption", 54, 2, "result: interruption code"},
    {"address", 56, 4, "result: address"},
    {"text", 60, 6, "result: instruction text"},
    {"reserved", 66, 6, "zero"},
    CONTROL(0),
    CONTROL(1),
    CONTROL(2),
    CONTROL(3),
    CONTROL(4),
    CONTROL(5),
    CONTROL(6),
    CONTROL(7),
    CONTROL(8),
    CONTROL(9),
    CONTROL(10),
    CONTROL(11),
    CONTROL(12),
    CONTROL(13),
    CONTROL(14),
    CONTROL(15),
    GENERAL(0),
    GENERAL(1),
    GENERAL(2),
    GENERAL(3),
    GENERAL(4),
    GENERAL(5),
    GENERAL(6),
    GENERAL(7),
    GENERAL(8),
    GENERAL(9),
    GENERAL(10),
    GENERAL(11),
    GENERAL(12),
    GENERAL(13),
    GENERAL(14),
    GENERAL(15),
    {"request", 200, 1, "interval-timer request: bit 0 is T"},
    {"reserved2", 201, 3, "zero"},
    {"residue", 204, 4, "residue of the interval timer"},
};

const unsigned record_field_count = sizeof record_fields / sizeof *record_fields;

const struct field *find_field(const char *name)
{
    unsigned i;

    for (i = 0; i < record_field_count; i++)
        if (strcmp(record_fields[i].name, name) == 0)
            return &record_fields[i];
    return NULL;
}

uint64_t get_number(const uint8_t *at, unsigned bytes)
{
    uint64_t value = 0;
    unsigned i;

    for (i = 0; i < bytes; i++)
        value = value << 8 | at[i];
    return value;
}

void put_number(uint8_t *at, unsigned bytes, uint64_t value)
{
    unsigned i;

    for (i = bytes; i > 0; i--) {
        at[i - 1] = (uint8_t)value;
        value >>= 8;
    }
}

uint64_t get_field(const uint8_t *record, const struct field *f)
{
    return get_number(record + f->at, f->bytes);
}

uint64_t field_of(const uint8_t *record, const char *name)
{
    return get_field(record, find_field(name));
}

unsigned record_bytes(const uint8_t *record)
{
    return field_of(record, "length") == MOST_RECORD_BYTES ? MOST_RECORD_BYTES : RECORD_BYTES;
}

int is_system370(const uint8_t *record)
{
    return record_bytes(record) == MOST_RECORD_BYTES && (field_of(record, "mode") & 0x0c) == 0x04;
}

int has_field(const uint8_t *record, const struct field *f)
{
    return f->at < record_bytes(record);
}

int put_field(uint8_t *record, const struct field *f, uint64_t value)
{
    if (f->bytes < 8 && value >> (8 * f->bytes) != 0)
        return -1;
    put_number(record + f->at, f->bytes, value);
    return 0;
}
