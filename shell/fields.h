/* The fields of a record by name, its size and its system. */
#ifndef FIELDS_H
#define FIELDS_H

#include <stdint.h>

struct field {
    const char *name;       /* length, version, interventions, mode, interceptions, lctl, prefix, origin, extent, psw, timer,
                               comparator, epoch, svc, svc1, svc2, svc3, code, ilc, interruption, address, text, reserved,
                               cr0-cr15, gr0-gr15; of the larger record also request, reserved2, residue */
    unsigned at;            /* first byte */
    unsigned bytes;         /* 1 to 8 */
    const char *meaning;    /* as in document 01 */
};

extern const struct field record_fields[];
extern const unsigned record_field_count;

/* The bytes of a record, by its length field: 208 if that is 208, else 200. */
#define RECORD_BYTES 200u
#define MOST_RECORD_BYTES 208u
unsigned record_bytes(const uint8_t *record);

#define REGISTERS 16u       /* general ones, and control registers */

/* Whether the guest is one of System/370: mode bits 4-5 are 01, in a record of 208 bytes. */
int is_system370(const uint8_t *record);

/* Whether the record has this field: all but the last three are in both sizes. */
int has_field(const uint8_t *record, const struct field *f);

/* The field of this name, or NULL. */
const struct field *find_field(const char *name);

/* A field's number, big-endian. */
uint64_t get_field(const uint8_t *record, const struct field *f);

/* The number of the field of this name. */
uint64_t field_of(const uint8_t *record, const char *name);

/* Sets a field; returns 0, or -1 if the number does not fit, and then nothing is changed. */
int put_field(uint8_t *record, const struct field *f, uint64_t value);

/* Big-endian numbers of 1 to 8 bytes. */
uint64_t get_number(const uint8_t *at, unsigned bytes);
void put_number(uint8_t *at, unsigned bytes, uint64_t value);

#endif
