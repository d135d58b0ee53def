/* A record, storage and keys to call the library with. Each stands at an odd address, and ends where its own block of
   memory ends, so that a memory checker sees a read past it. */
#ifndef MACHINE_H
#define MACHINE_H

#include <stdint.h>
#include <stdio.h>
#include <stdlib.h>
#include <string.h>

#include "../../include/drevokas.h"
#include "expect.h"
#include "fields.h"

struct bytes {
    uint8_t *block, *copy, *at;
    size_t len;
};

struct machine {
    struct bytes record, storage, keys;
    uint32_t designation;
};

static inline uint8_t *block_of(size_t len)
{
    uint8_t *block = calloc(1, len);

    if (block == NULL) {
        puts("no memory for a test");
        exit(2);
    }
    return block;
}

/* Bytes of value zero, with room for a copy of them. */
static inline struct bytes zeros(size_t len)
{
    struct bytes b;

    b.block = block_of(1 + len);
    b.copy = block_of(1 + len);
    b.at = b.block + 1;
    b.len = len;
    return b;
}

static inline void release(struct bytes *b)
{
    free(b->block);
    free(b->copy);
}

/* Another length, the bytes kept as far as they fit, the others zero. */
static inline void resize(struct bytes *b, size_t len)
{
    struct bytes other = zeros(len);

    memcpy(other.at, b->at, len < b->len ? len : b->len);
    release(b);
    *b = other;
}

static inline void remember(struct bytes *b)
{
    memcpy(b->copy, b->at, b->len);
}

static inline int unchanged(const struct bytes *b)
{
    return memcmp(b->copy, b->at, b->len) == 0;
}

/* A record whose entry is good: origin 0, extent 1, prefix 0, DAT off, key 0, 31-bit addresses. */
static inline struct machine machine_of(size_t frames)
{
    struct machine m;

    m.record = zeros(DREVOKAS_RECORD_LENGTH);
    m.storage = zeros(frames * DREVOKAS_FRAME_BYTES);
    m.keys = zeros(frames);
    m.designation = 0x1000;
    put16(m.record.at + AT_LENGTH, DREVOKAS_RECORD_LENGTH);
    m.record.at[AT_VERSION] = DREVOKAS_RECORD_VERSION;
    m.record.at[AT_MODE] = MODE_XA;
    put16(m.record.at + AT_EXTENT, 1);
    put32(m.record.at + AT_PSW + 4, PSW_31);
    return m;
}

/* Makes the record one of version 2, its last eight bytes zero. */
static inline void lengthen(struct machine *m)
{
    resize(&m->record, DREVOKAS_LONG_RECORD_LENGTH);
    put16(m->record.at + AT_LENGTH, DREVOKAS_LONG_RECORD_LENGTH);
    m->record.at[AT_VERSION] = DREVOKAS_LONG_RECORD_VERSION;
}

static inline void discard(struct machine *m)
{
    release(&m->record);
    release(&m->storage);
    release(&m->keys);
}

/* The table that a failure names, and the address of its entry; UNREAD where that was not read. */
struct table {
    uint32_t stage, entry;
};

#define UNREAD 0
#define NO_TABLE ((struct table){0, 0})
#define GUEST_SEGMENT(at) ((struct table){1, at})
#define GUEST_PAGE(at) ((struct table){2, at})
#define HOST_SEGMENT(at) ((struct table){3, at})
#define HOST_PAGE(at) ((struct table){4, at})

static inline uint64_t answer_of(uint32_t kind, uint32_t number)
{
    return (uint64_t)kind << 56 | (uint64_t)number << 48;
}

/* An answer that names a table, and *where beside it. */

static inline uint64_t answer_in(uint32_t kind, uint32_t number, struct table t)
{
    return answer_of(kind, number) | (uint64_t)t.stage << 40;
}

static inline uint64_t where_in(uint32_t address, struct table t)
{
    return (uint64_t)t.entry << 32 | address;
}

static inline void expect_check_at(const char *file, int line, struct machine *m, uint64_t expected)
{
    uint64_t answer;
    char what[100];

    remember(&m->record);
    answer = drevokas_check(m->record.at, m->record.len);
    sprintf(what, "check: %016llx, not %016llx", (unsigned long long)answer, (unsigned long long)expected);
    expect_at(file, line, answer == expected, what);
    expect_at(file, line, unchanged(&m->record), "check leaves the record");
}

/* What *where holds before a call. */
#define UNTOUCHED 0xfedcba9876543210u

static inline void expect_translate_once(const char *file, int line, struct machine *m, uint32_t access,
                                         uint32_t address, uint64_t expected, uint64_t expected_where)
{
    uint64_t answer, where = UNTOUCHED;
    char what[200];

    remember(&m->record);
    remember(&m->storage);
    remember(&m->keys);
    answer = drevokas_translate(m->record.at, m->record.len, m->storage.at, m->storage.len, m->keys.at, m->keys.len,
                                m->designation, address, access, &where);
    sprintf(what, "translate %08lx kind %lu: %016llx at %llx, not %016llx at %llx", (unsigned long)address,
            (unsigned long)access, (unsigned long long)answer, (unsigned long long)where,
            (unsigned long long)expected, (unsigned long long)expected_where);
    expect_at(file, line, answer == expected && where == expected_where, what);
    expect_at(file, line, unchanged(&m->record), "translate leaves the record");
    expect_at(file, line, unchanged(&m->storage), "translate leaves the storage");
    expect_at(file, line, unchanged(&m->keys), "translate leaves the keys");
}

/* What is expected of an operand fetch is expected of an instruction fetch too. */
static inline void expect_translate_at(const char *file, int line, struct machine *m, uint32_t access,
                                       uint32_t address, uint64_t expected, uint64_t expected_where)
{
    expect_translate_once(file, line, m, access, address, expected, expected_where);
    if (access == DREVOKAS_OPERAND_FETCH)
        expect_translate_once(file, line, m, DREVOKAS_INSTRUCTION_FETCH, address, expected, expected_where);
}

static inline void expect_failure_at(const char *file, int line, struct machine *m, uint32_t access, uint32_t address,
                                     uint32_t kind, uint32_t code, uint32_t host, struct table t)
{
    expect_translate_at(file, line, m, access, address, answer_in(kind, code, t), where_in(host, t));
}

#define CHECKS_GOOD(m) expect_check_at(__FILE__, __LINE__, m, answer_of(DREVOKAS_GOOD, 0))
#define CHECKS_INVALID(m) \
    expect_check_at(__FILE__, __LINE__, m, answer_of(DREVOKAS_INTERCEPTED, DREVOKAS_CODE_VALIDITY))
#define CHECK_REFUSED(m, number) expect_check_at(__FILE__, __LINE__, m, answer_of(DREVOKAS_REFUSED, number))

#define REACHES(m, access, address, host) \
    expect_translate_at(__FILE__, __LINE__, m, access, address, answer_of(DREVOKAS_GOOD, 0), host)
#define EXCEPTION_IN(m, access, address, code, table) \
    expect_failure_at(__FILE__, __LINE__, m, access, address, DREVOKAS_PROGRAM_EXCEPTION, code, 0, table)
#define FAULTS_IN(m, access, address, code, host, table) \
    expect_failure_at(__FILE__, __LINE__, m, access, address, DREVOKAS_HOST_FAULT, code, host, table)
/* Failures that no table is to blame for. */
#define EXCEPTION(m, access, address, code) EXCEPTION_IN(m, access, address, code, NO_TABLE)
#define FAULTS(m, access, address, code, host) FAULTS_IN(m, access, address, code, host, NO_TABLE)
#define INVALID(m, access, address) \
    expect_translate_at(__FILE__, __LINE__, m, access, address, \
                        answer_of(DREVOKAS_INTERCEPTED, DREVOKAS_CODE_VALIDITY), 0)
#define REFUSED(m, access, address, number) \
    expect_translate_at(__FILE__, __LINE__, m, access, address, answer_of(DREVOKAS_REFUSED, number), UNTOUCHED)

#endif
