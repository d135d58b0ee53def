/* Puts cases to the library and to the plain C versions, and compares answers. */
#ifndef COMPARE_H
#define COMPARE_H

#include <stdio.h>

#include "../../bench/plain.h"
#include "cases.h"

#define TALLY_KINDS 6
#define TALLY_NUMBERS 64
#define TALLY_STAGES 5

/* The records that are told apart: of any other length than 208; of 208 bytes, and not mode 01; mode 01 by the PSW's form. */
enum { RECORD_SHORT, RECORD_LONG, RECORD_BC, RECORD_EC, RECORD_SORTS };

/* Request 1/12, by what a case hands in. */
enum {
    FIELD_208_OF_200,
    FIELD_200_OF_208,
    VERSION_2_OF_200,
    VERSION_1_OF_208,
    ZERO_BYTES_USED,
    RESIDUE_TOO_LARGE,
    MODE_01_OF_200,
    PREFIX_IN_MODE_01,
    PREFIX_IN_MODE_10,
    DAT_IN_EC,
    BIT_5_IN_BC,
    BIT_32_IN_MODE_01,
    RULES
};

/* How often each answer of translate was given, by the sort of record; but for refusals, by its stage and whether the entry's
   address is other than zero; and how often each rule of `rules` gave its answer. */
struct tally {
    unsigned long count[RECORD_SORTS][TALLY_KINDS][TALLY_NUMBERS];
    unsigned long named[TALLY_KINDS][TALLY_NUMBERS][TALLY_STAGES][2];
    unsigned long ruled[RULES];
};

struct compared {
    uint64_t answer, where;
};

typedef uint64_t translate_function(const uint8_t *, size_t, const uint8_t *, size_t, const uint8_t *, size_t,
                                    uint32_t, uint32_t, uint32_t, uint64_t *);

static inline struct compared ask(translate_function *translate, const struct guest_case *c, uint64_t where)
{
    struct compared r;

    r.where = where;
    r.answer = translate(c->record, c->record_len, c->storage, c->storage_len, c->keys, c->keys_len, c->designation,
                         c->address, c->access, &r.where);
    return r;
}

/* ---- tallies ---- */

static inline int sort_of(const struct guest_case *c)
{
    if (c->record_len != DREVOKAS_LONG_RECORD_LENGTH)
        return RECORD_SHORT;
    if ((c->record[AT_MODE] & (MODE_370 | MODE_XA)) != MODE_370)
        return RECORD_LONG;
    return get32(c->record + AT_PSW) & PSW_BASE ? RECORD_EC : RECORD_BC;
}

/* Whether a case's record has this length, in bytes and in its field, and this version. */
static inline int sized_as(const struct guest_case *c, size_t len, uint32_t field, uint32_t version)
{
    return c->record_len == len && get32(c->record) >> 8 == (field << 8 | version);
}

static inline int case_bit(const struct guest_case *c, size_t at, int bit)
{
    return (get32(c->record + at) & BIT(bit)) != 0;
}

static inline int large_prefix(const struct guest_case *c)
{
    return (get32(c->record + AT_PREFIX) & 0x7f000000u) != 0;
}

/* The answer that each of the rules gives. */
static const struct {
    const char *name;
    uint32_t kind, number;
} rules[RULES] = {
    {"length field 208 of 200 bytes", DREVOKAS_REFUSED, 1},
    {"length field 200 of 208 bytes", DREVOKAS_REFUSED, 1},
    {"version 2 of 200 bytes", DREVOKAS_REFUSED, 2},
    {"version 1 of 208 bytes", DREVOKAS_REFUSED, 2},
    {"bytes 201-203 not zero", DREVOKAS_REFUSED, 7},
    {"residue 40960000 or more", DREVOKAS_REFUSED, 7},
    {"mode 01 in 200 bytes", DREVOKAS_INTERCEPTED, 32},
    {"mode 01, prefix bits 1-7", DREVOKAS_INTERCEPTED, 32},
    {"mode 10, prefix bits 1-7", DREVOKAS_GOOD, 0},
    {"EC, DAT on", DREVOKAS_INTERCEPTED, 32},
    {"BC, bit 5 one", DREVOKAS_GOOD, 0},
    {"mode 01, 31-bit address", DREVOKAS_GOOD, 0},
};

static inline int rule_applies(const struct guest_case *c, int rule)
{
    int sort = sort_of(c), system370 = sort == RECORD_BC || sort == RECORD_EC;

    switch (rule) {
    case FIELD_208_OF_200:
        return sized_as(c, 200, 208, 1) || sized_as(c, 200, 208, 2);
    case FIELD_200_OF_208:
        return sized_as(c, 208, 200, 1) || sized_as(c, 208, 200, 2);
    case VERSION_2_OF_200:
        return sized_as(c, 200, 200, 2);
    case VERSION_1_OF_208:
        return sized_as(c, 208, 208, 1);
    case ZERO_BYTES_USED:
        return sized_as(c, 208, 208, 2) && (get32(c->record + AT_INTERVAL) & 0xffffff) != 0;
    case RESIDUE_TOO_LARGE:
        return sized_as(c, 208, 208, 2) && get32(c->record + AT_RESIDUE) >= INTERVAL_PERIOD;
    case MODE_01_OF_200:
        return sized_as(c, 200, 200, 1) && (c->record[AT_MODE] & 0x0e) == MODE_370;
    case PREFIX_IN_MODE_01:
        return system370 && large_prefix(c) && get32(c->record + AT_ORIGIN) == 32768;
    case PREFIX_IN_MODE_10:
        return sort == RECORD_LONG && large_prefix(c);
    case DAT_IN_EC:
        return sort == RECORD_EC && case_bit(c, AT_PSW, 5) && drevokas_kind(plain_check(c->record, 208)) == DREVOKAS_GOOD;
    case BIT_5_IN_BC:
        return sort == RECORD_BC && case_bit(c, AT_PSW, 5);
    default: /* BIT_32_IN_MODE_01 */
        return system370 && case_bit(c, AT_PSW + 4, 0) && (c->address & 0x7f000000u) != 0;
    }
}

static inline void count_answer(struct tally *t, const struct guest_case *c, struct compared r)
{
    uint32_t kind = drevokas_kind(r.answer), number = drevokas_number(r.answer), stage = drevokas_stage(r.answer);
    int rule;

    if (kind < TALLY_KINDS && number < TALLY_NUMBERS && stage < TALLY_STAGES) {
        t->count[sort_of(c)][kind][number]++;
        if (kind != DREVOKAS_REFUSED)
            t->named[kind][number][stage][drevokas_entry(r.where) != 0]++;
    }
    for (rule = 0; rule < RULES; rule++)
        if (kind == rules[rule].kind && number == rules[rule].number && rule_applies(c, rule))
            t->ruled[rule]++;
}

/* ---- comparing ---- */

static inline void print_answer(const char *who, struct compared r)
{
    printf("  %s: %016llx, where %016llx\n", who, (unsigned long long)r.answer, (unsigned long long)r.where);
}

static inline void print_case(const struct guest_case *c)
{
    uint32_t i;

    printf("  lengths %lu, %lu, %lu; designation %08lx, address %08lx, access %lu\n  record ",
           (unsigned long)c->record_len, (unsigned long)c->storage_len, (unsigned long)c->keys_len,
           (unsigned long)c->designation, (unsigned long)c->address, (unsigned long)c->access);
    for (i = 0; i < DREVOKAS_LONG_RECORD_LENGTH; i++)
        printf("%02x", c->record[i]);
    printf("\n  storage, zero but for");
    for (i = 0; i < c->word_count; i++)
        printf(" %lx: %08lx", (unsigned long)c->words[i], (unsigned long)get32(c->storage + c->words[i]));
    printf("\n  keys of frames 0-17 ");
    for (i = 0; i < 18; i++)
        printf("%02x", c->keys[i]);
    printf("\n");
}

static inline int same_check(const struct guest_case *c)
{
    uint64_t ours = drevokas_check(c->record, c->record_len), plain = plain_check(c->record, c->record_len);

    if (ours != plain)
        printf("  check: %016llx, plain %016llx\n", (unsigned long long)ours, (unsigned long long)plain);
    return ours == plain;
}

/* Whether both give the same, *where included, from whatever stood there. */
static inline int same_translate(struct guest_case *c, struct tally *t)
{
    uint64_t before = case_random(c);
    struct compared ours = ask(drevokas_translate, c, before), plain = ask(plain_translate, c, before);

    if (ours.answer != plain.answer || ours.where != plain.where) {
        print_answer("drevokas", ours);
        print_answer("plain", plain);
        return 0;
    }
    count_answer(t, c, ours);
    return 1;
}

/* Whether both give the same in so many cases; prints the first case where they do not. */
static inline int compare_cases(uint64_t seed, unsigned long count, struct tally *t)
{
    static struct guest_case c;
    unsigned long i;
    int same = 1;

    memset(t, 0, sizeof *t);
    open_cases(&c, seed);
    if (c.storage == NULL) {
        printf("no memory for the cases\n");
        return 0;
    }
    for (i = 0; i < count && same; i++) {
        next_case(&c);
        same = same_translate(&c, t) & same_check(&c);
        if (!same) {
            printf("different in case %lu of seed %llu\n", i, (unsigned long long)seed);
            print_case(&c);
        }
    }
    close_cases(&c);
    return same;
}

#endif
