/* Compares check and translate with the plain C versions on pseudo-random cases, and sees that every answer that
   translate can give is among them, for each sort of record, with every table that it can name, and that each rule of
   request 1/12 is.
   Usage: compare_translate [cases [seed]] */
#include "compare.h"

#define CASES 1500000
#define SEED 370

/* The answers of translate, by kind and number. */
static const struct {
    uint32_t kind, number;
    const char *name;
} answers[] = {
    {DREVOKAS_REFUSED, 1, "refused"},
    {DREVOKAS_REFUSED, 2, "refused"},
    {DREVOKAS_REFUSED, 3, "refused"},
    {DREVOKAS_REFUSED, 4, "refused"},
    {DREVOKAS_REFUSED, 7, "refused"},
    {DREVOKAS_REFUSED, 8, "refused"},
    {DREVOKAS_INTERCEPTED, 32, "intercepted"},
    {DREVOKAS_HOST_FAULT, 0x04, "host fault"},
    {DREVOKAS_HOST_FAULT, 0x05, "host fault"},
    {DREVOKAS_HOST_FAULT, 0x10, "host fault"},
    {DREVOKAS_HOST_FAULT, 0x11, "host fault"},
    {DREVOKAS_HOST_FAULT, 0x12, "host fault"},
    {DREVOKAS_PROGRAM_EXCEPTION, 0x04, "program exception"},
    {DREVOKAS_PROGRAM_EXCEPTION, 0x05, "program exception"},
    {DREVOKAS_PROGRAM_EXCEPTION, 0x10, "program exception"},
    {DREVOKAS_PROGRAM_EXCEPTION, 0x11, "program exception"},
    {DREVOKAS_PROGRAM_EXCEPTION, 0x12, "program exception"},
    {DREVOKAS_GOOD, 0, "translated"},
};

/* With DAT off, as a System/370 guest has it, there is no walk through the guest's tables. */
static int possible(int sort, uint32_t kind, uint32_t number)
{
    return kind != DREVOKAS_PROGRAM_EXCEPTION || number < 0x10 || sort == RECORD_SHORT || sort == RECORD_LONG;
}

/* Prints how often each answer was given, by the sort of record; whether all that are possible were given and no others. */
static int all_given(const struct tally *t, unsigned long cases)
{
    unsigned long total = 0;
    int all = 1, sort;
    size_t i;

    printf("%-21s %10s %10s %10s %10s\n", "", "version 1", "version 2", "BC", "EC");
    for (i = 0; i < sizeof answers / sizeof *answers; i++) {
        printf("%-17s %2lu:", answers[i].name, (unsigned long)answers[i].number);
        for (sort = 0; sort < RECORD_SORTS; sort++) {
            unsigned long count = t->count[sort][answers[i].kind][answers[i].number];

            printf(" %10lu", count);
            total += count;
            all &= (count != 0) == possible(sort, answers[i].kind, answers[i].number);
        }
        printf("\n");
    }
    return all && total == cases;
}

/* The tables that an answer can name, by kind, number and stage, and whether the entry's address is other than zero. An entry
   that was read may stand at zero, too. */
static const struct {
    uint32_t kind, number, stage;
    int other_than_zero;
} named[] = {
    {DREVOKAS_INTERCEPTED, 32, DREVOKAS_STAGE_NONE, 0},
    {DREVOKAS_HOST_FAULT, 0x04, DREVOKAS_STAGE_NONE, 0},
    {DREVOKAS_HOST_FAULT, 0x05, DREVOKAS_STAGE_HOST_SEGMENT, 0},
    {DREVOKAS_HOST_FAULT, 0x05, DREVOKAS_STAGE_HOST_PAGE, 0},
    {DREVOKAS_HOST_FAULT, 0x05, DREVOKAS_STAGE_HOST_PAGE, 1},
    {DREVOKAS_HOST_FAULT, 0x10, DREVOKAS_STAGE_HOST_SEGMENT, 0},
    {DREVOKAS_HOST_FAULT, 0x10, DREVOKAS_STAGE_HOST_SEGMENT, 1},
    {DREVOKAS_HOST_FAULT, 0x11, DREVOKAS_STAGE_HOST_PAGE, 0},
    {DREVOKAS_HOST_FAULT, 0x11, DREVOKAS_STAGE_HOST_PAGE, 1},
    {DREVOKAS_HOST_FAULT, 0x12, DREVOKAS_STAGE_HOST_SEGMENT, 0},
    {DREVOKAS_HOST_FAULT, 0x12, DREVOKAS_STAGE_HOST_SEGMENT, 1},
    {DREVOKAS_HOST_FAULT, 0x12, DREVOKAS_STAGE_HOST_PAGE, 0},
    {DREVOKAS_HOST_FAULT, 0x12, DREVOKAS_STAGE_HOST_PAGE, 1},
    {DREVOKAS_PROGRAM_EXCEPTION, 0x04, DREVOKAS_STAGE_NONE, 0},
    {DREVOKAS_PROGRAM_EXCEPTION, 0x05, DREVOKAS_STAGE_NONE, 0},
    {DREVOKAS_PROGRAM_EXCEPTION, 0x05, DREVOKAS_STAGE_GUEST_SEGMENT, 0},
    {DREVOKAS_PROGRAM_EXCEPTION, 0x05, DREVOKAS_STAGE_GUEST_PAGE, 0},
    {DREVOKAS_PROGRAM_EXCEPTION, 0x10, DREVOKAS_STAGE_GUEST_SEGMENT, 0},
    {DREVOKAS_PROGRAM_EXCEPTION, 0x10, DREVOKAS_STAGE_GUEST_SEGMENT, 1},
    {DREVOKAS_PROGRAM_EXCEPTION, 0x11, DREVOKAS_STAGE_GUEST_PAGE, 0},
    {DREVOKAS_PROGRAM_EXCEPTION, 0x11, DREVOKAS_STAGE_GUEST_PAGE, 1},
    {DREVOKAS_PROGRAM_EXCEPTION, 0x12, DREVOKAS_STAGE_NONE, 0},
    {DREVOKAS_PROGRAM_EXCEPTION, 0x12, DREVOKAS_STAGE_GUEST_SEGMENT, 0},
    {DREVOKAS_PROGRAM_EXCEPTION, 0x12, DREVOKAS_STAGE_GUEST_SEGMENT, 1},
    {DREVOKAS_PROGRAM_EXCEPTION, 0x12, DREVOKAS_STAGE_GUEST_PAGE, 0},
    {DREVOKAS_PROGRAM_EXCEPTION, 0x12, DREVOKAS_STAGE_GUEST_PAGE, 1},
    {DREVOKAS_GOOD, 0, DREVOKAS_STAGE_NONE, 0},
};

static const char *name_of(uint32_t kind)
{
    size_t i = 0;

    while (answers[i].kind != kind)
        i++;
    return answers[i].name;
}

static unsigned long answers_not_refused(const struct tally *t)
{
    unsigned long total = 0;
    int sort, kind, number;

    for (sort = 0; sort < RECORD_SORTS; sort++)
        for (kind = DREVOKAS_REFUSED + 1; kind < TALLY_KINDS; kind++)
            for (number = 0; number < TALLY_NUMBERS; number++)
                total += t->count[sort][kind][number];
    return total;
}

/* Prints how often each table was named; whether all were, and no others. */
static int all_named(const struct tally *t)
{
    static const char *const stages[] = {"no table", "guest segment", "guest page", "host segment", "host page"};
    unsigned long total = 0;
    int all = 1;
    size_t i;

    for (i = 0; i < sizeof named / sizeof *named; i++) {
        unsigned long count = t->named[named[i].kind][named[i].number][named[i].stage][named[i].other_than_zero];

        printf("%-17s %2lu: %-14s %-12s %10lu\n", name_of(named[i].kind), (unsigned long)named[i].number,
               stages[named[i].stage], named[i].other_than_zero ? "entry" : "zero", count);
        total += count;
        all &= count != 0;
    }
    return all && total == answers_not_refused(t);
}

/* Prints how often each rule gave its answer; whether all did. */
static int all_ruled(const struct tally *t)
{
    int all = 1, rule;

    for (rule = 0; rule < RULES; rule++) {
        printf("%-30s %10lu\n", rules[rule].name, t->ruled[rule]);
        all &= t->ruled[rule] != 0;
    }
    return all;
}

int main(int argc, char **argv)
{
    unsigned long cases = argc > 1 ? strtoul(argv[1], NULL, 10) : CASES;
    uint64_t seed = argc > 2 ? strtoull(argv[2], NULL, 10) : SEED;
    struct tally t;

    printf("seed %llu\n", (unsigned long long)seed);
    if (!compare_cases(seed, cases, &t))
        return 1;
    if (!all_given(&t, cases)) {
        printf("an answer is missing, or one that translate cannot give was given\n");
        return 1;
    }
    if (!all_named(&t)) {
        printf("a table was not named, or one that an answer cannot name was\n");
        return 1;
    }
    if (!all_ruled(&t)) {
        printf("a rule gave no answer\n");
        return 1;
    }
    printf("%lu cases the same\n", cases);
    return 0;
}
