/* Timers and registers. */
#include <stdio.h>

#include "explain.h"
#include "interval.h"
#include "psw.h"
#include "words.h"

#define TIMER_WORDS 38      /* column from which the words on a timer stand */

/* ---- timers ---- */

/* A time, whether its external interruption is due, and whether the guest is enabled for it. */
static void print_due(const struct case_file *c, const char *time, int due, unsigned mask_bit)
{
    int psw_open = psw_bits(field_of(c->record, "psw"), 7, 7) != 0;
    int mask_open = (field_of(c->record, "cr0") & 0x80000000u >> mask_bit) != 0;

    if (!due)
        print_from(TIMER_WORDS, "%s: not due", time);
    else if (!psw_open)
        print_from(TIMER_WORDS, "%s: due, but disabled by PSW bit 7", time);
    else if (!mask_open)
        print_from(TIMER_WORDS, "%s: due, but disabled by CR0 bit %u", time, mask_bit);
    else
        print_from(TIMER_WORDS, "%s: due, and enabled by PSW bit 7 and CR0 bit %u: code 20", time, mask_bit);
}

/* The word at real 80, and whether a fall would find it. Its place is known where entry is good. */
static void print_interval_word(const struct case_file *c)
{
    struct interval_place i = interval_place(c);
    char hex[16] = "", time[SENTENCE], fault[SENTENCE] = "";

    interval_words(i.word, time, sizeof time);
    if (i.is_there)
        snprintf(hex, sizeof hex, "%08lx", (unsigned long)i.word);
    printf("%-16s  ", hex);
    if (i.code != 0)
        snprintf(fault, sizeof fault, "host fault %02x hex, %s, at %08lx", i.code, program_words(i.code),
                 (unsigned long)i.host);
    if (!i.is_there)
        print_from(TIMER_WORDS, "the word at real %08x is not backed: its next fall is %s", INTERVAL_REAL, fault);
    else if (i.code != 0)
        print_from(TIMER_WORDS, "%s, the word at real %08x; its next fall is %s", time, INTERVAL_REAL, fault);
    else
        print_from(TIMER_WORDS, "%s, the word at real %08x", time, INTERVAL_REAL);
}

/* The residue, in thirds of a clock unit, of which 1/300 second has as many as INTERVAL_PERIOD. */
static void print_residue(const struct case_file *c)
{
    unsigned long residue = (unsigned long)field_of(c->record, "residue");

    printf("  residue           %-16lu  ", residue);
    if (residue >= INTERVAL_PERIOD)
        print_from(TIMER_WORDS, "thirds of a clock unit, and must be below %u (R 7)", INTERVAL_PERIOD);
    else
        print_from(TIMER_WORDS, "thirds of a clock unit; at %u the word falls by 256", INTERVAL_PERIOD);
}

/* The interval timer of a System/370 guest. */
static void explain_interval(const struct case_file *c)
{
    char text[SENTENCE];

    printf("  interval timer    ");
    if (!interval_active(c->record)) {
        printf("%-16s  ", "");
        print_from(TIMER_WORDS, "inactive (mode bit 7 is one): word, residue and T are not used");
        return;
    }
    if (entry_sentence(c->record, text, sizeof text)) {
        printf("%-16s  ", "");
        print_from(TIMER_WORDS, "the word at real %08x has no place, since there is no entry", INTERVAL_REAL);
    } else
        print_interval_word(c);
    print_residue(c);
    if (interval_requested(c->record)) {
        printf("  T                 1                 ");
        print_due(c, "interruption requested", 1, 24);
    } else
        printf("  T                 0                 no interruption requested\n");
}

void explain_timers(const struct case_file *c)
{
    uint64_t timer = field_of(c->record, "timer"), comparator = field_of(c->record, "comparator");
    uint64_t clock = c->clock + field_of(c->record, "epoch");
    char time[SENTENCE];

    printf("\nTimers, in hex and in microseconds\n");
    signed_microseconds(timer, time, sizeof time);
    printf("  CPU timer         %016llx  ", (unsigned long long)timer);
    print_due(c, time, timer >> 63 != 0, 21);
    microseconds(0, clock, time, sizeof time);
    printf("  guest clock       %016llx  ", (unsigned long long)clock);
    print_from(TIMER_WORDS, "%s: host clock plus epoch difference", time);
    microseconds(0, comparator, time, sizeof time);
    printf("  clock comparator  %016llx  ", (unsigned long long)comparator);
    print_due(c, time, clock > comparator, 20);
    if (is_system370(c->record))
        explain_interval(c);
}

/* ---- registers ---- */

static void print_four(const struct case_file *c, const char *kind, unsigned first)
{
    char label[32];
    unsigned i;

    snprintf(label, sizeof label, "%s%u-%u", kind, first, first + 3);
    printf("  %-7s", label);
    for (i = first; i < first + 4; i++) {
        char name[16];

        snprintf(name, sizeof name, "%s%u", kind, i);
        printf("  %08lx", (unsigned long)field_of(c->record, name));
    }
    putchar('\n');
}

static void print_sixteen(const struct case_file *c, const char *kind)
{
    unsigned i;

    for (i = 0; i < 16; i += 4)
        print_four(c, kind, i);
}

static void print_format(unsigned long cr0)
{
    unsigned format = (unsigned)(cr0 >> 19 & 31), i;

    printf("  cr0 bits 8-12  ");
    for (i = 0; i < 5; i++)
        putchar(format & 16u >> i ? '1' : '0');
    printf("  translation format: %s\n", format == 0x16 ? "as DAT needs it" : "must be 10110 for DAT");
}

static void print_bit(unsigned long cr0, unsigned bit, const char *name, const char *zero, const char *one)
{
    int set = (cr0 & 0x80000000u >> bit) != 0;

    printf("  cr0 bit %-2u     %d      %s %s\n", bit, set, name, set ? one : zero);
}

void explain_registers(const struct case_file *c)
{
    unsigned long cr0 = (unsigned long)field_of(c->record, "cr0"), cr1 = (unsigned long)field_of(c->record, "cr1");
    int system370 = is_system370(c->record);

    printf("\nControl registers\n");
    print_sixteen(c, "cr");
    print_bit(cr0, 3, "low-address protection", "off", "on");
    if (!system370)
        print_format(cr0);
    print_bit(cr0, 20, "clock comparator interruption", "disabled", "enabled");
    print_bit(cr0, 21, "CPU timer interruption", "disabled", "enabled");
    if (system370)
        print_bit(cr0, 24, "interval timer interruption", "disabled", "enabled");
    else
        printf("  cr1                   guest segment table at real %08lx, length %lu: %lu segments of 1 MiB\n",
               cr1 & 0x7ffff000, cr1 & 0x7f, ((cr1 & 0x7f) + 1) * 16);
    printf("\nGeneral registers\n");
    print_sixteen(c, "gr");
}
