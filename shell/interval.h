/* The interval timer of a System/370 guest: the word at guest real 80, T and the residue. */
#ifndef INTERVAL_H
#define INTERVAL_H

#include "case_file.h"

#define INTERVAL_REAL 80u           /* where the word stands, */
#define INTERVAL_FALL 256u          /* by how much it falls, */
#define INTERVAL_PERIOD 40960000u   /* and after how many thirds of a clock unit: those of 1/300 second */

/* Whether the timer is active: mode bit 7 of a System/370 guest is zero. */
int interval_active(const uint8_t *record);

/* T: whether its external interruption is requested. */
int interval_requested(const uint8_t *record);

/* Where the word stands. Entry must be good. */
struct interval_place {
    unsigned code;      /* 0, or the program code of the host fault in which a fall ends */
    uint32_t host;      /* host virtual address */
    int is_there;       /* in storage, but perhaps in a protected page; the host absolute address and the word then follow */
    uint32_t place, word;
};

struct interval_place interval_place(const struct case_file *c);

/* Whether the word falls in a unit that completes from here on. */
int interval_falls(const struct case_file *c);

/* A word in the manual's unit, signed: "2.5/300 second". */
void interval_words(uint32_t word, char *text, size_t room);

#endif
