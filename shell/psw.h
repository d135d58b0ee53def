/* A PSW taken apart by its form: that of 370-XA, or System/370's, whose bit 12 tells extended (EC) from basic control (BC). */
#ifndef PSW_H
#define PSW_H

#include <stdint.h>

enum psw_form { XA_PSW, EC_PSW, BC_PSW };

struct psw {
    uint64_t bits;
    int system370;
};

/* The PSW of a record. */
struct psw psw_of(const uint8_t *record);

enum psw_form psw_form(struct psw p);

/* Bits from..to of 64, as a number. */
unsigned psw_bits(uint64_t psw, unsigned from, unsigned to);

unsigned psw_condition_code(struct psw p);

/* Whether addresses are virtual: DAT is on, of 370-XA. */
int psw_dat_is_on(struct psw p);

/* The instruction address, and an address wrapped as the PSW's addresses are. */
uint32_t psw_address(struct psw p);
uint32_t psw_wrapped(struct psw p, uint32_t address);

/* The same PSW with another instruction address, wrapped. */
struct psw psw_at(struct psw p, uint32_t address);

/* Why an EC PSW with DAT on cannot be run with, and translates nothing. */
#define DAT_NOT_INSTALLED "bit 5 must be zero: DAT is not installed for System/370"

/* What keeps the guest from a unit with this PSW, by document 01's tests 2 and 3 in their order; NULL if nothing does. */
const char *psw_not_installed(struct psw p);
const char *psw_malformed(struct psw p);

#endif
