#include "psw.h"

#include <stddef.h>

#include "fields.h"

#define MOST_24 0xffffffu       /* the last address of 24 bits, and of 31 */
#define MOST_31 0x7fffffffu

struct psw psw_of(const uint8_t *record)
{
    struct psw p;

    p.bits = field_of(record, "psw");
    p.system370 = is_system370(record);
    return p;
}

unsigned psw_bits(uint64_t psw, unsigned from, unsigned to)
{
    return (unsigned)(psw >> (63 - to) & ((UINT64_C(1) << (to - from + 1)) - 1));
}

enum psw_form psw_form(struct psw p)
{
    return !p.system370 ? XA_PSW : psw_bits(p.bits, 12, 12) ? EC_PSW : BC_PSW;
}

unsigned psw_condition_code(struct psw p)
{
    return psw_form(p) == BC_PSW ? psw_bits(p.bits, 34, 35) : psw_bits(p.bits, 18, 19);
}

int psw_dat_is_on(struct psw p)
{
    return psw_form(p) == XA_PSW && psw_bits(p.bits, 5, 5) != 0;
}

/* ---- addresses ---- */

uint32_t psw_wrapped(struct psw p, uint32_t address)
{
    return address & (!p.system370 && psw_bits(p.bits, 32, 32) ? MOST_31 : MOST_24);
}

uint32_t psw_address(struct psw p)
{
    return psw_wrapped(p, (uint32_t)p.bits);
}

struct psw psw_at(struct psw p, uint32_t address)
{
    p.bits = (p.bits & ~(uint64_t)(p.system370 ? MOST_24 : MOST_31)) | psw_wrapped(p, address);
    return p;
}

/* ---- what is wrong ---- */

const char *psw_not_installed(struct psw p)
{
    if (psw_form(p) == BC_PSW)
        return NULL;
    if (psw_bits(p.bits, 1, 1))
        return "bit 1 must be zero: PER is not installed";
    if (p.system370 && psw_bits(p.bits, 5, 5))
        return DAT_NOT_INSTALLED;
    if (psw_bits(p.bits, 16, 16))
        return "bit 16 must be zero: secondary space is not installed";
    return NULL;
}

/* The bits that 370-XA and EC have in common. */
static const char *left_malformed(uint64_t psw)
{
    if (psw_bits(psw, 0, 0))
        return "bit 0 must be zero";
    if (psw_bits(psw, 2, 4))
        return "bits 2-4 must be zero";
    if (!psw_bits(psw, 12, 12))
        return "bit 12 must be one";
    if (psw_bits(psw, 17, 17))
        return "bit 17 must be zero";
    if (psw_bits(psw, 24, 31))
        return "bits 24-31 must be zero";
    return NULL;
}

const char *psw_malformed(struct psw p)
{
    const char *left = left_malformed(p.bits);

    if (psw_form(p) == BC_PSW)
        return NULL;
    if (left != NULL)
        return left;
    if (p.system370)
        return psw_bits(p.bits, 32, 39) ? "bits 32-39 must be zero" : NULL;
    if (!psw_bits(p.bits, 32, 32) && psw_bits(p.bits, 33, 39))
        return "bits 33-39 must be zero when bit 32 is";
    return NULL;
}
