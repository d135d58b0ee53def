/* Where the fields of a record stand, and big-endian numbers in bytes. */
#ifndef FIELDS_H
#define FIELDS_H

#include <stdint.h>

#define AT_LENGTH 0
#define AT_VERSION 2
#define AT_REQUESTS 3
#define AT_MODE 4
#define AT_CONTROLS 5
#define AT_PREFIX 8
#define AT_ORIGIN 12
#define AT_EXTENT 14
#define AT_PSW 16
#define AT_ADDRESSING_MODE 20
#define AT_TIMER 24
#define AT_EPOCH 40
#define AT_RESULTS 52
#define RESULT_BYTES 14
#define AT_RESERVED 66
#define RESERVED_BYTES 6
#define AT_CR0 72
#define AT_CR1 76
#define AT_GENERAL 136

/* in a record of 208 bytes: the interval timer's request byte, with T in bit 0, and its residue */
#define AT_INTERVAL 200
#define INTERVAL_T 0x80
#define AT_RESIDUE 204
#define INTERVAL_PERIOD 40960000u

/* bit i of a word */
#define BIT(i) (0x80000000u >> (i))

/* PSW bits, of its left and of its right word; bit 12 is one in 370-XA and in System/370's EC */
#define PSW_DAT BIT(5)
#define PSW_EXTERNAL BIT(7)
#define PSW_BASE BIT(12)
#define PSW_WAIT BIT(14)
#define PSW_KEY(key) ((uint32_t)(key) << 20)
#define PSW_31 BIT(0)

/* CR0: bits 8-12 as they must be; low-address protection; fetch-protection override */
#define CR0_FORMAT 0x00b00000u
#define CR0_FORMAT_BITS 0x00f80000u
#define CR0_LOW_PROTECTION BIT(3)
#define CR0_FETCH_OVERRIDE BIT(6)
#define CR0_INTERVAL BIT(24)

/* table entries */
#define SEGMENT_INVALID BIT(26)
#define PAGE_INVALID BIT(21)
#define PAGE_PROTECTED BIT(22)

/* the modes that entry accepts, and the bit that makes a System/370 guest's interval timer inactive */
#define MODE_XA 0x08
#define MODE_370 0x04
#define MODE_INACTIVE 0x01

static inline void put16(uint8_t *at, uint32_t value)
{
    at[0] = (uint8_t)(value >> 8);
    at[1] = (uint8_t)value;
}

static inline void put32(uint8_t *at, uint32_t value)
{
    put16(at, value >> 16);
    put16(at + 2, value);
}

static inline void put64(uint8_t *at, uint64_t value)
{
    put32(at, (uint32_t)(value >> 32));
    put32(at + 4, (uint32_t)value);
}

static inline uint32_t get32(const uint8_t *at)
{
    return (uint32_t)at[0] << 24 | (uint32_t)at[1] << 16 | (uint32_t)at[2] << 8 | at[3];
}

static inline uint64_t get64(const uint8_t *at)
{
    return (uint64_t)get32(at) << 32 | get32(at + 4);
}

#endif
