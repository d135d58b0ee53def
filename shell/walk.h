/* The host's tables and the guest's own, walked by the rules of document 01 for one virtual address. */
#ifndef WALK_H
#define WALK_H

#include "case_file.h"

#define ADDRESS_LIMIT UINT64_C(0x80000000)      /* addresses are below 2^31 */
#define TABLE_BIT(i) (0x80000000u >> (i))
#define BLOCK 0x7ffff000u                       /* bits 1-19 of a word: the address of a 4 KiB block */
#define ENTRY_BYTES 4u
#define SEGMENT_INVALID TABLE_BIT(26)
#define SEGMENT_ZERO TABLE_BIT(0)               /* bits that must be zero */
#define PAGE_INVALID TABLE_BIT(21)
#define PAGE_PROTECTED TABLE_BIT(22)
#define PAGE_ZERO (TABLE_BIT(0) | TABLE_BIT(20) | TABLE_BIT(23))

/* Tables as they stand in a case file: the host's, at host absolute addresses, or the guest's own, at guest real ones. */
struct tables {
    const struct case_file *c;
    uint32_t designation;       /* of the segment table: the host's, or CR1 */
    int is_guest;
    uint32_t prefix;            /* of the guest; its origin and extent in bytes follow */
    uint64_t origin, extent;
};

/* What the walk finds. */
struct host_page {
    unsigned code;          /* 0, or the program code: 10, 11, 12 hex, or 5 for an entry or a host frame beyond the end */
    int valid;              /* the page is valid by document 01; its frame may be beyond the storage */
    int is_protected;       /* page entry bit 22; for a valid page */
    uint32_t frame;         /* number of the frame, or of the guest's real page, that a valid page's entry names */
    int segment_read;       /* the segment entry is in reach */
    int page_sought;        /* it is valid and well formed, and leads to a page table */
    int page_read;          /* the page entry is in reach */
    uint32_t segment_at, page_at;           /* the entries' addresses, as the tables count them */
    uint32_t segment_place, page_place;     /* the same in storage, host absolute; of entries in reach */
    uint32_t segment;       /* the segment entry, if it is in reach, */
    uint32_t entry;         /* and the page entry */
};

struct tables tables_of_host(const struct case_file *c);

struct tables tables_of_guest(const struct case_file *c);

struct host_page walk_tables(const struct tables *t, uint32_t address);

/* The walk of the host's tables. */
struct host_page walk(const struct case_file *c, uint32_t address);

/* The entry that a walk came to last. */
struct last_entry {
    int is_page, is_read;
    uint32_t table, entries, index;     /* where its table starts; how many entries that has; which of them was sought */
    uint32_t at, word;                  /* where it is, or would be; the entry if it was read */
};

struct last_entry last_entry(const struct tables *t, const struct host_page *p, uint32_t address);

/* The host virtual address behind a guest real one. */
uint64_t host_virtual(const struct tables *guest, uint32_t real);

/* A one for each frame with an entry that the walk has read, frame 0 rightmost. */
unsigned entry_frames(const struct host_page *p);

/* Prefixing exchanges real block 0 and the prefix block. */
uint64_t absolute_of(uint32_t prefix, uint64_t real);

#endif
