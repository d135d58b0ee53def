/*
 * Drevokas: interpretive execution of one 370-XA or System/370 guest CPU with pageable storage.
 *
 * Numbers and byte positions are those of document 01, "Definition of the build and its rules", and of requests 1/12 to
 * 5/12 to it. Bit 0 is the leftmost bit, and what stands in bytes is big-endian.
 *
 * The record, 200 bytes with version 1, or 208 with version 2, which System/370 needs:
 *   0-1 length (200 or 208); 2 version (1 or 2); 3 intervention requests; 4 mode; 5 interception controls;
 *   6-7 LCTL controls; 8-11 prefix; 12-13 origin; 14-15 extent (both in 64 KiB blocks); 16-23 PSW;
 *   24-31 CPU timer; 32-39 clock comparator; 40-47 epoch difference; 48 SVC flags; 49-51 SVC numbers;
 *   52-65 results; 66-71 zero; 72-135 control registers 0-15; 136-199 general registers 0-15;
 *   of 208 bytes: 200 interval-timer request (bit 0 is T); 201-203 zero; 204-207 residue (0 to 40,959,999).
 *
 * Handed in beside it: host storage, 1 to 4,096 frames of 4,096 bytes; one key byte for each frame; the host
 * segment-table designation.
 *
 * Who owns what: every byte belongs to the caller. The library uses the bytes during the call only and keeps no
 * pointer to them. A pointer must not be null and must be valid for the length given with it; with a length of 0
 * any non-null pointer will do. No alignment of bytes is needed. Any length and any number may be handed in: what
 * the rules do not allow is refused.
 */
#ifndef DREVOKAS_H
#define DREVOKAS_H

#include <stddef.h>
#include <stdint.h>

#ifdef __cplusplus
extern "C" {
#endif

/* The version of library, header and command. */
#define DREVOKAS_VERSION "1.0"

/* Limits. The longer record is that of version 2. */
#define DREVOKAS_RECORD_LENGTH 200u
#define DREVOKAS_RECORD_VERSION 1u
#define DREVOKAS_LONG_RECORD_LENGTH 208u
#define DREVOKAS_LONG_RECORD_VERSION 2u
#define DREVOKAS_FRAME_BYTES 4096u
#define DREVOKAS_MOST_FRAMES 4096u
#define DREVOKAS_BLOCK_PAGES 16u    /* pages of a 64 KiB block: an extent has 16 times its field */
#define DREVOKAS_MOST_PAGES 524288u /* pages of the largest extent */
#define DREVOKAS_MOST_UNITS 65535u
#define DREVOKAS_LEAST_TIME 1u
#define DREVOKAS_MOST_TIME 1048576u

/* The kind of an answer: bits 0-7. */
#define DREVOKAS_REFUSED 0u           /* number: the refusal, 1 to 8 or 10 to 16 */
#define DREVOKAS_INTERCEPTED 1u       /* number: the interception code; 32 for an entry that fails */
#define DREVOKAS_HOST_FAULT 2u        /* number: the program code of the host fault */
#define DREVOKAS_BUDGET_USED 3u       /* number: 0; an answer of run alone */
#define DREVOKAS_PROGRAM_EXCEPTION 4u /* number: the guest's program code */
#define DREVOKAS_GOOD 5u              /* number: 0; check: good; translate: translated; page desk: done, or found */
#define DREVOKAS_NONE 6u              /* number: 0; every page asked about is valid; an answer of first unbacked alone */

/* Refusals, tested in this order, each where the operation has that input. Those from 10 on are the page desk's alone, and
   come after an entry that fails. */
#define DREVOKAS_REFUSAL_LENGTH 1u   /* record and its length field are not both 200 or both 208 */
#define DREVOKAS_REFUSAL_VERSION 2u  /* version is not 1, or not 2 in a record of 208 bytes */
#define DREVOKAS_REFUSAL_STORAGE 3u  /* storage is empty, over 4,096 frames or not whole frames */
#define DREVOKAS_REFUSAL_KEYS 4u     /* number of keys differs from number of frames */
#define DREVOKAS_REFUSAL_BUDGET 5u   /* budget over 65,535; an answer of run alone */
#define DREVOKAS_REFUSAL_TIME 6u     /* time per unit 0 or over 1,048,576; an answer of run alone */
#define DREVOKAS_REFUSAL_RESERVED 7u /* one of bytes 66-71, or of 201-203, is not zero; or a residue out of range */
#define DREVOKAS_REFUSAL_ACCESS 8u   /* access kind is not 0, 1 or 2 */
#define DREVOKAS_REFUSAL_PAGE 10u    /* page outside the extent, or its entry out of reach */
#define DREVOKAS_REFUSAL_VALID 11u   /* page already valid; an answer of add alone */
#define DREVOKAS_REFUSAL_INVALID 12u /* page not valid; an answer of remove and protect */
#define DREVOKAS_REFUSAL_FRAME 13u   /* frame outside the storage; an answer of add alone */
#define DREVOKAS_REFUSAL_ENTRY 14u   /* an entry would lie in a guest frame, or the page's entry serves twice */
#define DREVOKAS_REFUSAL_WORDS 15u   /* workspace shorter than the extent's pages; an answer of list alone */
#define DREVOKAS_REFUSAL_RANGE 16u   /* range ends before it begins, or past the extent; an answer of first unbacked alone */

/* Interception codes. */
#define DREVOKAS_CODE_INSTRUCTION 4u       /* the controls ask for it, or it is mandatory */
#define DREVOKAS_CODE_PROGRAM 8u           /* program exception */
#define DREVOKAS_CODE_EXTERNAL_REQUEST 16u /* external request */
#define DREVOKAS_CODE_EXTERNAL 20u         /* external interruption: comparator, CPU timer or interval timer */
#define DREVOKAS_CODE_IO_REQUEST 24u       /* I/O request */
#define DREVOKAS_CODE_WAIT 28u             /* wait state */
#define DREVOKAS_CODE_VALIDITY 32u         /* entry: mode, origin and extent, or prefix; or a PSW bit of a facility not installed */
#define DREVOKAS_CODE_STOP 40u             /* stop request */
#define DREVOKAS_CODE_OPERATION 44u        /* operation exception */

/* Program codes, of the guest's exceptions and of host faults. */
#define DREVOKAS_PROTECTION 0x04u
#define DREVOKAS_ADDRESSING 0x05u
#define DREVOKAS_SEGMENT_TRANSLATION 0x10u
#define DREVOKAS_PAGE_TRANSLATION 0x11u
#define DREVOKAS_TRANSLATION_SPECIFICATION 0x12u

/* Access kinds. The two kinds of fetch are tested alike. */
#define DREVOKAS_OPERAND_FETCH 0u
#define DREVOKAS_STORE 1u
#define DREVOKAS_INSTRUCTION_FETCH 2u

/* What the list of pages has in place of a frame number where the page is not valid. */
#define DREVOKAS_NO_FRAME 0xffffffffu

/* The stage of an answer: bits 16-23. The table in which a walk failed, in failures of translate and in a run's host faults;
   drevokas_translate has a list of them. */
#define DREVOKAS_STAGE_NONE 0u
#define DREVOKAS_STAGE_GUEST_SEGMENT 1u
#define DREVOKAS_STAGE_GUEST_PAGE 2u
#define DREVOKAS_STAGE_HOST_SEGMENT 3u
#define DREVOKAS_STAGE_HOST_PAGE 4u

/* An answer holds, from the left: kind in bits 0-7, number in bits 8-15, stage in bits 16-23, zeros, units completed in
   bits 32-63, where drevokas_list_pages has the number of valid pages. Beside an answer of translate and run, *where holds an
   address in its low 32 bits, and in its high 32 bits that of the entry of the table that the stage names: of the entry's
   first byte, guest real (before prefixing) for the guest's tables, host absolute for the host's. That is zero where the entry
   was not read, and where it was read and stands at zero. Beside an answer of drevokas_first_unbacked *where holds a page in
   its low 32 bits, and zeros in its high 32 bits. */

#ifdef __cplusplus
#define DREVOKAS_WORD(number) static_cast<uint32_t>(number)
#else
#define DREVOKAS_WORD(number) (uint32_t)(number)
#endif

static inline uint32_t drevokas_kind(uint64_t answer)
{
    return DREVOKAS_WORD(answer >> 56);
}

static inline uint32_t drevokas_number(uint64_t answer)
{
    return DREVOKAS_WORD(answer >> 48 & 0xffu);
}

/* The table in which a walk failed; none in a refusal, in the answers of check and of the page desk, and wherever
   no walk failed. */
static inline uint32_t drevokas_stage(uint64_t answer)
{
    return DREVOKAS_WORD(answer >> 40 & 0xffu);
}

/* The units completed, of run; zero in the answers of check and translate, in those of the page desk but the list, and in a
   refusal. */
static inline uint32_t drevokas_units(uint64_t answer)
{
    return DREVOKAS_WORD(answer & 0xffffffffu);
}

/* The number of valid pages, of drevokas_list_pages; zero in a refusal and for an entry that fails. */
static inline uint32_t drevokas_valid_pages(uint64_t answer)
{
    return DREVOKAS_WORD(answer & 0xffffffffu);
}

/* The two addresses in *where, and the page there, of drevokas_first_unbacked. A refusal leaves there what stood there
   before. */

static inline uint32_t drevokas_entry(uint64_t where)
{
    return DREVOKAS_WORD(where >> 32);
}

static inline uint32_t drevokas_address(uint64_t where)
{
    return DREVOKAS_WORD(where & 0xffffffffu);
}

static inline uint32_t drevokas_page(uint64_t where)
{
    return DREVOKAS_WORD(where & 0xffffffffu);
}

#undef DREVOKAS_WORD

/*
 * Checks a record. Answers:
 *
 *   kind                   number
 *   DREVOKAS_REFUSED       1, 2 or 7
 *   DREVOKAS_INTERCEPTED   32: entry would fail
 *   DREVOKAS_GOOD          0
 *
 * Writes nothing.
 */
uint64_t drevokas_check(const uint8_t *record, size_t record_len);

/*
 * Translates one guest logical address, for one byte and one access kind. Takes any 32-bit address, which wraps at
 * 2^24 or 2^31 by PSW bit 32. Of the PSW only bits 5, 8-11 and 32 are used; of a System/370 guest bits 5, 8-11 and 12,
 * and it wraps at 2^24. Answers:
 *
 *   kind                         number                      low 32 bits of *where
 *   DREVOKAS_REFUSED             1, 2, 3, 4, 7 or 8          not touched, nor are the high ones
 *   DREVOKAS_INTERCEPTED         32: entry would fail, or    0
 *                                DAT is on for System/370
 *   DREVOKAS_HOST_FAULT          4, 5, 10, 11 or 12 hex      host virtual address of the byte or of the first byte of
 *                                                            the guest table entry reached for
 *   DREVOKAS_PROGRAM_EXCEPTION   4, 5, 10, 11 or 12 hex      0
 *   DREVOKAS_GOOD                0                           host absolute address of the byte
 *
 * Guest exceptions: 4 low-address, page or key protection; 5 at or above the extent, a table entry too; 10 hex segment
 * translation; 11 hex page translation; 12 hex translation specification. Host faults: 4 store to a host page that is
 * protected; 5 table entry or frame beyond the storage; 10, 11 and 12 hex from the host's tables. The first test of
 * document 01 that fails gives the answer.
 *
 * Stage and high 32 bits of *where. The tables are the guest's for a program exception and the host's for a host fault, also
 * for one at a guest table entry:
 *
 *   number       because                                                stage      high 32 bits of *where
 *   10 hex       segment beyond the segment table's length              segment    0
 *   5            segment entry beyond extent (guest), storage (host)    segment    0
 *   10, 12 hex   segment entry invalid, malformed                       segment    address of the segment entry
 *   11 hex       page beyond the page table's length                    page       0
 *   5            page entry beyond extent (guest), storage (host)       page       0
 *   11, 12 hex   page entry invalid, malformed                          page       address of the page entry
 *   5            frame beyond the storage (host)                        page       address of the page entry
 *   4            low-address, page, key or host page protection         none       0
 *   5            final address of the byte beyond the extent (guest)    none       0
 *   12 hex       CR0's format (guest)                                   none       0
 *
 * A good answer and code 32 have no stage, and zeros there.
 *
 * Writes nothing but *where, which must be an aligned uint64_t apart from the record, the storage and the keys.
 */
uint64_t drevokas_translate(const uint8_t *record, size_t record_len, const uint8_t *storage, size_t storage_len,
                            const uint8_t *keys, size_t keys_len, uint32_t designation, uint32_t address,
                            uint32_t access, uint64_t *where);

/*
 * Runs the guest for at most `budget` units (0 to 65,535) from the host clock `clock`, with `time` (1 to 1,048,576)
 * clock units for each. Answers:
 *
 *   kind                   number                                 units        low 32 bits of *where
 *   DREVOKAS_REFUSED       1, 2, 3, 4, 5, 6 or 7                  0            not touched, nor are the high ones
 *   DREVOKAS_INTERCEPTED   4, 8, 16, 20, 24, 28, 32, 40 or 44     completed    0
 *   DREVOKAS_HOST_FAULT    4, 5, 10, 11 or 12 hex                 completed    host virtual address
 *   DREVOKAS_BUDGET_USED   0                                      completed    0
 *
 * A host fault has stage and high 32 bits of *where as in translate, whatever was accessed: text, operand, interruption area
 * or the interval timer's word. An interception, for a program exception too, and a budget that is used have no stage, and
 * zeros there.
 *
 * A refusal changes no byte. Otherwise the record is as document 01 says: the state after the completed units, and
 * bytes 52-65 by the end. A host fault undoes its whole unit: after the host has mended the page, the same call with the
 * same record goes on. A run goes on from any end but a refusal when it is called again with the record that it left
 * and the clock advanced by units times time (modulo 2^64).
 *
 * Any two values that STCK stores in one run differ. So do any two in a run that is cut and goes on in this way, until the
 * clock has risen by 2^64 in all.
 *
 * Writes the record, the storage, the keys and *where, which must be apart from one another.
 */
uint64_t drevokas_run(uint8_t *record, size_t record_len, uint8_t *storage, size_t storage_len, uint8_t *keys,
                      size_t keys_len, uint32_t designation, uint64_t clock, uint32_t time, uint32_t budget,
                      uint64_t *where);

/*
 * The page desk of requests 3/12 and 4/12: adds, removes or protects one page of a guest in the host's tables, lists the
 * pages, and finds the first that is not valid.
 *
 * A page is one of 4,096 bytes of guest absolute storage, counted from 0 on at the start of the extent; there are 16 in a
 * 64 KiB block. Prefix, PSW and keys play no part, but for entry and refusal 4. A page's entry is in reach when the lengths
 * of the host's tables, the storage, and a segment entry that is valid and well formed allow it. A page is valid when its
 * entry is in reach and well formed, with bit 21 zero, also where its frame is outside the storage. A guest frame is a frame
 * in storage that a valid page names. The entries that describe the extent are, where in reach, those of its pages and of the
 * segments that it touches, invalid ones too.
 *
 * Refusals and code 32 change nothing, but that code 32 of first unbacked sets *where to 0. The order is 1, 2, 3, 4, 7, code
 * 32 if entry would fail, then:
 *
 *   10   page outside the extent, or its entry out of reach
 *   11   add: page already valid
 *   12   remove and protect: page not valid
 *   13   add: frame number at or above the number of frames
 *   14   add, remove and protect: after the call an entry that describes the extent would lie in a guest frame, or the page's
 *        entry is also that of another page of the extent, or that of a segment that the extent touches
 *   15   list: fewer words than the extent has pages
 *   16   first unbacked: `from` above `to`, or `to` above the number of the extent's pages
 *
 * Add, remove and protect answer:
 *
 *   kind                   number                                                 *valid
 *   DREVOKAS_REFUSED       1, 2, 3, 4, 7, 10, 14; add 11, 13; the others 12       not touched
 *   DREVOKAS_INTERCEPTED   32: entry would fail                                   not touched
 *   DREVOKAS_GOOD          0: done                                                add: one more; remove: one less
 *
 * *valid is the number of the extent's valid pages, modulo 2^32, which the caller keeps beside the designation; the list gives
 * one to start from. It is not compared with the tables. If it was true before a call, it is true after it; and after a run
 * that began with no entry that describes the extent in a guest frame. Both for one storage length, designation, origin and
 * extent.
 *
 * They write nothing but the four bytes of the page's entry and *valid, which must be an aligned uint32_t apart from the
 * record, the storage and the keys.
 */

/* Adds a page that is not valid: its entry becomes `frame` times 4,096, all other bits zero. Two pages may have one frame. */
uint64_t drevokas_add_page(const uint8_t *record, size_t record_len, uint8_t *storage, size_t storage_len,
                           const uint8_t *keys, size_t keys_len, uint32_t designation, uint32_t page, uint32_t frame,
                           uint32_t *valid);

/* Removes a valid page: bit 21 of its entry becomes one, the others stay. */
uint64_t drevokas_remove_page(const uint8_t *record, size_t record_len, uint8_t *storage, size_t storage_len,
                              const uint8_t *keys, size_t keys_len, uint32_t designation, uint32_t page, uint32_t *valid);

/* Protects a valid page from stores: bit 22 of its entry becomes one, if it is not already, the others stay. */
uint64_t drevokas_protect_page(const uint8_t *record, size_t record_len, uint8_t *storage, size_t storage_len,
                               const uint8_t *keys, size_t keys_len, uint32_t designation, uint32_t page, uint32_t *valid);

/*
 * Lists the pages of the extent into a workspace of `count` words: for each page in order the number of its frame, bits 1-19
 * of its entry, or DREVOKAS_NO_FRAME where the page is not valid. Answers:
 *
 *   kind                   number                    drevokas_valid_pages       words
 *   DREVOKAS_REFUSED       1, 2, 3, 4, 7 or 15       0                          not touched
 *   DREVOKAS_INTERCEPTED   32: entry would fail      0                          not touched
 *   DREVOKAS_GOOD          0: done                   number of valid pages      one for each page; others not touched
 *
 * Writes nothing but the words, which must be aligned and apart from the record, the storage and the keys.
 */
uint64_t drevokas_list_pages(const uint8_t *record, size_t record_len, const uint8_t *storage, size_t storage_len,
                             const uint8_t *keys, size_t keys_len, uint32_t designation, uint32_t *frames, size_t count);

/*
 * Finds the lowest page from `from` up to but not including `to` that is not valid: the first that the list would have as
 * DREVOKAS_NO_FRAME there. It stops at that page; where a segment's entry is invalid, malformed or out of reach, that is the
 * first page of the segment that is asked about. Answers:
 *
 *   kind                   number                    *where
 *   DREVOKAS_REFUSED       1, 2, 3, 4, 7 or 16       not touched
 *   DREVOKAS_INTERCEPTED   32: entry would fail      0
 *   DREVOKAS_GOOD          0: found                  the page, counted as `from` is
 *   DREVOKAS_NONE          0: none                   0
 *
 * None is answered exactly when every page asked about is valid, and so where `from` equals `to`. Where the entries lie does
 * not matter: refusal 14 is not tested.
 *
 * Of the storage it reads one entry for each segment and one for each page at most, and none past the answer. Writes nothing
 * but *where, which must be an aligned uint64_t apart from the record, the storage and the keys.
 */
uint64_t drevokas_first_unbacked(const uint8_t *record, size_t record_len, const uint8_t *storage, size_t storage_len,
                                 const uint8_t *keys, size_t keys_len, uint32_t designation, uint32_t from, uint32_t to,
                                 uint64_t *where);

#ifdef __cplusplus
}
#endif

#endif
