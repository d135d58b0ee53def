/*
 * The text form of a case file, as `make` takes it apart. First every line is sorted by its kind, and the labels get their
 * addresses (make_lines.c); then settings (make_settings.c, parts of fields in make_parts.c), page maps (make_maps.c), their
 * tables (new ones in make_tables.c, entries of those that are there in make_changes.c) and contents (make_contents.c) are
 * worked out, so that no line has to stand before another one, but for contents, which follow their `at`. Tables and contents
 * go into storage through the page maps (make_storage.c).
 */
#ifndef TEXT_FORM_H
#define TEXT_FORM_H

#include "case_file.h"
#include "expression.h"
#include "psw.h"
#include "walk.h"

#define MOST_TEXT_BYTES (1u << 20)
#define MOST_LINES 10000u
#define MOST_LINE_LENGTH 250u
#define MOST_LABEL 31u
#define MOST_ERRORS 20u
#define MOST_PAGE_NAME 40
#define PAGES (1u << 19)
#define BLOCK_PAGES 16u                         /* in a block of 64 KiB, the origin's unit */
#define MOST_NAME (MOST_LINE_LENGTH + 1)
#define PSW_BITS 64u
#define FORM_BIT 12u                            /* of a System/370 PSW: one is EC, zero BC */
#define BLANK_PSW UINT64_C(0x0008000080000000)  /* of 370-XA: bit 12 and bit 32 (31-bit addresses) */
#define SYSTEM_370 1u                           /* mode bits 4-5 */
#define SYSTEM_XA 2u

/* What an address counts in. */
enum space {
    NO_SPACE,
    IN_FRAMES,          /* host absolute: 4096 times the frame, and the offset */
    IN_GUEST,           /* guest absolute */
    IN_REAL,            /* guest real: through the prefix */
    IN_VIRTUAL          /* guest virtual: through the guest's own tables */
};

struct place {
    enum space space;
    uint64_t address;
};

/* Numbers of the case file beside the record. */
enum number_kind { DESIGNATION, CLOCK, TIME, BUDGET, FRAMES, NUMBER_KINDS };

enum line_kind {
    OTHER_LINE,
    SETTING_LINE,
    KEY_LINE,
    HOST_TABLES_LINE,
    GUEST_TABLES_LINE,
    MAP_LINE,
    USING_LINE,
    DROP_LINE,
    CONTENT_LINE
};

struct line {
    const char *text;       /* from the first word on, or from the operation on where a label stands before it */
    enum line_kind kind;
    struct place place;     /* of contents */
    unsigned length;        /* of contents, in bytes */
    const char *label;      /* NULL where there is none */
    size_t label_length;
};

/* The entry of one page in a table, and the line that gives it; line 0 is none. The bits in `kept` are those of the entry that
   is there already, and the others are as the line says. A page that is carried over from old tables has the line of the new
   ones. */
struct page {
    uint32_t entry, kept;
    unsigned line;
};

struct base {
    int used;
    uint64_t address;
};

struct fault {
    unsigned line;
    struct message m;
};

struct text_form {
    struct line *lines;         /* line i + 1 of the text */
    unsigned count;
    const struct line **labels; /* the lines with a label; sorted by it once all are known */
    unsigned label_count;
    struct base bases[REGISTERS];
    struct page *host_pages;    /* by host virtual address, for the host's tables */
    struct page *virtual_pages; /* by guest virtual address, for the guest's tables */
    unsigned host_line, guest_line;     /* of the tables' places, which follow; 0 is none */
    struct place host_tables, guest_tables;
    unsigned number_lines[NUMBER_KINDS];            /* the line that sets each number beside the record; 0 is none */
    unsigned field_lines[MOST_RECORD_BYTES];        /* the same for each field, by its first byte, */
    unsigned bit_lines[MOST_RECORD_BYTES * 8];      /* and for each bit that is set as a part of a field */
    unsigned system_line, interval_line;            /* of "mode.system = 370" and of the interval timer's word; 0 is none */
    uint64_t interval;
    unsigned owners[MOST_FRAMES * FRAME_BYTES];     /* the line that put each byte of storage; 0 is none */
    struct case_file c;
    int from_file;              /* c starts as a case file, and not with what holds if nothing is said */
    struct case_file old;       /* that case file, as it was */
    struct fault faults[MOST_ERRORS];
    unsigned fault_count;       /* may be over MOST_ERRORS: then the others are not kept */
};

/* Notes what is wrong with a line. */
void note_fault(struct text_form *f, unsigned line, const struct message *m);

/* Whether no more is to be looked for. */
int enough_faults(const struct text_form *f);

/* The labels of a text form, for expressions. */
struct labels labels_of(struct text_form *f);

/* Sorts the lines and gives contents and labels their places. */
void sort_lines(struct text_form *f);

/* Sets what the settings and the key lines say. */
void apply_settings(struct text_form *f);

/* A one for each bit of a field that a line sets as a part of it. */
uint64_t given_bits(const struct text_form *f, const struct field *field);

/* A part of a field: bits of it, from the left. */
struct part {
    const char *name;
    unsigned first, bits;
};

/* The setting's name in small letters, which is no longer than a line; returns where the value starts. */
const char *split_setting(const char *text, char name[MOST_NAME]);

/* A bit of a field of `width` bits by its number, or a part by its name; those of a PSW by its form. Returns 0, or -1. */
int find_part(const char *field, enum psw_form form, const char *name, unsigned width, struct part *part);

/* Says that the field has no part of this name. Returns -1. */
int no_part(const char *field, enum psw_form form, const char *part, unsigned width, struct message *m);

/* Whether this part of a System/370 PSW is the bit that tells its form. */
int gives_form(const struct part *part);

/* The value of what has this name, in so many bits; the value of a part. Both return 0, or -1 with a message. */
int parse_value(const char **at, const struct labels *labels, const char *name, unsigned bits, uint64_t *n, struct message *m);
int parse_part(const char **at, const struct labels *labels, const struct part *part, uint64_t *n, struct message *m);

/* Sets bits of a word of `width` bits; bit 0 is the leftmost. */
void set_bits(uint64_t *word, unsigned width, unsigned first, unsigned bits, uint64_t n);

/* Takes the parts of a PSW as "dat=1, address=start" and sets them in a PSW that has bits 12 and 32 one, or for System/370 in
   one of zeros. Returns 0, or -1 with a message. */
int parse_psw(const char *at, int system370, const struct labels *labels, uint64_t *psw, struct message *m);

/* Fills the page maps. */
void apply_maps(struct text_form *f);

/* The first line that maps one of these pages, or 0. */
unsigned first_line(const struct page *pages);

/* Puts the tables in storage, and sets what designates them, or changes those that are there, unless there are faults. */
void put_tables(struct text_form *f);

/* Changes the entries of mapped pages in the host's or the guest's tables that are in storage. */
void change_tables(struct text_form *f, int is_guest);

/* The number of a field of the record. */
uint64_t record_number(const struct text_form *f, const char *name);

/* The number of the host page that is guest page 0. */
uint64_t first_host_page(const struct text_form *f);

/* Whether DAT can use the guest's tables of a case file: CR0 bits 8-12 are 10110. */
int has_guest_tables(const struct case_file *c);

/* What a page of the host's tables (is_guest 0) or of the guest's is called in messages: "guest page X'2000'". */
void page_name(const struct text_form *f, int is_guest, uint32_t page, char name[MOST_PAGE_NAME]);

/* Puts bytes in storage, through the page maps. Returns 0, or -1 with a message. */
int put_contents(struct text_form *f, unsigned line, struct place p, const uint8_t *bytes, size_t length, struct message *m);

/* Works out the contents, and puts them in storage unless there are faults in lines of other kinds. */
void apply_contents(struct text_form *f);

/* The bytes that an instruction or data take, and the multiple that their address must be. Returns 1, or 0 if the text starts
   with neither, or -1 with a message if the operands are wrong. */
int measure(const char *text, unsigned *length, unsigned *alignment, struct message *m);

/* Reads the next word if it is this one, in capitals or not. Returns 1 if it is. */
int take_word(const char **at, const char *word);

#endif
