/* The page desk in words: what a page entry says, and why a call is refused. */
#ifndef DESK_WORDS_H
#define DESK_WORDS_H

#include <stdio.h>

#include "walk.h"
#include "words.h"

/* The extent of a case file's guest. */
struct extent {
    const struct case_file *c;
    uint32_t origin, pages;     /* host virtual address of page 0; how many pages */
};

/* A change of one page. */
enum desk_action { DESK_ADD, DESK_REMOVE, DESK_PROTECT };

struct desk_change {
    enum desk_action action;
    uint32_t page;      /* counted from 0 at the start of the extent */
    uint32_t frame;     /* of a page that is added */
};

/* Pages from one up to, and not with, another. */
struct page_range {
    uint32_t from, to;
};

struct extent extent_of(const struct case_file *c);

/* What the walk of the host's tables finds for a page of the extent. */
struct host_page page_of_extent(const struct extent *e, uint32_t page);

/* Adds what a page entry says: "frame 5, protected", "invalid; frame 5". */
void add_page_entry(const struct case_file *c, uint32_t entry, char text[SENTENCE]);

/* Adds what stands against a change of a page whose entry is in reach, by refusal 14. Returns 0 if nothing does. */
int add_clash(const struct extent *e, const struct desk_change *d, char text[SENTENCE]);

/* Why the library refuses a change with this number. What page, frame and tables show is said where it bears the number out. */
void desk_refusal(unsigned number, const struct case_file *c, const struct desk_change *d, char text[SENTENCE]);

/* The same of the search for a page that is not valid. */
void search_refusal(unsigned number, const struct case_file *c, const struct page_range *r, char text[SENTENCE]);

/* Prints the line of a refusal or of an entry that fails: "R 10", "I 32: extent is 0 blocks, and must be 1 at least". */
void print_no(FILE *to, const struct case_file *c, uint64_t answer);

#endif
