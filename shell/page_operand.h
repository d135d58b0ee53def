/* A page of the extent as it is asked for: by its number, or by an address in it. */
#ifndef PAGE_OPERAND_H
#define PAGE_OPERAND_H

#include "case_file.h"

struct asked_page {
    enum { BY_NUMBER, BY_GUEST_ADDRESS, BY_HOST_ADDRESS } by;
    uint32_t value;
};

/* Takes "18", "0x12", "guest:12000", "host:112000". Complains of any other text and returns STATUS_BAD; else returns GO_ON. */
int page_operand(const char *text, struct asked_page *p);

/* The page's number in the extent of this case file. A host address below the extent, whose number is taken modulo 2^32, gives
   a page that no extent has. */
uint32_t page_number(const struct case_file *c, const struct asked_page *p);

#endif
