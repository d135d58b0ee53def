/* The page desk in plain C, as the tests and benchmarks call it. */
#ifndef PLAIN_DESK_H
#define PLAIN_DESK_H

#include "../tests/c/desk.h"
#include "plain.h"

static const struct desk plain_desk = {plain_add_page, plain_remove_page, plain_protect_page, plain_list_pages,
                                       plain_first_unbacked};

#endif
