#include "interval.h"

#include <stdio.h>

#include "../include/drevokas.h"
#include "walk.h"

#define INACTIVE 0x01u      /* mode bit 7 */
#define REQUESTED 0x80u     /* bit 0 of the request byte: T */
#define BLOCK_SHIFT 16      /* the origin counts 64 KiB */

int interval_active(const uint8_t *record)
{
    return is_system370(record) && (field_of(record, "mode") & INACTIVE) == 0;
}

int interval_requested(const uint8_t *record)
{
    return (field_of(record, "request") & REQUESTED) != 0;
}

struct interval_place interval_place(const struct case_file *c)
{
    uint32_t prefix = (uint32_t)field_of(c->record, "prefix") & BLOCK;
    struct interval_place i = {0, 0, 0, 0, 0};
    struct host_page p;

    i.host = ((uint32_t)field_of(c->record, "origin") << BLOCK_SHIFT) + (uint32_t)absolute_of(prefix, INTERVAL_REAL);
    p = walk(c, i.host);
    i.code = p.code != 0 ? p.code : p.is_protected ? DREVOKAS_PROTECTION : 0;
    i.is_there = p.code == 0;
    if (i.is_there) {
        i.place = p.frame * FRAME_BYTES + i.host % FRAME_BYTES;
        i.word = (uint32_t)get_number(c->storage + i.place, 4);
    }
    return i;
}

int interval_falls(const struct case_file *c)
{
    return interval_active(c->record) && field_of(c->record, "residue") + 3 * (uint64_t)c->time >= INTERVAL_PERIOD;
}

void interval_words(uint32_t word, char *text, size_t room)
{
    int negative = word >> 31 != 0;
    uint32_t magnitude = negative ? 0 - word : word;
    char places[16];
    int digits = 8;         /* 1/256 has eight decimal places */

    snprintf(places, sizeof places, "%08lu", (unsigned long)(magnitude % INTERVAL_FALL) * 390625ul);
    while (digits > 0 && places[digits - 1] == '0')
        digits--;
    snprintf(text, room, "%s%lu%s%.*s/300 second", negative ? "-" : "", (unsigned long)(magnitude / INTERVAL_FALL),
             digits > 0 ? "." : "", digits, places);
}
