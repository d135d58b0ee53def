/* Bytes that are a text, and so no case file: the first byte of every case file is zero. */
#ifndef PLAIN_TEXT_H
#define PLAIN_TEXT_H

#include <stddef.h>
#include <stdint.h>

/* Whether there are bytes, and none is a control character but tab, line feed, form feed and carriage return. */
int is_plain_text(const uint8_t *bytes, size_t length);

#endif
