/* Plain C versions of the library's operations, to compare answers and speed with. */
#ifndef PLAIN_H
#define PLAIN_H

#include <stddef.h>
#include <stdint.h>

uint64_t plain_check(const uint8_t *record, size_t record_len);

uint64_t plain_translate(const uint8_t *record, size_t record_len, const uint8_t *storage, size_t storage_len,
                         const uint8_t *keys, size_t keys_len, uint32_t designation, uint32_t address,
                         uint32_t access, uint64_t *where);

uint64_t plain_run(uint8_t *record, size_t record_len, uint8_t *storage, size_t storage_len, uint8_t *keys, size_t keys_len,
                   uint32_t designation, uint64_t clock, uint32_t time, uint32_t budget, uint64_t *where);

uint64_t plain_add_page(const uint8_t *record, size_t record_len, uint8_t *storage, size_t storage_len, const uint8_t *keys,
                        size_t keys_len, uint32_t designation, uint32_t page, uint32_t frame, uint32_t *valid);

uint64_t plain_remove_page(const uint8_t *record, size_t record_len, uint8_t *storage, size_t storage_len,
                           const uint8_t *keys, size_t keys_len, uint32_t designation, uint32_t page, uint32_t *valid);

uint64_t plain_protect_page(const uint8_t *record, size_t record_len, uint8_t *storage, size_t storage_len,
                            const uint8_t *keys, size_t keys_len, uint32_t designation, uint32_t page, uint32_t *valid);

uint64_t plain_list_pages(const uint8_t *record, size_t record_len, const uint8_t *storage, size_t storage_len,
                          const uint8_t *keys, size_t keys_len, uint32_t designation, uint32_t *frames, size_t count);

uint64_t plain_first_unbacked(const uint8_t *record, size_t record_len, const uint8_t *storage, size_t storage_len,
                              const uint8_t *keys, size_t keys_len, uint32_t designation, uint32_t from, uint32_t to,
                              uint64_t *where);

#endif
