/* plain.h: the five calls of sdt.h, written plainly in C; what each gives is said in sdt.h under the same name. */
#ifndef PLAIN_H
#define PLAIN_H

#include "sdt.h"

sdt_block_answer plain_read_block(const uint8_t *block, size_t block_length, uint32_t position);
sdt_open_answer plain_open_block(const uint8_t *block, size_t block_length);
sdt_next_answer plain_next_message(const uint8_t *block, size_t block_length, sdt_cursor cursor);
sdt_message_answer plain_read_message(uint8_t vector, const uint8_t *data, size_t data_length);
sdt_write_answer plain_write_message(sdt_message message, const uint8_t *contents, size_t contents_length, uint8_t *room, size_t room_length);

#endif
