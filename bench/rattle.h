/*
 * THE RATTLE SIDE: what crates/speed_c exports (tools/build speed_c writes
 * crates/speed_c/out/libspeed_c.a). A slice passes as a pointer and a length.
 */
#ifndef RATTLE_H
#define RATTLE_H

#include <stddef.h>
#include <stdint.h>

uint32_t speed_crc32(const uint8_t *data, size_t length);
void speed_sha256(const uint8_t *data, size_t length, uint8_t *out, size_t out_length);
void speed_blake2b(const uint8_t *data, size_t length, uint8_t *out, size_t out_length);

/* How many bytes were written; none where the text is refused or out is too short. */
size_t speed_base64_read(const uint8_t *text, size_t length, uint8_t *out, size_t out_length);
size_t speed_base64_write(const uint8_t *data, size_t length, uint8_t *out, size_t out_length);

#endif
