/* The plain textbook forms that the proved ones are measured against. */
#ifndef PLAIN_H
#define PLAIN_H

#include <stddef.h>
#include <stdint.h>

/* CRC-32/ISO-HDLC, four bytes, big-endian: by a table, and bit by bit. */
void plain_crc32(const uint8_t *data, size_t length, uint8_t out[4]);
void plain_crc32_bits(const uint8_t *data, size_t length, uint8_t out[4]);

/* SHA-256 of FIPS 180-4, 32 bytes. */
void plain_sha256(const uint8_t *data, size_t length, uint8_t out[32]);

/* BLAKE2b of RFC 7693, unkeyed, 32-byte output. */
void plain_blake2b(const uint8_t *data, size_t length, uint8_t out[32]);

/*
 * Base64 of RFC 4648 without padding. Each answers how many bytes it wrote: none where there is no
 * room, or where a text has a character that is neither of the alphabet nor a space, an impossible
 * length, or leftover bits that are not zero.
 */
size_t plain_base64_write(const uint8_t *data, size_t length, uint8_t *out, size_t room);
size_t plain_base64_read(const uint8_t *text, size_t length, uint8_t *out, size_t room);

#endif
