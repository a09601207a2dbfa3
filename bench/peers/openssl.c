/*
 * OpenSSL's SHA-256 and base64. SHA256_Init and its like leave out the search for a provider that
 * SHA256 begins with. OpenSSL pads a text with `=`, and reads only texts of whole groups of four:
 * the measured length is a multiple of three bytes.
 */
#define OPENSSL_SUPPRESS_DEPRECATED
#include <openssl/evp.h>
#include <openssl/sha.h>

#include "../subjects.h"

static size_t sha256(const uint8_t *data, size_t length, uint8_t *out, size_t room)
{
    SHA256_CTX context;

    (void)room;
    SHA256_Init(&context);
    SHA256_Update(&context, data, length);
    SHA256_Final(out, &context);
    return 32;
}

static size_t base64_write(const uint8_t *data, size_t length, uint8_t *out, size_t room)
{
    (void)room;
    return (size_t)EVP_EncodeBlock(out, data, (int)length);
}

static size_t base64_read(const uint8_t *text, size_t length, uint8_t *out, size_t room)
{
    int made = EVP_DecodeBlock(out, text, (int)length);

    (void)room;
    return made < 0 ? 0 : (size_t)made;
}

const struct subject SUBJECTS[] = {
    {"sha256", sha256},
    {"base64_write", base64_write},
    {"base64_read", base64_read},
    {NULL, NULL},
};
