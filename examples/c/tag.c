/* The library from C: a published tag is made and checked, a wrong one is turned down, and a refusal is read.
 * `make -C examples/c` builds and runs it. */
#include <stdio.h>
#include <string.h>

#include "kallqono.h"

/* The same bytes? Looks at all of them, whatever the first difference. */
static int same(const uint8_t *a, const uint8_t *b, size_t n) {
    uint8_t differing = 0;
    for (size_t i = 0; i < n; i++)
        differing |= a[i] ^ b[i];
    return differing == 0;
}

static void print(const char *what, const uint8_t *bytes, size_t n) {
    printf("%s ", what);
    for (size_t i = 0; i < n; i++)
        printf("%02X", bytes[i]);
    printf("\n");
}

/* FIPS 180-4: the SHA-256 of "abc". */
static int hash_of_abc(void) {
    static const uint8_t expected[32] = {
        0xBA, 0x78, 0x16, 0xBF, 0x8F, 0x01, 0xCF, 0xEA, 0x41, 0x41, 0x40, 0xDE, 0x5D, 0xAE, 0x22, 0x23,
        0xB0, 0x03, 0x61, 0xA3, 0x96, 0x17, 0x7A, 0x9C, 0xB4, 0x10, 0xFF, 0x61, 0xF2, 0x00, 0x15, 0xAD,
    };
    uint8_t out[32];
    uint32_t answer = kallqono_hash(KALLQONO_SHA256, (const uint8_t *)"abc", 3, out, sizeof out);
    if (answer != KALLQONO_DONE)
        return 1;
    print("SHA-256 of abc:", out, sizeof out);
    return !same(out, expected, sizeof out);
}

/* RFC 2202, case 1 of HMAC over SHA-1. The tag is made by one side and compared by the other; a changed message has another tag. */
static int tag_of_hi_there(void) {
    static const uint8_t expected[20] = {
        0xB6, 0x17, 0x31, 0x86, 0x55, 0x05, 0x72, 0x64, 0xE2, 0x8B, 0xC0, 0xB6, 0xFB, 0x37, 0x8C, 0x8E, 0xF1, 0x46, 0xBE, 0x00,
    };
    uint8_t key[20], tag[20];
    struct kallqono_work work;
    uint64_t rounds;
    memset(key, 0x0B, sizeof key);
    if (kallqono_tag(KALLQONO_HMAC, KALLQONO_SHA1, 20, key, sizeof key, (const uint8_t *)"Hi There", 8, tag, sizeof tag, &work, &rounds) != KALLQONO_DONE)
        return 1;
    print("HMAC over SHA-1:", tag, sizeof tag);
    printf("rounds: %llu\n", (unsigned long long)rounds);
    if (rounds != 4 || !same(tag, expected, sizeof tag))
        return 1;
    if (kallqono_tag(KALLQONO_HMAC, KALLQONO_SHA1, 20, key, sizeof key, (const uint8_t *)"Hi there", 8, tag, sizeof tag, &work, &rounds) != KALLQONO_DONE)
        return 1;
    return same(tag, expected, sizeof tag);
}

/* MDx-MAC needs a hash with added words, which SHA-256 has not. The refusal leaves the tag and the count, and wipes the work block. */
static int refusal(void) {
    uint8_t key[16] = { 1 }, tag[8];
    struct kallqono_work work;
    static const struct kallqono_work zeros;
    uint64_t rounds = 7;
    memset(tag, 0x55, sizeof tag);
    memset(&work, 0x55, sizeof work);
    uint32_t answer = kallqono_tag(KALLQONO_MDX_MAC, KALLQONO_SHA256, 8, key, sizeof key, key, 0, tag, sizeof tag, &work, &rounds);
    printf("MDx-MAC over SHA-256: no %u\n", answer);
    return answer != KALLQONO_NO_ADDED_WORDS || tag[0] != 0x55 || tag[7] != 0x55 || rounds != 7 || memcmp(&work, &zeros, sizeof work);
}

int main(void) {
    if (hash_of_abc() || tag_of_hi_there() || refusal()) {
        printf("WRONG\n");
        return 1;
    }
    printf("as published\n");
    return 0;
}
