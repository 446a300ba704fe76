/* Kallqono: hashes and message authentication codes, proved. This header is the manual of the library for C and Rust.
 *
 * Build it with `rt lib` in crates/clib and link crates/clib/out/libclib.a; it needs memcpy, memmove and memset and nothing else.
 *
 * The library keeps nothing between calls, allocates nothing and uses no global data, so any number of threads may call it.
 * All memory is the caller's: a function works on the buffers that it is lent, for as long as the call takes. A pointer is never
 * null (with a length of 0 it may point to anything that is not null), and no two buffers of one call overlap, where one of them is
 * written: no contract holds a C caller to that.
 *
 * Every function answers 0 when its work is done, and otherwise the number of the first question that was answered no:
 *
 *   1  is there such an algorithm and hash?
 *   2  does the hash have added words, where the algorithm needs them? (SHA-256 has none: HMAC only)
 *   3  is the key's length one that the algorithm takes? (MDx-MAC and short strings 1-16 bytes, HMAC 16-64)
 *   4  is the tag's length? (MDx-MAC and HMAC: 1 to the length of the hash; short strings: 1 to half of it)
 *   5  is the message's length? (MDx-MAC and HMAC 0-1,048,576 bytes, short strings 0-32)
 *   6  is the place to write long enough?
 */
#ifndef KALLQONO_H
#define KALLQONO_H

#include <stddef.h>
#include <stdint.h>

#ifdef __cplusplus
extern "C" {
#endif

/* hashes, by their numbers; a hash has 20 bytes, that of SHA-256 32 */
#define KALLQONO_RIPEMD160 1u
#define KALLQONO_SHA1 3u
#define KALLQONO_SHA256 4u

/* algorithms of ISO/IEC 9797-2:2011, by their numbers */
#define KALLQONO_MDX_MAC 1u
#define KALLQONO_HMAC 2u
#define KALLQONO_SHORT_STRINGS 3u

/* answers */
#define KALLQONO_DONE 0u
#define KALLQONO_UNKNOWN 1u
#define KALLQONO_NO_ADDED_WORDS 2u
#define KALLQONO_KEY_LENGTH 3u
#define KALLQONO_TAG_LENGTH 4u
#define KALLQONO_MESSAGE_LENGTH 5u
#define KALLQONO_ROOM 6u

/* The block in which key material is worked on. It is all zeros after every call that takes one, refused or not. */
struct kallqono_work {
    uint8_t bytes[64];
};

/* The plain hash of a message of any length.
 *
 * message  read only
 * out      the hash is written first into it, 20 or 32 bytes; the bytes past it stay. A refusal leaves all of it as it was.
 *
 * Asks 1 and 6. */
uint32_t kallqono_hash(uint32_t hash,
                       const uint8_t *message, size_t message_length,
                       uint8_t *out, size_t out_length);

/* The tag of t bytes of a message under a key.
 *
 * key, message  read only
 * out           the tag is written first into it, t bytes; the bytes past it stay. A refusal leaves all of it as it was.
 * work          all zeros afterwards, refused or not; what it held does not matter
 * rounds        set to the number of rounds of the hash that were made, those of the key included; a refusal leaves it
 *
 * Asks 1, 2, 3, 4, 5 and 6. A tag to compare is compared by the caller over all its bytes, whatever the first difference. */
uint32_t kallqono_tag(uint32_t algorithm, uint32_t hash, size_t t,
                      const uint8_t *key, size_t key_length,
                      const uint8_t *message, size_t message_length,
                      uint8_t *out, size_t out_length,
                      struct kallqono_work *work, uint64_t *rounds);

#ifdef __cplusplus
}
#endif
#endif
