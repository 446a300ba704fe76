/* A lamp node from C, on a host: a script of calls as lines of text, and the replies to them. For what runs without a heap see kallqono.h.
 *
 * Build it with `rt lib` in crates/cscripts and link crates/cscripts/out/libcscripts.a and the kit's c/liblibc_c.a, through which it calls
 * malloc, realloc and free; besides it needs memcpy, memmove and memset. The node lives for the length of one call; docs/RULES.md, under
 * `nodeline`, has the lines of a script and the replies. */
#ifndef KALLQONO_SCRIPT_H
#define KALLQONO_SCRIPT_H

#include <stddef.h>
#include <stdint.h>

#ifdef __cplusplus
extern "C" {
#endif

#define KALLQONO_STARVED 100u

/* Runs a script on a node of its own.
 *
 * script  read only
 * out     the replies are written first into it, one line for each line of the script; the bytes past them stay
 * size    set to the length of the replies
 *
 * Answers 0; or 6 where the place is too short: then it is as it was, and size tells how long it has to be; or KALLQONO_STARVED
 * where there was no memory: then place and size are as they were. A refusal of a call is no refusal of the script: its reply says so. */
uint32_t kallqono_script(const uint8_t *script, size_t script_length,
                         uint8_t *out, size_t out_length, size_t *size);

#ifdef __cplusplus
}
#endif
#endif
