/* A cabinet seals an order and a lamp takes and carries it: two nodes, each behind a script of calls.
 * `make -C examples/c` builds and runs it. */
#include <stdio.h>
#include <string.h>

#include "kallqono_script.h"

#define KEY "00112233445566778899AABBCCDDEEFF"

/* The replies to a script, as a string. */
static int replies_to(const char *script, char *out, size_t room) {
    size_t size;
    uint32_t answer = kallqono_script((const uint8_t *)script, strlen(script), (uint8_t *)out, room - 1, &size);
    if (answer != 0) {
        printf("answered %u\n", answer);
        return 1;
    }
    out[size] = 0;
    return 0;
}

int main(void) {
    char sealed[1024], script[2048], frame[600], taken[1024], small[1];
    size_t size = 0;

    /* HMAC over SHA-256, tags of 16 bytes; the cabinet's own address is 1, the lamp's 258 */
    if (replies_to("node 2 4 16 1\ninstall 2 " KEY "\nseal 2 258 0 28 295\n", sealed, sizeof sealed))
        return 1;
    printf("cabinet:\n%s", sealed);
    if (sscanf(sealed, "ok\nok\nframe %599s", frame) != 1)
        return 1;

    /* the lamp takes the frame, is asked to take it again, and carries the order */
    snprintf(script, sizeof script, "node 2 4 16 258\ninstall 2 " KEY "\ntake %s\ntake %s\ncarry 2 1 0 40 8 1\ntake %s\nstate\n", frame, frame, frame);
    if (replies_to(script, taken, sizeof taken))
        return 1;
    printf("lamp:\n%s", taken);
    if (strcmp(taken, "ok\nok\norder 2 1 0 40 8 1\nno 21\nok\nno 19\n40 1 1 0\n") != 0)
        return 1;

    /* a place that is too short */
    if (kallqono_script((const uint8_t *)"meter\n", 6, (uint8_t *)small, sizeof small, &size) != 6 || size != 2)
        return 1;
    printf("sealed, taken, carried\n");
    return 0;
}
