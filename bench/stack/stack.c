/* How much stack each exported function of the crate `probe` touches. It is run on a stack of its own, painted before, and what has
 * another colour afterwards was touched. A call that does nothing is taken off. */
#include <stdint.h>
#include <stdio.h>
#include <stdlib.h>
#include <string.h>
#include <ucontext.h>

enum { SIZE = 1 << 16, PAINT = 0xA5, LAMP = 4096, WORK = 64, FRAME = 8 + 255 + 32 };

struct work { uint8_t bytes[64]; };
typedef uint32_t probe(uint8_t, uint8_t, const uint8_t *, size_t, const uint8_t *, size_t, uint8_t *, size_t, struct work *);

#define PAIR(a, h) extern probe probe_install_##a##_##h, probe_seal_##a##_##h, probe_take_##a##_##h, probe_lane_##a##_##h;
PAIR(1, 1) PAIR(1, 3) PAIR(2, 1) PAIR(2, 3) PAIR(2, 4) PAIR(3, 1) PAIR(3, 3)

static _Alignas(64) uint8_t stack[SIZE];
static ucontext_t here, there;
static probe *call;
static uint8_t key[16] = { 1, 2, 3 }, body[255], frame[FRAME], out[FRAME];
static const uint8_t *piece;
static size_t piece_length;
static uint8_t t, kind;
static struct work work;
static uint32_t answer;

static uint32_t nothing(uint8_t t_, uint8_t k, const uint8_t *a, size_t b, const uint8_t *c, size_t d, uint8_t *e, size_t f, struct work *g) {
    (void)t_, (void)k, (void)a, (void)b, (void)c, (void)d, (void)e, (void)f, (void)g;
    return 0;
}

static void run(void) { answer = call(t, kind, key, sizeof key, piece, piece_length, out, sizeof out, &work); }

static size_t touched(probe *p) {
    call = p;
    memset(stack, PAINT, SIZE);
    getcontext(&there);
    there.uc_stack.ss_sp = stack;
    there.uc_stack.ss_size = SIZE;
    there.uc_link = &here;
    makecontext(&there, run, 0);
    swapcontext(&here, &there);
    if (answer != 0) {
        printf("answered %u\n", answer);
        exit(1);
    }
    size_t at = 0;
    while (at < SIZE && stack[at] == PAINT)
        at++;
    return SIZE - at;
}

int main(void) {
    static const char *algorithms[] = { 0, "MDx-MAC", "HMAC", "short strings" }, *hashes[] = { 0, "RIPEMD-160", 0, "SHA-1", "SHA-256" };
#define ROW(a, h, w) { a, h, w, probe_install_##a##_##h, probe_seal_##a##_##h, probe_take_##a##_##h, probe_lane_##a##_##h }
    static const struct { int a, h, w; probe *install, *seal, *take, *lane; } rows[] = {
        ROW(1, 1, 5), ROW(1, 3, 5), ROW(2, 1, 5), ROW(2, 3, 5), ROW(2, 4, 8), ROW(3, 1, 5), ROW(3, 3, 5),
    };
    size_t base = touched(nothing), most = 0;
    printf("| algorithm, hash | install | seal | take | open, feed, finish |\n|---|---|---|---|---|\n");
    for (size_t i = 0; i < sizeof rows / sizeof rows[0]; i++) {
        size_t length = rows[i].a == 3 ? 24 : 255, got[4];
        t = rows[i].a == 3 ? 2 * rows[i].w : 4 * rows[i].w;
        kind = 1;
        piece = body, piece_length = length;
        got[0] = touched(rows[i].install) - base;
        got[1] = touched(rows[i].seal) - base;
        memcpy(frame, out, sizeof frame);
        piece = frame, piece_length = 8 + length + t;
        got[2] = touched(rows[i].take) - base;
        piece = body, piece_length = length;
        got[3] = touched(rows[i].lane) - base;
        printf("| %s, %s |", algorithms[rows[i].a], hashes[rows[i].h]);
        for (int j = 0; j < 4; j++) {
            printf(" %zu |", got[j]);
            if (got[j] > most)
                most = got[j];
        }
        printf("\n");
    }
    printf("\nThe most: %zu bytes of stack, the node among them; with the work block (%d) and the longest frame (%d) %zu of %d bytes.\n", most, WORK, FRAME, most + WORK + FRAME, LAMP);
    return most + WORK + FRAME > LAMP;
}
