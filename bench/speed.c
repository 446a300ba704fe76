/* One call, made again and again: speed PEER WHAT HASH BYTES TIMES [time]
 * PEER is kallqono, nettle, libgcrypt, openssl or rustcrypto; WHAT is hash, or tag1, tag2 (HMAC) or tag3; HASH 1, 3 or 4.
 * With `time` it prints the seconds of the TIMES calls and the last result; without, only the result (for callgrind to count). */
#define OPENSSL_SUPPRESS_DEPRECATED
#include <stdint.h>
#include <stdio.h>
#include <stdlib.h>
#include <string.h>
#include <time.h>

#include "kallqono.h"
#include <gcrypt.h>
#include <nettle/hmac.h>
#include <openssl/evp.h>
#include <openssl/hmac.h>
#include <openssl/ripemd.h>
#include <openssl/sha.h>

void rustcrypto_hash(uint32_t, const uint8_t *, size_t, uint8_t *);
void rustcrypto_hmac(uint32_t, const uint8_t *, size_t, const uint8_t *, size_t, uint8_t *);

static uint8_t key[16], out[32];
static uint8_t *message;
static size_t n;
static int hash, what;

static size_t width(void) { return hash == 4 ? 32 : 20; }

static void kallqono(void) {
    static struct kallqono_work work;
    uint64_t rounds;
    uint32_t r;
    if (what == 0)
        r = kallqono_hash(hash, message, n, out, sizeof out);
    else
        r = kallqono_tag(what, hash, what == 3 ? 10 : width(), key, sizeof key, message, n, out, sizeof out, &work, &rounds);
    if (r != 0)
        exit(3);
}

static void nettle(void) {
    union { struct ripemd160_ctx r; struct sha1_ctx s; struct sha256_ctx t; } c;
    union { struct hmac_ripemd160_ctx r; struct hmac_sha1_ctx s; struct hmac_sha256_ctx t; } h;
    switch (what * 10 + hash) {
    case 1: ripemd160_init(&c.r); ripemd160_update(&c.r, n, message); ripemd160_digest(&c.r, 20, out); break;
    case 3: sha1_init(&c.s); sha1_update(&c.s, n, message); sha1_digest(&c.s, 20, out); break;
    case 4: sha256_init(&c.t); sha256_update(&c.t, n, message); sha256_digest(&c.t, 32, out); break;
    case 21: hmac_ripemd160_set_key(&h.r, sizeof key, key); hmac_ripemd160_update(&h.r, n, message); hmac_ripemd160_digest(&h.r, 20, out); break;
    case 23: hmac_sha1_set_key(&h.s, sizeof key, key); hmac_sha1_update(&h.s, n, message); hmac_sha1_digest(&h.s, 20, out); break;
    case 24: hmac_sha256_set_key(&h.t, sizeof key, key); hmac_sha256_update(&h.t, n, message); hmac_sha256_digest(&h.t, 32, out); break;
    }
}

static void libgcrypt(void) {
    int id = hash == 1 ? GCRY_MD_RMD160 : hash == 3 ? GCRY_MD_SHA1 : GCRY_MD_SHA256;
    if (what == 0) {
        gcry_md_hash_buffer(id, out, message, n);
    } else {
        gcry_buffer_t iov[2] = { { .len = sizeof key, .data = key }, { .len = n, .data = message } };
        if (gcry_md_hash_buffers(id, GCRY_MD_FLAG_HMAC, out, iov, 2))
            exit(3);
    }
}

static void openssl(void) {
    union { RIPEMD160_CTX r; SHA_CTX s; SHA256_CTX t; } c;
    if (what == 2) {
        static const EVP_MD *md[5];
        unsigned size;
        if (!md[hash])
            md[hash] = hash == 1 ? EVP_ripemd160() : hash == 3 ? EVP_sha1() : EVP_sha256();
        if (!HMAC(md[hash], key, sizeof key, message, n, out, &size))
            exit(3);
        return;
    }
    switch (hash) {
    case 1: RIPEMD160_Init(&c.r); RIPEMD160_Update(&c.r, message, n); RIPEMD160_Final(out, &c.r); break;
    case 3: SHA1_Init(&c.s); SHA1_Update(&c.s, message, n); SHA1_Final(out, &c.s); break;
    case 4: SHA256_Init(&c.t); SHA256_Update(&c.t, message, n); SHA256_Final(out, &c.t); break;
    }
}

static void rustcrypto(void) {
    if (hash == 1)
        exit(4); /* Debian has no RIPEMD-160 of RustCrypto */
    if (what == 0)
        rustcrypto_hash(hash, message, n, out);
    else
        rustcrypto_hmac(hash, key, sizeof key, message, n, out);
}

int main(int argc, char **argv) {
    if (argc < 6)
        return 2;
    const char *peer = argv[1];
    void (*call)(void) = !strcmp(peer, "kallqono") ? kallqono : !strcmp(peer, "nettle") ? nettle : !strcmp(peer, "libgcrypt") ? libgcrypt
        : !strcmp(peer, "openssl") ? openssl : rustcrypto;
    what = !strcmp(argv[2], "hash") ? 0 : argv[2][3] - '0';
    hash = atoi(argv[3]);
    n = strtoul(argv[4], 0, 10);
    unsigned long times = strtoul(argv[5], 0, 10);
    message = malloc(n + 1);
    for (size_t i = 0; i < n; i++)
        message[i] = (uint8_t)(i * 131 + 7);
    for (size_t i = 0; i < sizeof key; i++)
        key[i] = (uint8_t)(i * 17 + 1);
    if (call == libgcrypt) {
        gcry_check_version(0);
        gcry_control(GCRYCTL_DISABLE_SECMEM, 0);
        gcry_control(GCRYCTL_INITIALIZATION_FINISHED, 0);
    }
    call();
    struct timespec a, b;
    clock_gettime(CLOCK_PROCESS_CPUTIME_ID, &a);
    for (unsigned long i = 0; i < times; i++)
        call();
    clock_gettime(CLOCK_PROCESS_CPUTIME_ID, &b);
    if (argc > 6)
        printf("%.9f ", (double)(b.tv_sec - a.tv_sec) + (double)(b.tv_nsec - a.tv_nsec) * 1e-9);
    for (size_t i = 0; i < (what == 3 ? 10 : width()); i++)
        printf("%02X", out[i]);
    printf("\n");
    return 0;
}
