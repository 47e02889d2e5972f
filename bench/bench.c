/* Times SHA3-256 of one long message and of many short ones: Rattle's, the same code in Rust, and OpenSSL's, in turns.
 * Each is timed in every round, and the best of its times counts. */

#include <openssl/evp.h>
#include <stdint.h>
#include <stdio.h>
#include <stdlib.h>
#include <string.h>
#include <time.h>

enum { ROUNDS = 9, LONG = 64 << 20, SHORT = 66, MESSAGES = 1000000, DIGEST = 32 };

void rattle_sha3_256(const uint8_t *bytes, size_t length, uint8_t *digest);
void rust_sha3_256(const uint8_t *bytes, size_t length, uint8_t *digest);

static EVP_MD *algorithm;
static EVP_MD_CTX *context;

static void openssl_sha3_256(const uint8_t *bytes, size_t length, uint8_t *digest) {
    unsigned written;
    if (!EVP_DigestInit_ex2(context, algorithm, NULL) || !EVP_DigestUpdate(context, bytes, length)
        || !EVP_DigestFinal_ex(context, digest, &written))
        abort();
}

typedef void (*Hash)(const uint8_t *bytes, size_t length, uint8_t *digest);

static const struct { const char *name; Hash hash; } made[] = {
    { "rattle", rattle_sha3_256 },
    { "rust", rust_sha3_256 },
    { "openssl", openssl_sha3_256 },
};

enum { MADE = sizeof made / sizeof *made };

/* The processor's time of this process in milliseconds: other processes' turns do not count. */
static double now(void) {
    struct timespec t;
    clock_gettime(CLOCK_PROCESS_CPUTIME_ID, &t);
    return t.tv_sec * 1e3 + t.tv_nsec * 1e-6;
}

/* The time in milliseconds of `count` messages of `length` bytes. Each begins with its number. All digests are joined to one. */
static double timed(Hash hash, uint8_t *bytes, size_t length, uint32_t count, uint8_t *joined) {
    uint8_t digest[DIGEST];
    memset(joined, 0, DIGEST);
    double start = now();
    for (uint32_t i = 0; i < count; i++) {
        memcpy(bytes, &i, sizeof i);
        hash(bytes, length, digest);
        for (int k = 0; k < DIGEST; k++)
            joined[k] ^= digest[k];
    }
    return now() - start;
}

static int compared(const char *what, uint8_t *bytes, size_t length, uint32_t count) {
    double best[MADE];
    uint8_t joined[MADE][DIGEST];
    for (int round = 0; round < ROUNDS; round++)
        for (int m = 0; m < MADE; m++) {
            double time = timed(made[m].hash, bytes, length, count, joined[m]);
            if (round == 0 || time < best[m])
                best[m] = time;
        }
    printf("%s:", what);
    for (int m = 0; m < MADE; m++) {
        printf(" %s %.1f ms%s", made[m].name, best[m], m + 1 < MADE ? "," : "\n");
        if (memcmp(joined[m], joined[0], DIGEST)) {
            printf("%s has other digests\n", made[m].name);
            return 1;
        }
    }
    printf("    rattle / openssl %.2f (at most 1.25), rattle / rust %.2f (at most 1.10)\n", best[0] / best[2], best[0] / best[1]);
    return 0;
}

int main(void) {
    uint8_t *bytes = malloc(LONG);
    algorithm = EVP_MD_fetch(NULL, "SHA3-256", NULL);
    context = EVP_MD_CTX_new();
    if (!bytes || !algorithm || !context)
        return 1;
    memset(bytes, 0xa3, LONG);
    printf("SHA3-256, the best of %d rounds\n", ROUNDS);
    return compared("64 MiB in one message", bytes, LONG, 1) | compared("a million messages of 66 bytes", bytes, SHORT, MESSAGES);
}
