// Measures the hashes and the tree of this repository against others, after checking that all give one answer. README.md says what
// is measured and how it is to be read.
#include "plain.h"
#include <dlfcn.h>
#include <stdio.h>
#include <time.h>
#ifdef WITH_OPENSSL
#define OPENSSL_SUPPRESS_DEPRECATED
#include <openssl/crypto.h>
#include <openssl/evp.h>
#include <openssl/sha.h>
#endif

// Ours, as crates/bench_c exports them. A slice is a pointer and a length.
void bench_sha256(const uint8_t *message, size_t length, uint8_t out[32]);
uint64_t bench_siphash_2_4(const uint8_t key[16], const uint8_t *message, size_t length);
void bench_sha256_image(const uint8_t salt[16], const uint8_t block[512], uint8_t out[32]);
void bench_siphash_image(const uint8_t key[16], const uint8_t block[512], uint8_t out[32]);
uint32_t bench_sha256_root(const uint8_t salt[16], const block_t *blocks, size_t count, size_t times, uint8_t out[32]);
uint32_t bench_siphash_root(const uint8_t key[16], const block_t *blocks, size_t count, size_t times, uint8_t out[32]);

// What a call for a root answers; 2 is want of memory.
enum { MADE = 0, NO_VOLUME = 1 };

enum { BLOCKS = 4096, SALTED = 16 + 512, SIDES = 8 };

static uint8_t key[16];         // the key of SipHash, and the salt of SHA-256
static uint8_t message[SALTED]; // what is hashed
static block_t blocks[BLOCKS];  // what the tree is over

// One of those that are compared: a hash of a message, or the root of the tree over all blocks, made so many times (false: no memory).
struct side {
    const char *name;
    void (*hash)(const uint8_t *message, size_t length, uint8_t out[32]);
    bool (*root)(size_t times, uint8_t out[32]);
};

// What is compared. The first side is ours.
struct group {
    const char *title;
    size_t length; // of the message, or of all blocks
    int times;     // so often it is done between two looks at the clock
    int rounds;    // so many such turns has each side
    size_t count;
    struct side sides[SIDES];
};

static void add(struct group *group, struct side side) { group->sides[group->count++] = side; }

// ---- The hashes

static void put_word(uint64_t word, uint8_t out[8]) {
    for (int i = 0; i < 8; i++) out[i] = (uint8_t)(word >> (8 * i));
}

static void our_siphash(const uint8_t *m, size_t length, uint8_t out[32]) { put_word(bench_siphash_2_4(key, m, length), out); }

static void plain_siphash(const uint8_t *m, size_t length, uint8_t out[32]) { put_word(plain_siphash_2_4(key, m, length), out); }

// libsodium is asked for when the program runs, so that it needs no header.
static int (*sodium_shorthash)(uint8_t *out, const uint8_t *in, unsigned long long length, const uint8_t *key);

static void sodium_siphash(const uint8_t *m, size_t length, uint8_t out[32]) { sodium_shorthash(out, m, length, key); }

static void plain_sha256_image(const uint8_t salt[16], const uint8_t block[512], uint8_t cell[32]) {
    uint8_t salted[SALTED];
    memcpy(salted, salt, 16);
    memcpy(salted + 16, block, 512);
    plain_sha256(salted, SALTED, cell);
}

static void plain_siphash_image(const uint8_t k[16], const uint8_t block[512], uint8_t cell[32]) {
    put_word(plain_siphash_2_4(k, block, 512), cell);
    memset(cell + 8, 0, 24);
}

static void sodium_siphash_image(const uint8_t k[16], const uint8_t block[512], uint8_t cell[32]) {
    sodium_shorthash(cell, block, 512, k);
    memset(cell + 8, 0, 24);
}

#ifdef WITH_OPENSSL
static EVP_MD *evp_sha256;
static EVP_MD_CTX *evp_context;

static void openssl_one_shot(const uint8_t *m, size_t length, uint8_t out[32]) { SHA256(m, length, out); }

static void openssl_evp(const uint8_t *m, size_t length, uint8_t out[32]) {
    EVP_DigestInit_ex(evp_context, evp_sha256, NULL);
    EVP_DigestUpdate(evp_context, m, length);
    EVP_DigestFinal_ex(evp_context, out, NULL);
}

static void openssl_low_level(const uint8_t *m, size_t length, uint8_t out[32]) {
    SHA256_CTX c;
    SHA256_Init(&c);
    SHA256_Update(&c, m, length);
    SHA256_Final(out, &c);
}

static void openssl_image(const uint8_t salt[16], const uint8_t block[512], uint8_t cell[32]) {
    SHA256_CTX c;
    SHA256_Init(&c);
    SHA256_Update(&c, salt, 16);
    SHA256_Update(&c, block, 512);
    SHA256_Final(cell, &c);
}
#endif

// ---- The trees

// A side that makes the tree by one call each time.
#define EACH_TIME(name, once)                              \
    static bool name(size_t times, uint8_t out[32]) {      \
        for (size_t i = 0; i < times; i++)                 \
            if (!(once)) return false;                     \
        return true;                                       \
    }

static bool our_sha256_root(size_t times, uint8_t out[32]) { return bench_sha256_root(key, blocks, BLOCKS, times, out) == MADE; }
static bool our_siphash_root(size_t times, uint8_t out[32]) { return bench_siphash_root(key, blocks, BLOCKS, times, out) == MADE; }
EACH_TIME(our_sha256_root_copied, bench_sha256_root(key, blocks, BLOCKS, 1, out) == MADE)
EACH_TIME(our_siphash_root_copied, bench_siphash_root(key, blocks, BLOCKS, 1, out) == MADE)
EACH_TIME(plain_sha256_root, plain_root(plain_sha256_image, key, blocks, BLOCKS, out))
EACH_TIME(plain_siphash_root, plain_root(plain_siphash_image, key, blocks, BLOCKS, out))
EACH_TIME(sodium_siphash_root, plain_root(sodium_siphash_image, key, blocks, BLOCKS, out))
#ifdef WITH_OPENSSL
EACH_TIME(openssl_root, plain_root(openssl_image, key, blocks, BLOCKS, out))
#endif

// ---- Checking

// The answer to the i-th message, or the root.
static bool answer(const struct group *group, const struct side *side, size_t i, uint8_t out[32]) {
    memset(out, 0, 32);
    if (side->root != NULL) return side->root(1, out);
    side->hash(blocks[i], group->length, out);
    return true;
}

// Whether every side gives our answer, to a hundred messages or for the tree.
static bool agree(const struct group *group) {
    size_t messages = group->sides[0].root != NULL ? 1 : 100;
    bool all = true;
    for (size_t s = 1; s < group->count; s++) {
        size_t same = 0;
        for (size_t i = 0; i < messages; i++) {
            uint8_t ours[32], theirs[32];
            same += answer(group, &group->sides[0], i, ours) && answer(group, &group->sides[s], i, theirs) && memcmp(ours, theirs, 32) == 0;
        }
        if (same < messages) printf("%s: %s gives another answer than ours, %zu of %zu times\n", group->title, group->sides[s].name, messages - same, messages);
        all = all && same == messages;
    }
    return all;
}

// Whether the images and the roots of smaller trees are those of plain C, and no tree is made over too few blocks or too many.
static bool others_agree(void) {
    uint8_t ours[32], plain[32];
    bool images = true, roots = true;
    for (size_t i = 0; i < 100; i++) {
        bench_sha256_image(key, blocks[i], ours), plain_sha256_image(key, blocks[i], plain);
        images = images && memcmp(ours, plain, 32) == 0;
        bench_siphash_image(key, blocks[i], ours), plain_siphash_image(key, blocks[i], plain);
        images = images && memcmp(ours, plain, 32) == 0;
    }
    for (size_t count = 1; count < 600; count += 37) {
        roots = roots && bench_sha256_root(key, blocks, count, 1, ours) == MADE && plain_root(plain_sha256_image, key, blocks, count, plain) && memcmp(ours, plain, 32) == 0;
        roots = roots && bench_siphash_root(key, blocks, count, 1, ours) == MADE && plain_root(plain_siphash_image, key, blocks, count, plain) && memcmp(ours, plain, 32) == 0;
    }
    roots = roots && bench_siphash_root(key, blocks, 0, 1, ours) == NO_VOLUME && bench_siphash_root(key, blocks, BLOCKS + 1, 1, ours) == NO_VOLUME;
    if (!images) puts("images: plain C gives others than ours");
    if (!roots) puts("smaller trees: plain C gives other roots than ours");
    return images && roots;
}

// ---- Measuring

static double now(void) {
    struct timespec t;
    clock_gettime(CLOCK_MONOTONIC, &t);
    return (double)t.tv_sec + (double)t.tv_nsec * 1e-9;
}

// Does it so many times, and says how long once takes. A byte of each hash goes into the next message, so that no call can begin before
// the last has ended.
static double turn(const struct group *group, const struct side *side) {
    uint8_t out[32];
    double start = now();
    if (side->root != NULL) {
        side->root((size_t)group->times, out);
    } else {
        for (int i = 0; i < group->times; i++) {
            side->hash(message, group->length, out);
            message[0] ^= out[0];
        }
    }
    return (now() - start) / group->times;
}

// The sides take turns, and of each the shortest turn counts, so that what else the machine does falls out.
static void measure(const struct group *group) {
    double least[SIDES];
    for (int r = 0; r < group->rounds; r++)
        for (size_t s = 0; s < group->count; s++) {
            double t = turn(group, &group->sides[s]);
            if (r == 0 || t < least[s]) least[s] = t;
        }
    printf("%s\n", group->title);
    for (size_t s = 0; s < group->count; s++) {
        printf("  %-44s %10.2f us %8.1f MB/s", group->sides[s].name, least[s] * 1e6, (double)group->length / least[s] / 1e6);
        if (s > 0) printf("   ratio %.3f", least[s] / least[0]);
        puts("");
    }
}

// ---- What is compared

static void with_openssl(struct group *hash, struct group *tree) {
#ifdef WITH_OPENSSL
    evp_sha256 = EVP_MD_fetch(NULL, "SHA256", NULL);
    evp_context = EVP_MD_CTX_new();
    if (evp_sha256 == NULL || evp_context == NULL) {
        puts("OpenSSL: skipped, it has no SHA256");
        return;
    }
    const char *capabilities = getenv("OPENSSL_ia32cap");
    printf("%s, OPENSSL_ia32cap %s\n", OpenSSL_version(OPENSSL_VERSION), capabilities != NULL ? capabilities : "not set: it may use hardware SHA");
    add(hash, (struct side){"OpenSSL, SHA256()", openssl_one_shot, NULL});
    add(hash, (struct side){"OpenSSL, EVP, one context, fetched digest", openssl_evp, NULL});
    add(hash, (struct side){"OpenSSL, SHA256_Init, _Update, _Final", openssl_low_level, NULL});
    add(tree, (struct side){"plain C over SHA256_Init, _Update, _Final", NULL, openssl_root});
#else
    (void)hash, (void)tree;
    puts("OpenSSL: skipped, its headers are not there");
#endif
}

static void with_sodium(struct group *hash, struct group *tree) {
    void *sodium = dlopen("libsodium.so.23", RTLD_NOW);
    if (sodium == NULL) sodium = dlopen("libsodium.so", RTLD_NOW);
    if (sodium != NULL) *(void **)&sodium_shorthash = dlsym(sodium, "crypto_shorthash");
    if (sodium_shorthash == NULL) {
        puts("libsodium: skipped, it is not there");
        return;
    }
    add(hash, (struct side){"libsodium, crypto_shorthash", sodium_siphash, NULL});
    add(tree, (struct side){"plain C over crypto_shorthash", NULL, sodium_siphash_root});
}

// Numbers from a fixed seed (splitmix64), so that each run has the same blocks.
static void fill(void *to, size_t length) {
    static uint64_t seed = 1;
    for (size_t i = 0; i < length; i++) {
        uint64_t z = seed += 0x9e3779b97f4a7c15;
        z = (z ^ (z >> 30)) * 0xbf58476d1ce4e5b9;
        z = (z ^ (z >> 27)) * 0x94d049bb133111eb;
        ((uint8_t *)to)[i] = (uint8_t)(z >> 56);
    }
}

int main(void) {
    fill(key, sizeof key), fill(message, sizeof message), fill(blocks, sizeof blocks);
    struct group groups[] = {
        {"SHA-256 of a message of 528 bytes", SALTED, 2000, 50, 2, {{"ours", bench_sha256, NULL}, {"plain C", plain_sha256, NULL}}},
        {"SipHash-2-4 of a block of 512 bytes", 512, 10000, 50, 2, {{"ours", our_siphash, NULL}, {"plain C", plain_siphash, NULL}}},
        {"tree over 4096 blocks, SHA-256 with a salt", sizeof blocks, 4, 20, 3, {{"ours", NULL, our_sha256_root}, {"ours, copying in the blocks each time", NULL, our_sha256_root_copied}, {"plain C", NULL, plain_sha256_root}}},
        {"tree over 4096 blocks, SipHash-2-4", sizeof blocks, 8, 30, 3, {{"ours", NULL, our_siphash_root}, {"ours, copying in the blocks each time", NULL, our_siphash_root_copied}, {"plain C", NULL, plain_siphash_root}}},
    };
    with_openssl(&groups[0], &groups[2]);
    with_sodium(&groups[1], &groups[3]);
    bool good = others_agree();
    for (size_t g = 0; g < sizeof groups / sizeof *groups; g++) {
        if (agree(&groups[g]))
            measure(&groups[g]);
        else
            good = false;
    }
    if (!good) puts("answers differ: see above");
    return good ? 0 : 1;
}
