// The two hashes and the tree in plain C, as references to measure against.
#pragma once
#include <stdbool.h>
#include <stddef.h>
#include <stdint.h>
#include <stdlib.h>
#include <string.h>

void plain_sha256(const uint8_t *message, size_t length, uint8_t out[32]);
uint64_t plain_siphash_2_4(const uint8_t key[16], const uint8_t *message, size_t length);

typedef uint8_t block_t[512];
typedef void image_fn(const uint8_t key[16], const uint8_t block[512], uint8_t cell[32]);

// Makes the level of `up` blocks of the images of the `count` blocks below it.
static inline void plain_level(image_fn *image, const uint8_t key[16], const block_t *below, size_t count, block_t *level, size_t up) {
    memset(level, 0, up * sizeof *level);
    for (size_t i = 0; i < count; i++) image(key, below[i], level[i / 16] + 32 * (i % 16));
}

// The root of the tree over 1 to 4096 blocks, all levels in one run, the top first; false where memory runs out. It is inline, so
// that each hash has a tree of its own.
static inline bool plain_root(image_fn *image, const uint8_t key[16], const block_t *blocks, size_t count, uint8_t root[32]) {
    size_t total = 0;
    for (size_t n = count; total == 0 || n > 1;) total += n = (n + 15) / 16;
    block_t *tree = malloc(total * sizeof *tree);
    if (tree == NULL) return false;
    const block_t *below = blocks;
    for (size_t n = count, start = total; start > 0;) {
        size_t up = (n + 15) / 16;
        start -= up;
        plain_level(image, key, below, n, tree + start, up);
        below = tree + start;
        n = up;
    }
    image(key, tree[0], root);
    free(tree);
    return true;
}
