/* Times the merge of one dictionary column, 100,000 short names of which 10,000 differ, and the hash of a name of 16 bytes, against plain
   loops of the same rule over the same memory; prints the ratios (below 1: faster than plain). */
#include <stdint.h>
#include <stdio.h>
#include <stdlib.h>
#include <string.h>
#include <time.h>

enum { NAMES = 100000, DIFFERENT = 10000, ROUNDS = 60 };

typedef struct { uint64_t root, kind, width, logic, size, span, start, length, nulls, v, a, b, count; } Record;
typedef struct { uint64_t input, entry; } Slot;

extern uint64_t timing_fnv1a(const uint8_t *name, size_t n);
extern uint64_t timing_merge(const Record *records, size_t nr, const uint8_t *bytes, size_t nb, uint64_t rows, uint64_t *keys, size_t nk,
                             uint64_t *buckets, size_t nbu, Slot *chosen, size_t nc);

static double seconds(void) {
    struct timespec t;
    clock_gettime(CLOCK_MONOTONIC, &t);
    return t.tv_sec + t.tv_nsec * 1e-9;
}

__attribute__((noipa)) static uint64_t plain_fnv1a(const uint8_t *name, size_t n) {
    uint64_t h = 14695981039346656037u;
    for (size_t i = 0; i < n; i++) h = (h ^ name[i]) * 1099511628211u;
    return h;
}

static uint32_t u32_at(const uint8_t *p) {
    uint32_t x;
    memcpy(&x, p, 4);
    return x;
}

/* The same rule: mark the used entries, count them, intern them in order. */
__attribute__((noipa)) static uint64_t plain_merge(const Record *records, const uint8_t *bytes, uint64_t rows, uint64_t *keys, uint64_t *buckets, Slot *chosen) {
    const uint8_t *key = bytes + records[0].a, *offset = bytes + records[1].a, *text = bytes + records[1].b;
    uint64_t entries = records[1].length, used = 0, made = 0;
    memset(keys, 0, entries * 8);
    for (uint64_t i = 0; i < rows; i++) keys[u32_at(key + 4 * i)] = 1;
    for (uint64_t j = 0; j < entries; j++) used += keys[j];
    int shift = __builtin_clzll(used + 128);
    memset(buckets, 0, ((uint64_t)1 << (64 - shift)) * 8);
    for (uint64_t j = 0; j < entries; j++) {
        if (!keys[j]) continue;
        uint32_t from = u32_at(offset + 4 * j), to = u32_at(offset + 4 * j + 4);
        uint64_t h = 14695981039346656037u;
        for (uint32_t i = from; i < to; i++) h = (h ^ text[i]) * 1099511628211u;
        uint64_t *bucket = &buckets[h >> shift];
        if (*bucket) {
            uint64_t e = chosen[*bucket - 1].entry;
            uint32_t f = u32_at(offset + 4 * e), t = u32_at(offset + 4 * e + 4);
            if (t - f == to - from && memcmp(text + f, text + from, to - from) == 0) {
                keys[j] = *bucket;
                continue;
            }
        }
        chosen[made].input = 0;
        chosen[made].entry = j;
        made++;
        *bucket = made;
        keys[j] = made;
    }
    return made;
}

/* Name number n: 6 to 13 small letters. */
static uint64_t name_of(uint64_t n, uint8_t *to) {
    uint64_t h = (n + 1) * 11400714819323198485u, length = 6 + (h >> 61);
    for (uint64_t i = 0; i < length; i++) {
        to[i] = (uint8_t)('a' + h % 26);
        h = h / 26 + n;
    }
    return length;
}

int main(void) {
    static Record records[2];
    static uint64_t keys[NAMES], plain_keys[NAMES], buckets[1 << 17], plain_buckets[1 << 17];
    static Slot chosen[NAMES], plain_chosen[NAMES];
    static uint8_t bytes[4 * NAMES + 4 * (NAMES + 1) + 16 * NAMES];
    uint64_t seed = 1, at = 0;
    uint8_t *offset = bytes + 4 * NAMES, *text = offset + 4 * (NAMES + 1);
    for (uint32_t i = 0; i <= NAMES; i++) {
        uint32_t o = (uint32_t)at;
        memcpy(offset + 4 * i, &o, 4);
        if (i == NAMES) break;
        memcpy(bytes + 4 * i, &i, 4);
        seed = seed * 6364136223846793005u + 1442695040888963407u;
        at += name_of((seed >> 33) % DIFFERENT, text + at);
    }
    records[0] = (Record){1, 4, 4, 0, 0, 2, 0, NAMES, 0, 0, 0, 0, 0};
    records[1] = (Record){0, 3, 4, 0, 0, 1, 0, NAMES, 0, 0, 4 * NAMES, 4 * NAMES + 4 * (NAMES + 1), at};

    double best = 1e9, plain = 1e9;
    uint64_t ours = 0, theirs = 0;
    for (int r = 0; r < ROUNDS; r++) {
        double t = seconds();
        ours = timing_merge(records, 2, bytes, sizeof bytes, NAMES, keys, NAMES, buckets, 1 << 17, chosen, NAMES);
        double u = seconds();
        theirs = plain_merge(records, bytes, NAMES, plain_keys, plain_buckets, plain_chosen);
        double v = seconds();
        if (u - t < best) best = u - t;
        if (v - u < plain) plain = v - u;
    }
    if (ours == 0 || ours != theirs || memcmp(keys, plain_keys, sizeof keys) || memcmp(chosen, plain_chosen, ours * sizeof(Slot))) {
        printf("the two merges differ: %llu and %llu entries\n", (unsigned long long)ours, (unsigned long long)theirs);
        return 1;
    }
    printf("merge of %d names, %llu entries: %.3f ms, plain %.3f ms, ratio %.2f (at most 1.5)\n", NAMES, (unsigned long long)ours, best * 1e3, plain * 1e3, best / plain);

    uint8_t name[16] = "prop_crate_00016";
    uint64_t sum = 0, other = 0;
    best = plain = 1e9;
    for (int r = 0; r < ROUNDS; r++) {
        double t = seconds();
        for (int i = 0; i < 100000; i++) { name[15] = (uint8_t)(i ^ sum); sum += timing_fnv1a(name, 16); }
        double u = seconds();
        for (int i = 0; i < 100000; i++) { name[15] = (uint8_t)(i ^ other); other += plain_fnv1a(name, 16); }
        double v = seconds();
        if (u - t < best) best = u - t;
        if (v - u < plain) plain = v - u;
    }
    if (sum != other) { printf("the two hashes differ\n"); return 1; }
    printf("hash of 16 bytes: %.2f ns, plain %.2f ns, ratio %.2f (at most 1.2)\n", best * 1e4, plain * 1e4, best / plain);
    return 0;
}
