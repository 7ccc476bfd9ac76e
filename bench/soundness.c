// The soundness of a full store of 1,024 entries, beside the SHA-256 blocks that no judge can do without, in one run.
// An entry costs two blocks for its leaf (17 bytes of tag, 64 of value), two for its label (20, 48 of key, 32 of digest), and
// two more for each child (17 and twice 32): 6 times 1,024 less 2.
#include <stdio.h>
#include <stdlib.h>
#include <string.h>
#include "clock.h"

typedef void hash(const uint8_t *, size_t, uint8_t *);
typedef void blocks(uint32_t *, const uint8_t *, size_t);
extern hash plain_gcc;
extern blocks blocks_gcc, blocks_clang;
extern _Bool dampcandle_judge(const uint8_t *, size_t);

enum { N = 1024, LEN = 8 + 150 * N, BLOCKS = 6 * N - 2, TURNS = 40 };
static uint8_t store[LEN], key[N][48], value[N][64];
static int slot_of[N];

static uint8_t *at(int slot) { return store + 8 + 150 * (slot - 1); }

static void tagged(const char *tag, const uint8_t *a, size_t n, const uint8_t *b, size_t m, uint8_t *out) {
  uint8_t x[256];
  size_t t = strlen(tag);
  x[0] = t;
  memcpy(x + 1, tag, t);
  memcpy(x + 1 + t, a, n);
  memcpy(x + 1 + t + n, b, m);
  plain_gcc(x, 1 + t + n + m, out);
}

static void put(uint8_t *p, int n, uint64_t w) {
  for (int i = 0; i < n; i++) p[i] = w >> 8 * (n - 1 - i);
}

// The entries from lo up to hi, in a node over halves that differ by at most one level; the last level is red and on the left.
static int build(int lo, int hi, int red) {
  if (lo == hi) return 0;
  int n = hi - lo, left = n / 2;
  int l = build(lo, lo + left, n == 2), r = build(lo + left + 1, hi, 0), me = lo + left, slot = slot_of[me];
  uint8_t *p = at(slot), leaf[32], data[32];
  put(p, 6, 1ull << 47 | (uint64_t)red << 46 | (uint64_t)l << 35 | (uint64_t)r << 24 | 48ull << 18 | 64ull << 11);
  memcpy(p + 6, key[me], 48);
  memcpy(p + 54, value[me], 64);
  tagged("ic-hashtree-leaf", value[me], 64, 0, 0, leaf);
  tagged("ic-hashtree-labeled", key[me], 48, leaf, 32, data);
  if (r) tagged("ic-hashtree-fork", data, 32, at(r) + 118, 32, data);
  if (l) tagged("ic-hashtree-fork", at(l) + 118, 32, data, 32, data);
  memcpy(p + 118, data, 32);
  return slot;
}

static int order(const void *a, const void *b) { return memcmp(a, b, 48); }

int main(void) {
  for (int i = 0; i < N; i++) {
    for (int j = 0; j < 48; j++) key[i][j] = rnd() >> 32;
    for (int j = 0; j < 64; j++) value[i][j] = rnd() >> 32;
    slot_of[i] = i + 1;
  }
  for (int i = N - 1; i > 0; i--) {
    int j = rnd() % (i + 1), t = slot_of[i];
    slot_of[i] = slot_of[j], slot_of[j] = t;
  }
  qsort(key, N, 48, order);
  int root = build(0, N, 0);
  put(store, 8, 1ull << 60 | (uint64_t)N << 49 | (uint64_t)N << 38 | (uint64_t)root << 27);

  if (!dampcandle_judge(store, LEN)) return puts("the store is refused"), 1;
  for (int bit = 0; bit < LEN * 8; bit += 997) {
    store[bit / 8] ^= 1 << bit % 8;
    if (dampcandle_judge(store, LEN)) return printf("bit %d may be turned\n", bit), 1;
    store[bit / 8] ^= 1 << bit % 8;
  }

  double best[3] = {1e9, 1e9, 1e9};
  static uint8_t room[BLOCKS * 64];
  static volatile uint32_t sink;
  for (size_t i = 0; i < sizeof room; i++) room[i] = rnd();
  for (int turn = 0; turn < TURNS; turn++)
    for (int k = 0; k < 3; k++) {
      uint32_t v[8] = {turn};
      double t = cpu();
      if (k == 0) sink = dampcandle_judge(store, LEN);
      if (k == 1) blocks_gcc(v, room, BLOCKS);
      if (k == 2) blocks_clang(v, room, BLOCKS);
      t = cpu() - t;
      sink = v[0];
      if (t < best[k]) best[k] = t;
    }
  printf("soundness of %d entries %.3f ms\n", N, best[0] * 1e3);
  printf("%d blocks by gcc   -O3  %.3f ms   soundness over it %.3f\n", BLOCKS, best[1] * 1e3, best[0] / best[1]);
  printf("%d blocks by clang -O3  %.3f ms   soundness over it %.3f\n", BLOCKS, best[2] * 1e3, best[0] / best[2]);
}
