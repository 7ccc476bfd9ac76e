// Witnesses of a store of 1,024 entries that is known to be sound, and rebuild, beside the Rust's rb_tree. See witnesses.sh.
#include "tables.h"

enum { TURNS = 15, RANGE = 32, RANGES = MOST - RANGE + 1, TREES = 64, OUTPUT = 1 << 18 };
enum { OURS, BUILT, WRITTEN, SAME_BUILT, SAME_WRITTEN, SIDES };
enum { TREE, WITNESS, KEYS, VALUES, REBUILD, CALLS };
static const char *called[] = {"as_hash_tree", "witness of one key", "key_range of 32", "value_range of 32", "rebuild of as_hash_tree"};
static const int many[] = {TREES, MOST, RANGES, RANGES, TREES};
static u8 store[8 + 150 * MOST], keys[ROW * MOST], values[ROW * MOST], sorted[ROW * MOST], out[OUTPUT], other[OUTPUT], whole[OUTPUT];
static const size_t len = sizeof store, table = sizeof keys;
static int k, v;
static size_t size[CALLS], whole_size, digests[CALLS], blocks[CALLS];
static void *map, *tree;
static double best[SIDES][CALLS];

static int order(const void *a, const void *b) { return memcmp(a, b, ROW); }

static double judging(void) {
  double t = cpu();
  must(timed_read(DO_GET, store, len, keys, table, keys, table, k, 0, out, OUTPUT) == 0, "get");
  return cpu() - t;
}

static void reads(int what, const u8 *lasts, int rows, int call) {
  must(timed_read(what, store, len, sorted, table, lasts, ROW * rows, k, rows, out, OUTPUT) == (size_t)rows, called[call]);
}

static void ours(int call) {
  const u8 *lasts = sorted + ROW * (RANGE - 1);
  u8 digest[32];
  if (call == TREE) reads(DO_TREE, sorted, TREES, call);
  if (call == WITNESS) reads(DO_WITNESS, sorted, MOST, call);
  if (call == KEYS) reads(DO_KEYS, lasts, RANGES, call);
  if (call == VALUES) reads(DO_VALUES, lasts, RANGES, call);
  if (call == REBUILD)
    for (int i = 0; i < TREES; i++) must(timed_rebuild(whole, whole_size, digest) == 0 && !memcmp(digest, root_of(store), 32), called[call]);
}

// Builds and frees the tree, and writes it where `write` says so. A rebuild that is not written: the digest of a tree that stands.
static void rust(int call, yes write) {
  const u8 *lasts = sorted + ROW * (RANGE - 1);
  u8 digest[32];
  if (call == TREE) size[call] = rust_as_hash_tree(map, TREES, write, other, OUTPUT);
  if (call == WITNESS) size[call] = rust_witness(map, sorted, k, MOST, write, other, OUTPUT);
  if (call == KEYS) size[call] = rust_range(map, 0, sorted, lasts, k, RANGES, write, other, OUTPUT);
  if (call == VALUES) size[call] = rust_range(map, 1, sorted, lasts, k, RANGES, write, other, OUTPUT);
  if (call == REBUILD)
    for (int i = 0; i < TREES; i++) {
      if (write) must(rust_rebuild(whole, whole_size, digest), called[call]);
      else rust_digest(tree, digest);
      must(!memcmp(digest, root_of(store), 32), called[call]);
    }
  rust_hashed(&digests[call], &blocks[call]);
}

static void same_bytes(int call) {
  u8 digest[32];
  memset(out, 0, OUTPUT);
  ours(call);
  rust(call, 1);
  if (call == REBUILD) return;
  must(!memcmp(out, other, size[call]), called[call]);
  must(timed_rebuild(out, size[call], digest) == 0 && !memcmp(digest, root_of(store), 32), "a witness rebuilds to another root");
}

int main(void) {
  int lengths[][2] = {{24, 16}, {48, 64}}, way[MOST];
  for (int l = 0; l < 2; l++) {
    k = lengths[l][0], v = lengths[l][1];
    shuffle(way, MOST);
    for (int i = 0; i < MOST; i++) name(keys + ROW * i, way[i], k), describe(values + ROW * i, v);
    memcpy(sorted, keys, table);
    qsort(sorted, MOST, ROW, order);
    fresh(store, MOST);
    must(timed_change(DO_INSERT, store, len, keys, table, k, values, sizeof values, v, MOST), "insert");
    map = rust_new();
    rust_insert(map, keys, k, values, v, MOST);
    whole_size = rust_as_hash_tree(map, 1, 1, whole, OUTPUT);
    tree = rust_tree(whole, whole_size);
    for (int c = 0; c < CALLS; c++) same_bytes(c);
    for (int s = 0; s < SIDES; s++)
      for (int c = 0; c < CALLS; c++) best[s][c] = 1e9;
    for (int turn = 0; turn < TURNS; turn++)
      for (int c = 0; c < CALLS; c++)
        for (int s = 0; s < SIDES; s++) {
          rust_hash_by_ours(s >= SAME_BUILT);
          double judged = s == OURS && c != REBUILD ? judging() : 0, t = cpu();
          s == OURS ? ours(c) : rust(c, s == WRITTEN || s == SAME_WRITTEN);
          keep_least(&best[s][c], (cpu() - t - judged) / many[c]);
        }
    for (int c = 0; c < CALLS; c++) rust(c, 1);
    printf("%d entries, keys of %d bytes, values of %d\n", MOST, k, v);
    printf("  microseconds for one         ours   Rust: built over ours  and written over ours   with our SHA-256: built over ours  and written over ours  digests  blocks   bytes\n");
    for (int c = 0; c < CALLS; c++) {
      printf("  %-23s %9.2f", called[c], best[OURS][c] * 1e6);
      for (int s = 1; s < SIDES; s++) printf("   %9.2f %9.2f", best[s][c] * 1e6, best[s][c] / best[OURS][c]);
      printf("   %9.2f %9.2f %7zu\n", (double)digests[c] / many[c], (double)blocks[c] / many[c], c == REBUILD ? whole_size : size[c]);
    }
    rust_free(map);
  }
}
