// Lookup, merge and rebuild in parts, each beside rebuild. See files.sh.
#include "../include/dampcandle.h"
#include "clock.h"
#include <stdbool.h>
#include <stdio.h>
#include <stdlib.h>
#include <string.h>

enum { ENTRIES = 1024, ASKED = 128, TURNS = 15 };

static uint8_t store[8 + 150 * ENTRIES], whole[DAMPCANDLE_MAX_WITNESS], one[DAMPCANDLE_MAX_WITNESS], other[DAMPCANDLE_MAX_WITNESS],
    out[DAMPCANDLE_MAX_WITNESS], state[DAMPCANDLE_PARTS];
static size_t whole_size, one_size, other_size, out_size, key_length, value_length, part;

// ---- the Rust's side, rust_merge.rs

extern void *rust_parse(const uint8_t *, size_t);
extern size_t rust_merge(void *, void *, bool, uint8_t *, size_t);

static void must(int yes, const char *what) {
  if (!yes) {
    fprintf(stderr, "files: %s\n", what);
    exit(1);
  }
}

static void name(uint8_t *key, int i) {
  char digits[16];
  snprintf(digits, sizeof digits, "%06d", i);
  memset(key, 'r', key_length);
  memcpy(key, digits, 6);
}

static void fill(void) {
  uint8_t key[48], value[64];
  must(dampcandle_create(store, sizeof store, ENTRIES) == 0, "create");
  for (int i = 0; i < ENTRIES; i++) {
    name(key, i);
    memset(value, i, value_length);
    must(dampcandle_insert(store, sizeof store, key, key_length, value, value_length) == 0, "insert");
  }
  must(dampcandle_as_hash_tree(store, sizeof store, whole, sizeof whole, &whole_size) == 0, "as_hash_tree");
}

// ---- what is measured

static void ask(void) {
  uint8_t key[48];
  size_t result = 0, at = 0, length = 0;
  for (int i = 0; i < ASKED; i++) {
    name(key, i * (ENTRIES / ASKED));
    must(dampcandle_lookup(whole, whole_size, key, key_length, &result, &at, &length) == 0 && result == DAMPCANDLE_RESULT_FOUND &&
             length == 2 + value_length, "lookup");
  }
}

static void merge(void) {
  must(dampcandle_merge(one, one_size, other, other_size, out, sizeof out, &out_size) == 0, "merge");
}

static void in_parts(void) {
  uint8_t digest[32];
  dampcandle_rebuild_begin(state);
  for (size_t at = 0; at < whole_size; at += part) {
    size_t n = whole_size - at < part ? whole_size - at : part;
    must(dampcandle_rebuild_part(state, whole + at, n) == 0, "rebuild_part");
  }
  must(dampcandle_rebuild_end(state, digest) == 0, "rebuild_end");
}

// ---- beside rebuild of w

static void beside(const char *what, void (*run)(void), int runs, const uint8_t *w, size_t size) {
  double ours = 1e9, rebuilt = 1e9;
  for (int turn = 0; turn < TURNS; turn++) {
    uint8_t digest[32];
    double start = cpu();
    run();
    double took = (cpu() - start) / runs;
    if (took < ours) ours = took;
    start = cpu();
    must(dampcandle_rebuild(w, size, digest) == 0, "rebuild");
    took = cpu() - start;
    if (took < rebuilt) rebuilt = took;
  }
  printf("  %-38s %7.1f us, rebuild %7.1f us, %.3f of it\n", what, ours * 1e6, rebuilt * 1e6, ours / rebuilt);
}

// ---- merge beside the Rust's: of trees that stand, freed after; and with the bytes parsed first and the merge written, as ours does

static void beside_rust(void) {
  double ours = 1e9, merged = 1e9, all = 1e9;
  for (int turn = 0; turn < TURNS; turn++) {
    double start = cpu();
    merge();
    double took = cpu() - start;
    if (took < ours) ours = took;
    void *a = rust_parse(one, one_size), *b = rust_parse(other, other_size);
    start = cpu();
    rust_merge(a, b, false, out, sizeof out);
    took = cpu() - start;
    if (took < merged) merged = took;
    start = cpu();
    size_t n = rust_merge(rust_parse(one, one_size), rust_parse(other, other_size), true, out, sizeof out);
    took = cpu() - start;
    if (took < all) all = took;
    must(n == whole_size && memcmp(out, whole, whole_size) == 0, "the Rust's merge is not the whole");
  }
  printf("  %-38s %7.1f us, the Rust's time over ours: %.2f, with bytes parsed and written %.2f\n", "  the same beside the Rust", ours * 1e6,
         merged / ours, all / ours);
}

static void measure(size_t keys, size_t values) {
  uint8_t low[48], middle[48], next[48], high[48];
  key_length = keys, value_length = values;
  fill();
  printf("keys of %zu, values of %zu, the whole %zu bytes\n", keys, values, whole_size);
  beside("lookup", ask, ASKED, whole, whole_size);

  name(middle, 500);
  memcpy(one, whole, whole_size), one_size = whole_size;
  must(dampcandle_witness(store, sizeof store, middle, keys, other, sizeof other, &other_size) == 0, "witness");
  beside("merge of the whole and one key's", merge, 1, one, one_size);
  must(out_size == whole_size && memcmp(out, whole, whole_size) == 0, "the merge is not the whole");
  beside_rust();

  name(low, 0), name(middle, 511), name(next, 512), name(high, 1023);
  must(dampcandle_value_range(store, sizeof store, low, keys, middle, keys, one, sizeof one, &one_size) == 0, "value_range");
  must(dampcandle_value_range(store, sizeof store, next, keys, high, keys, other, sizeof other, &other_size) == 0, "value_range");
  if (one_size > other_size)
    beside("merge of two ranges of 512", merge, 1, one, one_size);
  else
    beside("merge of two ranges of 512", merge, 1, other, other_size);
  must(out_size == whole_size && memcmp(out, whole, whole_size) == 0, "the merge is not the whole");
  beside_rust();

  static const size_t parts[] = {DAMPCANDLE_MAX_WITNESS, 64, 1};
  static const char *const words[] = {"rebuild as one part", "rebuild in parts of 64 bytes", "rebuild in parts of one byte"};
  for (int i = 0; i < 3; i++) part = parts[i], beside(words[i], in_parts, 1, whole, whole_size);
}

int main(void) {
  measure(24, 16);
  measure(48, 64);
}
