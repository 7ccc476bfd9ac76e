// A witness written in CBOR and read back, beside a plain Rust exchange and rebuild. See cbor.sh.
#include "../include/dampcandle.h"
#include "clock.h"
#include <stdbool.h>
#include <stdio.h>
#include <stdlib.h>
#include <string.h>

enum { ENTRIES = 1024, TURNS = 15, RUNS = 8 };

static uint8_t store[8 + 150 * ENTRIES], whole[DAMPCANDLE_MAX_WITNESS], cbor[DAMPCANDLE_MAX_CBOR], out[DAMPCANDLE_MAX_CBOR];
static size_t whole_size, cbor_size, out_size;

// ---- rust_cbor.rs

extern size_t rust_exchange(bool, const uint8_t *, size_t, uint8_t *, size_t);
extern size_t rust_by_tree(bool, const uint8_t *, size_t, uint8_t *, size_t);

static void must(int yes, const char *what) {
  if (!yes) {
    fprintf(stderr, "cbor: %s\n", what);
    exit(1);
  }
}

static void fill(size_t keys, size_t values) {
  uint8_t key[48], value[64];
  must(dampcandle_create(store, sizeof store, ENTRIES) == 0, "create");
  for (int i = 0; i < ENTRIES; i++) {
    char digits[16];
    snprintf(digits, sizeof digits, "%06d", i);
    memset(key, 'r', keys);
    memcpy(key, digits, 6);
    memset(value, i, values);
    must(dampcandle_insert(store, sizeof store, key, keys, value, values) == 0, "insert");
  }
  must(dampcandle_as_hash_tree(store, sizeof store, whole, sizeof whole, &whole_size) == 0, "as_hash_tree");
  must(dampcandle_write_cbor(whole, whole_size, cbor, sizeof cbor, &cbor_size) == 0, "write_cbor");
}

static bool to_cbor;
static const uint8_t *from;
static size_t from_size;

static void ours(void) {
  size_t number = to_cbor ? dampcandle_write_cbor(from, from_size, out, sizeof out, &out_size)
                          : dampcandle_read_cbor(from, from_size, out, sizeof out, &out_size);
  must(number == 0, "ours");
}

static void plain(void) { out_size = rust_exchange(to_cbor, from, from_size, out, sizeof out); }

static void by_tree(void) { out_size = rust_by_tree(to_cbor, from, from_size, out, sizeof out); }

static void rebuild(void) {
  uint8_t digest[32];
  must(dampcandle_rebuild(whole, whole_size, digest) == 0, "rebuild");
}

static void taken(void (*run)(void), int runs, double *best) {
  double start = cpu();
  for (int i = 0; i < runs; i++) run();
  double took = (cpu() - start) / runs;
  if (took < *best) *best = took;
}

static void beside(bool writing) {
  double best[4] = {1e9, 1e9, 1e9, 1e9};
  to_cbor = writing;
  from = writing ? whole : cbor, from_size = writing ? whole_size : cbor_size;
  const uint8_t *wanted = writing ? cbor : whole;
  size_t size = writing ? cbor_size : whole_size;
  void (*const sides[])(void) = {ours, plain, by_tree};
  for (int turn = 0; turn < TURNS; turn++) {
    for (int side = 0; side < 3; side++) {
      memset(out, 0xa5, sizeof out);
      taken(sides[side], RUNS, best + side);
      must(out_size == size && memcmp(out, wanted, size) == 0, "another answer");
    }
    taken(rebuild, 1, best + 3);
  }
  printf("  %-10s %6.1f us; plain Rust %6.1f us, %.2f of ours; by a tree %6.1f us, %.2f; rebuild %7.1f us, ours is %.3f of it\n",
         writing ? "write_cbor" : "read_cbor", best[0] * 1e6, best[1] * 1e6, best[1] / best[0], best[2] * 1e6, best[2] / best[0], best[3] * 1e6,
         best[0] / best[3]);
}

static void measure(size_t keys, size_t values) {
  fill(keys, values);
  printf("keys of %zu, values of %zu: a witness of %zu bytes, CBOR of %zu\n", keys, values, whole_size, cbor_size);
  beside(true);
  beside(false);
}

int main(void) {
  measure(24, 16);
  measure(48, 64);
}
