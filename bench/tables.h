// What operations.c and witnesses.c share: the two sides' functions, tables of keys and values, a fresh store, the clock.
#include <stdio.h>
#include <stdlib.h>
#include <string.h>
#include "clock.h"

typedef uint8_t u8;
typedef _Bool yes;

// crate timed; the first two judge the store once
extern yes timed_change(size_t, u8 *, size_t, const u8 *, size_t, size_t, const u8 *, size_t, size_t, size_t);
extern size_t timed_read(size_t, const u8 *, size_t, const u8 *, size_t, const u8 *, size_t, size_t, size_t, u8 *, size_t);
extern size_t timed_rebuild(const u8 *, size_t, u8 *);

// rust_side.rs
extern void rust_hash_by_ours(yes);
extern void rust_hashed(size_t *, size_t *);
extern void *rust_new(void);
extern void rust_free(void *);
extern void rust_root(const void *, u8 *);
extern void rust_insert(void *, const u8 *, size_t, const u8 *, size_t, size_t);
extern void rust_modify(void *, const u8 *, size_t, const u8 *, size_t, size_t);
extern void rust_delete(void *, const u8 *, size_t, size_t);
extern size_t rust_get(const void *, const u8 *, size_t, size_t);
extern size_t rust_as_hash_tree(const void *, size_t, yes, u8 *, size_t);
extern size_t rust_witness(const void *, const u8 *, size_t, size_t, yes, u8 *, size_t);
extern size_t rust_range(const void *, yes, const u8 *, const u8 *, size_t, size_t, yes, u8 *, size_t);
extern yes rust_rebuild(const u8 *, size_t, u8 *);
extern void *rust_tree(const u8 *, size_t);
extern void rust_digest(const void *, u8 *);

enum { MOST = 1024, ROWS = 4096, ROW = 64 };
enum { DO_INSERT, DO_MODIFY, DO_DELETE };
enum { DO_GET, DO_TREE, DO_WITNESS, DO_KEYS, DO_VALUES };

static void must(int ok, const char *what) {
  if (!ok) printf("%s\n", what), exit(1);
}

static void put(u8 *p, int n, uint64_t w) {
  for (int i = 0; i < n; i++) p[i] = w >> 8 * (n - 1 - i);
}

static size_t store_length(int capacity) { return 8 + 150 * (size_t)capacity; }

static void fresh(u8 *store, int capacity) {
  memset(store, 0, store_length(capacity));
  put(store, 8, 1ull << 60 | (uint64_t)capacity << 49 | 1ull << 16);
  for (int i = 1; i < capacity; i++) put(store + 8 + 150 * (i - 1), 6, (uint64_t)(i + 1) << 35);
}

// The digest of the root, whose slot the header names.
static const u8 *root_of(const u8 *store) {
  uint64_t h = 0;
  for (int i = 0; i < 8; i++) h = h << 8 | store[i];
  return store + 8 + 150 * ((h >> 27 & 2047) - 1) + 118;
}

// Key i of the map: a register's name of 24 bytes; the longest keys have the name of a chip of 24 bytes before it.
static void name(u8 *row, int i, int length) {
  char text[64];
  snprintf(text, sizeof text, "%suart%02d.chan%02d.field%05d", length == 48 ? "chips/one/revision-b0/r/" : "", i % 16, i / 16 % 8, i);
  must((int)strlen(text) == length, "a name has another length");
  memset(row, 0, ROW);
  memcpy(row, text, length);
}

static void describe(u8 *row, int length) {
  memset(row, 0, ROW);
  for (int j = 0; j < length; j++) row[j] = rnd();
}

static void shuffle(int *order, int n) {
  for (int i = 0; i < n; i++) order[i] = i;
  for (int i = n - 1; i > 0; i--) {
    int j = rnd() % (i + 1), t = order[i];
    order[i] = order[j], order[j] = t;
  }
}

static void keep_least(double *best, double t) {
  if (t < *best) *best = t;
}
