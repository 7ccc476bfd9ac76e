// Build logs, beside the same calls one by one. See replay.sh.
#include "tables.h"

extern size_t dampcandle_insert(u8 *, size_t, const u8 *, size_t, const u8 *, size_t);
extern size_t dampcandle_modify(u8 *, size_t, const u8 *, size_t, const u8 *, size_t);
extern size_t dampcandle_delete(u8 *, size_t, const u8 *, size_t);
extern size_t dampcandle_replay(u8 *, size_t, const u8 *, size_t, size_t *, size_t *);

enum { N = MOST, TURNS = 15, LENGTH = 8 + 150 * N, LOG = 114 * N };
static const char *called[] = {"inserts", "modifies", "deletes"};
static u8 store[LENGTH], before[LENGTH], after[LENGTH], keys[ROW * N], values[ROW * N], others[ROW * N], leaving[ROW * N], log_bytes[LOG];

static size_t write_log(int what, const u8 *key, int k, const u8 *value, int v) {
  size_t at = 0;
  for (int i = 0; i < N; i++) {
    int own = what == DO_DELETE ? 0 : v;
    log_bytes[at] = what * 64 + k, log_bytes[at + 1] = own * 2;
    memcpy(log_bytes + at + 2, key + ROW * i, k);
    memcpy(log_bytes + at + 2 + k, value + ROW * i, own);
    at += 2 + k + own;
  }
  return at;
}

static void public_call(int what, const u8 *key, int k, const u8 *value, int v) {
  size_t number = what == DO_INSERT ? dampcandle_insert(store, LENGTH, key, k, value, v)
                  : what == DO_MODIFY ? dampcandle_modify(store, LENGTH, key, k, value, v)
                                      : dampcandle_delete(store, LENGTH, key, k);
  must(number == 0, "a public call");
}

// From the bytes in `before`; those at the end stay in `after`.
static void measure(int what, const u8 *key, int k, const u8 *value, int v) {
  double best[2] = {1e9, 1e9}, t;
  size_t length = write_log(what, key, k, value, v), full = 7, absent = 7;
  for (int turn = 0; turn < TURNS; turn++) {
    memcpy(store, before, LENGTH);
    t = cpu();
    must(timed_change(what, store, LENGTH, key, ROW * N, k, value, ROW * N, v, N), "calls on a known-sound store");
    keep_least(&best[0], cpu() - t);
    memcpy(after, store, LENGTH);
    memcpy(store, before, LENGTH);
    t = cpu();
    must(dampcandle_replay(store, LENGTH, log_bytes, length, &full, &absent) == 0, "replay");
    keep_least(&best[1], cpu() - t);
    must(full == 0 && absent == 0, "counts");
    must(!memcmp(store, after, LENGTH), "replay leaves other bytes");
  }
  memcpy(store, before, LENGTH);
  t = cpu();
  for (int i = 0; i < N; i++) public_call(what, key + ROW * i, k, value + ROW * i, v);
  t = cpu() - t;
  must(!memcmp(store, after, LENGTH), "the public calls leave other bytes");
  printf("%d %-8s %2d and %2d bytes: log %8.3f ms; one by one, known sound %8.3f ms, %.3f of it; public calls %8.1f ms, %.0f times the log's\n", N, called[what], k, v,
         1e3 * best[1], 1e3 * best[0], best[1] / best[0], 1e3 * t, t / best[1]);
}

int main(void) {
  for (int large = 0; large < 2; large++) {
    int k = large ? 48 : 24, v = large ? 64 : 16, order[N];
    shuffle(order, N);
    for (int i = 0; i < N; i++) name(keys + ROW * i, order[i], k), describe(values + ROW * i, v), describe(others + ROW * i, v);
    shuffle(order, N);
    for (int i = 0; i < N; i++) memcpy(leaving + ROW * i, keys + ROW * order[i], ROW);
    fresh(before, N);
    measure(DO_INSERT, keys, k, values, v);
    memcpy(before, after, LENGTH);
    measure(DO_MODIFY, keys, k, others, v);
    memcpy(before, after, LENGTH);
    measure(DO_DELETE, leaving, k, values, v);
  }
  return 0;
}
