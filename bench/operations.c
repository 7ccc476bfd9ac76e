// insert, get, modify and delete of a store known to be sound, beside the Rust's rb_tree. See operations.sh.
#include "tables.h"

enum { TURNS = 15, OURS = 0, RUST = 1, SAME = 2, INSERT = 0, GET = 1, MODIFY = 2, DELETE = 3 };
static const char *called[] = {"insert", "get", "modify", "delete"};
static u8 store[8 + 150 * MOST], keys[ROW * MOST], values[ROW * MOST], others[ROW * MOST], asked[ROW * ROWS], leaving[ROW * MOST];
static int n, k, v, map;  // map: which of the MOST / n maps, each with keys of its own
static double best[3][4];
static size_t digests[4], blocks[4];

static size_t get(int rows) { return timed_read(DO_GET, store, store_length(n), asked, sizeof asked, asked, sizeof asked, k, rows, 0, 0); }

static const u8 *of(const u8 *table) { return table + ROW * n * map; }

static void change(int what, const u8 *table, const u8 *given, const char *name) {
  must(timed_change(what, store, store_length(n), of(table), ROW * n, k, of(given), ROW * n, v, n), name);
}

// What a judging of the store costs, which each of our calls begins with.
static double judging(void) {
  double t = cpu();
  must(get(0) == 0, "get");
  return cpu() - t;
}

static void ours(double *spent, const void *same) {
  u8 root[32];
  double t, judged;
  fresh(store, n);
  judged = judging(), t = cpu();
  change(DO_INSERT, keys, values, "insert");
  spent[INSERT] += cpu() - t - judged;
  judged = judging(), t = cpu();
  must(get(ROWS) == ROWS, "get");
  spent[GET] += (cpu() - t - judged) * n / ROWS;
  judged = judging(), t = cpu();
  change(DO_MODIFY, keys, others, "modify");
  spent[MODIFY] += cpu() - t - judged;
  rust_root(same, root);
  must(!memcmp(root, root_of(store), 32), "the roots differ");
  judged = judging(), t = cpu();
  change(DO_DELETE, leaving, values, "delete");
  spent[DELETE] += cpu() - t - judged;
  must(get(ROWS) == 0, "keys are left");
}

static void hashed(int o, int counting) {
  size_t d, b;
  rust_hashed(&d, &b);
  if (counting) digests[o] += d, blocks[o] += b;
}

static void rust(double *spent, int counting) {
  void *it = rust_new();
  double t = cpu();
  rust_insert(it, of(keys), k, of(values), v, n);
  spent[INSERT] += cpu() - t;
  hashed(INSERT, counting);
  t = cpu();
  must(rust_get(it, asked, k, ROWS) == ROWS, "get in Rust");
  spent[GET] += (cpu() - t) * n / ROWS;
  hashed(GET, counting);
  t = cpu();
  rust_modify(it, of(keys), k, of(others), v, n);
  spent[MODIFY] += cpu() - t;
  hashed(MODIFY, counting);
  t = cpu();
  rust_delete(it, of(leaving), k, n);
  spent[DELETE] += cpu() - t;
  hashed(DELETE, counting);
  rust_free(it);
}

int main(void) {
  int lengths[][2] = {{24, 16}, {48, 64}}, sizes[] = {16, 128, MOST}, order[MOST];
  static void *same[MOST];
  for (int l = 0; l < 2; l++)
    for (int z = 0; z < 3; z++) {
      k = lengths[l][0], v = lengths[l][1], n = sizes[z];
      for (map = 0; map < MOST / n; map++) {
        int first = n * map;
        shuffle(order, n);
        for (int i = first; i < first + n; i++) name(keys + ROW * i, first + order[i - first], k), describe(values + ROW * i, v), describe(others + ROW * i, v);
        shuffle(order, n);
        for (int i = first; i < first + n; i++) name(leaving + ROW * i, first + order[i - first], k);
        same[map] = rust_new();
        rust_insert(same[map], of(keys), k, of(others), v, n);
      }
      for (int o = 0; o < 4; o++) hashed(o, 0), digests[o] = blocks[o] = 0;
      for (int s = 0; s < 3; s++)
        for (int o = 0; o < 4; o++) best[s][o] = 1e9;
      for (int turn = 0; turn < TURNS; turn++)
        for (int s = 0; s < 3; s++) {
          double spent[4] = {0};
          rust_hash_by_ours(s == SAME);
          for (map = 0; map < MOST / n; map++) {
            for (int i = 0; i < ROWS; i++) memcpy(asked + ROW * i, of(keys) + ROW * (rnd() % n), ROW);
            s == OURS ? ours(spent, same[map]) : rust(spent, turn == 0 && s == RUST);
          }
          for (int o = 0; o < 4; o++) keep_least(&best[s][o], spent[o] / MOST);
        }
      for (map = 0; map < MOST / n; map++) rust_free(same[map]);
      printf("%d entries, keys of %d bytes, values of %d\n", n, k, v);
      printf("  ns for one    ours      Rust  over ours   Rust with our SHA-256  over ours   digests  blocks\n");
      for (int o = 0; o < 4; o++)
        printf("  %-8s %9.1f %9.1f %10.2f %23.1f %10.2f %9.2f %7.2f\n", called[o], best[OURS][o] * 1e9, best[RUST][o] * 1e9, best[RUST][o] / best[OURS][o],
               best[SAME][o] * 1e9, best[SAME][o] / best[OURS][o], (double)digests[o] / MOST, (double)blocks[o] / MOST);
    }
}
