// Hashes messages of several lengths with each implementation, in turn, and prints the best rate of each and ours over it.
#include <stdio.h>
#include <string.h>
#include "clock.h"

typedef void hash(const uint8_t *, size_t, uint8_t *);
extern hash dampcandle_sha256, plain_gcc, plain_clang, plain_rust;
static struct { const char *name; hash *f; } all[] = {
    {"Rattle", dampcandle_sha256}, {"C, gcc -O3", plain_gcc}, {"C, clang -O3", plain_clang}, {"Rust, opt-level 3", plain_rust}};
enum { MANY = sizeof all / sizeof *all, TURNS = 15 };

int main(void) {
  static uint8_t m[65536];
  static volatile uint8_t sink;
  uint8_t a[32], b[32];
  for (size_t i = 0; i < sizeof m; i++) m[i] = i * 7 + 3;
  for (int k = 1; k < MANY; k++)
    for (size_t n = 0; n <= 300; n++) {
      all[0].f(m, n, a);
      all[k].f(m, n, b);
      if (memcmp(a, b, 32)) return printf("%s differs at %zu bytes\n", all[k].name, n), 1;
    }
  size_t lengths[] = {65536, 81, 100};
  for (int l = 0; l < 3; l++) {
    size_t n = lengths[l], total = 4 << 20;
    double best[MANY];
    for (int k = 0; k < MANY; k++) best[k] = 1e9;
    for (int turn = 0; turn < TURNS; turn++)
      for (int k = 0; k < MANY; k++) {
        double t = cpu();
        for (size_t done = 0; done < total; done += n) all[k].f(m, n, a), sink ^= a[0];
        t = cpu() - t;
        if (t < best[k]) best[k] = t;
      }
    printf("%zu bytes\n", n);
    for (int k = 0; k < MANY; k++)
      printf("  %-18s %7.1f MB/s   Rattle over it %.2f\n", all[k].name, total / best[k] / 1e6, best[k] / best[0]);
  }
}
