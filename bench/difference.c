// The difference of two full stores, beside the judging of both. See difference.sh.
#include "../include/dampcandle.h"
#include "clock.h"
#include <stdio.h>
#include <stdlib.h>
#include <string.h>

enum { ENTRIES = 1024, TURNS = 40 };

static uint8_t old[DAMPCANDLE_STORE_LENGTH(ENTRIES)], new[DAMPCANDLE_STORE_LENGTH(ENTRIES)], out[DAMPCANDLE_DIFFERENCE_LENGTH(ENTRIES, ENTRIES)];

static void must(int yes, const char *what) {
  if (!yes) {
    fprintf(stderr, "difference: %s\n", what);
    exit(1);
  }
}

// Names from `from` on, in this order, each with bytes that `salt` makes other ones.
static void fill(uint8_t *store, size_t key_length, size_t value_length, int from, int turned, int salt) {
  must(dampcandle_create(store, sizeof old, ENTRIES) == 0, "create");
  for (int i = 0; i < ENTRIES; i++) {
    int n = from + (turned ? ENTRIES - 1 - i : i);
    uint8_t key[48], value[64];
    char text[64];
    snprintf(text, sizeof text, "%suart%02d.chan%02d.field%05d", key_length == 48 ? "chips/one/revision-b0/r/" : "", n % 16, n / 16 % 8, n);
    must(strlen(text) == key_length, "a name has another length");
    memcpy(key, text, key_length);
    memset(value, n, value_length);
    value[value_length - 1] ^= salt;
    must(dampcandle_insert(store, sizeof old, key, key_length, value, value_length) == 0, "insert");
  }
}

static void measure(const char *what, size_t wanted, size_t room) {
  double both = 1e9, lines = 1e9;
  for (int turn = 0; turn < TURNS; turn++) {
    size_t count = 0, length = 0;
    double t = cpu();
    must(dampcandle_count(old, sizeof old, &count) == 0 && dampcandle_count(new, sizeof new, &count) == 0 && count == ENTRIES, "count");
    t = cpu() - t;
    if (t < both) both = t;
    t = cpu();
    must(dampcandle_difference(old, sizeof old, new, sizeof new, out, room, &length) == 0 && length == wanted, "difference");
    t = cpu() - t;
    if (t < lines) lines = t;
  }
  printf("  %-38s judging both %.3f ms   difference %.3f ms   %.3f\n", what, both * 1e3, lines * 1e3, lines / both);
}

int main(void) {
  for (int longest = 0; longest < 2; longest++) {
    size_t key = longest ? 48 : 24, value = longest ? 64 : 16;
    printf("two stores of %d entries, keys of %zu bytes, values of %zu\n", ENTRIES, key, value);
    fill(old, key, value, 0, 0, 0);
    fill(new, key, value, 0, 1, 0);
    must(memcmp(old, new, sizeof old) != 0, "the two stores are the same bytes");
    measure("equal maps in other shapes", 0, sizeof out);
    fill(new, key, value, 0, 1, 1);
    measure("all values changed in their last byte", ENTRIES * (1 + key), sizeof out);
    measure("  .. no byte of output to spare", ENTRIES * (1 + key), ENTRIES * (1 + key));
    fill(new, key, value, ENTRIES, 0, 0);
    measure("no key in both", 2 * ENTRIES * (1 + key), sizeof out);
  }
}
