// The rows of ancestors that `precedence` makes, as plain C: one bit a node, each row no longer than
// its node's number asks, united from the parents' rows. `ancestors NODES ROUNDS` prints for each
// round the processor time in nanoseconds and a checksum of the rows.
#include <stdint.h>
#include <stdio.h>
#include <stdlib.h>
#include <string.h>
#include <time.h>

static uint64_t state = 20070806;

static uint32_t next_below(uint32_t n) {
  state = state * 6364136223846793005ull + 1442695040888963407ull;
  return (uint32_t)((state >> 33) % n);
}

static uint64_t now(void) {
  struct timespec t;
  clock_gettime(CLOCK_THREAD_CPUTIME_ID, &t);
  return (uint64_t)t.tv_sec * 1000000000u + (uint64_t)t.tv_nsec;
}

static size_t words_below(size_t node) { return (node + 63) / 64; }

static void set_bit(uint64_t *row, size_t node) { row[node / 64] |= 1ull << (node % 64); }

static __attribute__((noinline)) void unite(uint64_t *restrict into, const uint64_t *restrict from,
                                            size_t count) {
  for (size_t k = 0; k < count; k++) into[k] |= from[k];
}

static uint64_t *row_of(uint64_t *const *rows, const uint32_t *parents, size_t node) {
  size_t count = words_below(node);
  uint64_t *row = malloc(count * 8);
  if (node == 0) return row;
  size_t first = words_below(parents[0]);
  memcpy(row, rows[parents[0]], first * 8);
  memset(row + first, 0, (count - first) * 8);
  set_bit(row, parents[0]);
  for (int j = 1; j < 4; j++) {
    unite(row, rows[parents[j]], words_below(parents[j]));
    set_bit(row, parents[j]);
  }
  return row;
}

int main(int argc, char **argv) {
  if (argc != 3) return 1;
  size_t count = strtoul(argv[1], NULL, 10);
  unsigned long rounds = strtoul(argv[2], NULL, 10);
  uint32_t(*parents)[4] = calloc(count, sizeof *parents);
  for (size_t i = 1; i < count; i++) {
    parents[i][0] = (uint32_t)i - 1;
    for (int j = 1; j < 4; j++) parents[i][j] = next_below((uint32_t)i);
  }
  while (rounds-- > 0) {
    uint64_t start = now();
    uint64_t **rows = malloc(count * sizeof *rows);
    for (size_t i = 0; i < count; i++) rows[i] = row_of(rows, parents[i], i);
    uint64_t spent = now() - start;
    uint64_t sum = 14695981039346656037ull;
    for (size_t i = 0; i < count; i++)
      for (size_t k = 0; k < words_below(i); k++) sum = (sum ^ rows[i][k]) * 1099511628211ull;
    printf("%llu %llu\n", (unsigned long long)spent, (unsigned long long)sum);
    for (size_t i = 0; i < count; i++) free(rows[i]);
    free(rows);
  }
  return 0;
}
