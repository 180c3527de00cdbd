#include <stdint.h>
static int64_t top(int64_t x, int64_t y) { return x > y ? x : y; }
static void fill(uint64_t *p, int64_t at, int64_t n) { for (int64_t i = 0; i < n; i = i + 1) p[at + i] = 0; }
int64_t len_a0(int64_t n0) { return n0; }
int64_t len_b0(int64_t n0) { return n0; }
void atl(int64_t n0, const uint64_t *a0, uint64_t *b0) { b0[n0 + a0[n0]] = UINT64_C(1); }