#include <stdint.h>
static int64_t top(int64_t x, int64_t y) { return x > y ? x : y; }
static void fill(uint64_t *p, int64_t at, int64_t n) { for (int64_t i = 0; i < n; i = i + 1) p[at + i] = 0; }
int64_t len_a0(int64_t n0, int64_t n1) { return n0 * n1; }
int64_t len_a1(int64_t n0, int64_t n1) { return top(n0, n1 + INT64_C(1)); }
int64_t len_b0(int64_t n0, int64_t n1) { return top(top(n0, n1), n0 * (n1 - INT64_C(2))); }
int64_t len_b1(int64_t n0, int64_t n1) { return INT64_C(9223372036854775807); }
void atl(int64_t n0, int64_t n1, const uint64_t *a0, const uint64_t *a1, uint64_t *b0, uint64_t *b1) {
  for (int64_t i0 = INT64_C(0); i0 < n0; i0 = i0 + INT64_C(1)) {
    for (int64_t i1 = INT64_C(0); i1 < n1 - (i0 - INT64_C(1)); i1 = i1 + INT64_C(1)) {
      b0[i0 * n1 + i1] = a0[i0] - (a1[i1] - UINT64_C(1)) - a0[(i0 + i1) / INT64_C(2)];
      b1[i1 % INT64_C(3) * INT64_C(2)] += (uint64_t)(i0 - i1) * (a0[i0] + UINT64_C(18446744073709551615));
      b1[i0] = i0 < i1 && i0 <= n1 && i0 > i1 && i0 >= n1 && i0 == i1 ? a0[i0] : i0 < n0 ? UINT64_C(0) : (i1 < n0 ? a0[i1] : UINT64_C(1)) * UINT64_C(2);
    }
  }
}
