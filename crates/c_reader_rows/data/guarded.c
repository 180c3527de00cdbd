#include <stdint.h>
static int64_t top(int64_t x, int64_t y) { return x > y ? x : y; }
static void fill(uint64_t *p, int64_t at, int64_t n) { for (int64_t i = 0; i < n; i = i + 1) p[at + i] = 0; }
int64_t len_a0(void) { return INT64_C(1); }
int64_t len_b0(void) { return INT64_C(2); }
int64_t len_s0(void) { return top(INT64_C(1), INT64_C(0)); }
void atl(const uint64_t *a0, uint64_t *b0, uint64_t *s0) {
  fill(b0, INT64_C(0), INT64_C(2));
  #pragma omp parallel for
  for (int64_t i0 = INT64_C(0); i0 < INT64_C(2); i0 = i0 + INT64_C(1)) {
    fill(s0, INT64_C(0), INT64_C(1));
    if (i0 == INT64_C(0) && i0 % INT64_C(2) >= INT64_C(0)) {
      s0[INT64_C(0)] += a0[INT64_C(0)];
    }
    b0[i0] = s0[INT64_C(0)];
  }
}
