#pragma once
extern int *volatile nowhere;
namespace geo {
static inline __attribute__((always_inline)) int load(int n) {
  return *nowhere + n;
}

static inline __attribute__((always_inline)) int twice(int n) {
  return load(n) * 2;
}
} // namespace geo
