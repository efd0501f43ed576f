static inline __attribute__((always_inline)) int clamp(int v, int lo, int hi) {
  if (v < lo)
    return lo;
  return v > hi ? hi : v;
}
static inline __attribute__((always_inline)) int twice(int v) {
  int r = clamp(v, -1000, 1000);
  return r * 2;
}
