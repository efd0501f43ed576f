// A program that crashes: the lines of its calls are those that tests/symbols.rs has.
#include "shapes.h"
static volatile int sink;
int *volatile nowhere;

static __attribute__((noinline)) int reads(int n) {
  sink = n;
  return geo::twice(n) + n;
}

__attribute__((noinline)) int middle(int a, int b) {
  int r = a;
#line 900 "generated/else.inc"
  r += reads(b);
#line 16 "crash.cpp"
  return r * 3 + sink;
}

namespace app {
static inline __attribute__((always_inline)) int through(int n) {
  return middle(n, 7);
}

template <class T> __attribute__((noinline)) T outer(T v) {
  T r = through(v);
  return r + 1;
}
} // namespace app

extern "C" int entry() {
  int r = app::outer<int>(5);
  sink = r;
  return r;
}
