#include "c.h"
int helper(int a);
int entry(int a) {
  int s = twice(a);
  return s + helper(clamp(a, 0, 7));
}
__attribute__((noinline)) int helper(int a) {
  volatile int t = a;
  return twice(t) ^ 3;
}
