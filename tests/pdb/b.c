static int local(int a) {
  return a * 3;
}
int helper(int a) {
  int s = local(a);
#line 900 "generated/else.inc"
  s ^= a;
#line 9 "b.c"
  return s + 1;
}
