int helper(int a);
int entry(void) {
  int s = 0;
  for (int i = 0; i < 4; i++)
    s += helper(i);
  return s;
}
