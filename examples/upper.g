// Copies its input to its output with small letters made capital, up to a dot or the end.
int main ()
{
  int c;
next:
  c = __builtin_getchar ();
  switch (c) <default: other, case -1: end, case 46: end>;
other:
  if (c >= 97) goto above; else goto write;
above:
  if (c <= 122) goto small; else goto write;
small:
  c = c - 32;
write:
  __builtin_putchar (c);
  goto next;
end:
  __builtin_exit (0);
  return 0;
}
