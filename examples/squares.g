// Writes the digits of the squares below 10, from an array.
static int square[4] = {0, 1, 4, 9};

int main ()
{
  int i;
  int c;
  i = 0;
next:
  if (i < 4) goto more; else goto done;
more:
  c = square[i];
  c = c + 48;
  __builtin_putchar (c);
  i = i + 1;
  goto next;
done:
  __builtin_putchar (10);
  return 0;
}
