// A function that calls itself, unsigned numbers, and a result that is not used.
unsigned int power (unsigned int base, unsigned int exponent)
{
  unsigned int rest;
  unsigned int result;
  if (exponent == 0u) goto done; else goto more;
more:
  rest = exponent - 1u;
  result = power (base, rest);
  result = result * base;
  return result;
done:
  return 1u;
}

int main ()
{
  unsigned int p;
  int status;
  power (2u, 3u);
  p = power (2u, 6u);
  status = (int) p;
  return status;
}
