// Puts a greeting, and ends with 7.
int main () {
  __builtin_putchar (72);   // H
  __builtin_putchar (105);  // i
  __builtin_putchar (10);
  return 7;
}
