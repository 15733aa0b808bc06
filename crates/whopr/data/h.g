int main () { __builtin_putchar (72); __builtin_putchar (105); return 7; }
