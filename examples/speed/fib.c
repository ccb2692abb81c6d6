/* Calls and arithmetic on one core: a Fibonacci number by recursion. */
#include "board.h"

#ifndef N
#define N 31
#endif

static __attribute__((noinline)) word fib(word n)
{
    return n < 2 ? n : fib(n - 1) + fib(n - 2);
}

word main(word core, word cores)
{
    (void)cores;
    if (core != 0)
        return 0;
    put_number(fib(N));
    put_char('\n');
    return 0;
}
