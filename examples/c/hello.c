/* Prints a line through the UART, and ends with the number of its bytes. */
#include "board.h"

static const char greeting[] = "Hello from C\n";

word main(word core, word cores)
{
    (void)cores;
    if (core != 0)
        return 0;
    put_text(greeting);
    return sizeof greeting - 1;
}
