/* What the programs share. */
#include "board.h"

void add_atomically(volatile word *place, word amount)
{
    word value;
    do
        value = load_linked(place);
    while (!store_conditional(place, value + amount));
}

void await(volatile word *place, word value)
{
    while (load_linked(place) != value)
        ;
}

void put_char(char letter)
{
    while (!(UART[UART_LSR] & UART_LSR_ROOM))
        ;
    UART[UART_DATA] = (byte)letter;
}

void put_text(const char *text)
{
    while (*text)
        put_char(*text++);
}

void put_number(word number)
{
    if (number >= 10)
        put_number(number / 10);
    put_char((char)('0' + number % 10));
}

void set_status(word bits)
{
    write_special(SPR_SR, read_special(SPR_SR) | bits);
}

void clear_status(word bits)
{
    write_special(SPR_SR, read_special(SPR_SR) & ~bits);
}

__attribute__((weak)) void handle_exception(word vector)
{
    register word value __asm__("r3") = vector;
    __asm__ volatile("l.nop 1" : : "r"(value));
    for (;;)
        ;
}
