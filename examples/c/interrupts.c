/* Tick interrupts are counted, and UART interrupts take a line of input, which is printed in capitals. One core. */
#include "board.h"

#ifndef TICKS
#define TICKS 5
#endif
enum { PERIOD = 1000 };

static volatile word ticks;
static char line[64];
static volatile word length;

static void count_tick(void)
{
    ticks++;
    /* Written without IP, which ends the interrupt. */
    write_special(SPR_TTMR, TTMR_RESTART | TTMR_IE | PERIOD);
}

static void take_input(void)
{
    while (UART[UART_LSR] & UART_LSR_RECEIVED) {
        char letter = (char)UART[UART_DATA];
        if (length < sizeof line)
            line[length++] = letter;
    }
    /* A latching PIC (`--pic latched`) keeps the line's bit until here; the other form ignores this. */
    write_special(SPR_PICSR, 1u << LINE_UART);
}

void handle_exception(word vector)
{
    if (vector == VECTOR_TICK)
        count_tick();
    else if (vector == VECTOR_EXTERNAL)
        take_input();
}

static char capital(char letter)
{
    return letter >= 'a' && letter <= 'z' ? (char)(letter - 'a' + 'A') : letter;
}

word main(word core, word cores)
{
    (void)cores;
    if (core != 0)
        return 0;

    UART[UART_IER] = UART_IER_RECEIVED;
    write_special(SPR_PICMR, 1u << LINE_UART);
    write_special(SPR_TTCR, 0);
    write_special(SPR_TTMR, TTMR_RESTART | TTMR_IE | PERIOD);
    set_status(SR_TEE | SR_IEE);
    while (ticks < TICKS)
        ;
    clear_status(SR_TEE | SR_IEE);

    put_number(ticks);
    put_text(" ticks, input ");
    for (word i = 0; i < length; i++)
        put_char(capital(line[i]));
    return ticks;
}
