/* Each core adds 1 to a counter ROUNDS times under a spin lock. Core 0 waits for the others and prints the sum. */
#include "board.h"

#ifndef ROUNDS
#define ROUNDS 100
#endif

static volatile word lock;
static volatile word counter;
static volatile word finished;

/* Takes the lock by l.lwa and l.swa: of all cores that see it free, one stores. */
static void take(void)
{
    while (load_linked(&lock) != 0 || !store_conditional(&lock, 1))
        ;
}

/* Frees the lock by a plain store. */
static void release(void)
{
    __asm__ volatile("l.msync" : : : "memory");
    lock = 0;
}

word main(word core, word cores)
{
    for (word round = 0; round < ROUNDS; round++) {
        take();
        counter = counter + 1;
        release();
    }
    add_atomically(&finished, 1);
    if (core != 0)
        return 0;

    await(&finished, cores);
    word sum = counter;
    put_number(cores);
    put_text(" cores counted to ");
    put_number(sum);
    put_char('\n');
    return sum != cores * ROUNDS;
}
