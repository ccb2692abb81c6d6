/* The board as a program in C sees it: special registers, devices, and the functions of board.c. */
#ifndef BOARD_H
#define BOARD_H

typedef unsigned char byte;
typedef unsigned int word;

/* Special registers, by number. */
enum {
    SPR_SR = 17,      /* status */
    SPR_EPCR = 32,    /* pc that l.rfe returns to */
    SPR_EEAR = 48,    /* address of a fault */
    SPR_COREID = 128,
    SPR_NUMCORES = 129,
    SPR_PICMR = 18432, /* a bit for each interrupt line that is let through */
    SPR_PICSR = 18434, /* a bit for each interrupt line that is high */
    SPR_TTMR = 20480,  /* mode and period of the tick timer */
    SPR_TTCR = 20481,  /* its count of retired instructions */
};

/* Bits of SR. */
enum { SR_TEE = 1 << 1, SR_IEE = 1 << 2, SR_DCE = 1 << 3, SR_ICE = 1 << 4 };

/* TTMR: start again at 0 behind each match, interrupt at a match, and the interrupt that waits. */
#define TTMR_RESTART 0x40000000u
#define TTMR_IE 0x20000000u
#define TTMR_IP 0x10000000u

/* Interrupt lines of each core's PIC. */
enum { LINE_OMPIC = 1, LINE_UART = 2 };

/* Vectors, as handle_exception gets them. */
enum { VECTOR_TICK = 0x500, VECTOR_EXTERNAL = 0x800 };

/* UART: registers of a byte each. */
#define UART ((volatile byte *)0x90000000)
enum { UART_DATA = 0, UART_IER = 1, UART_LSR = 5 };
enum { UART_IER_RECEIVED = 1, UART_LSR_RECEIVED = 0x01, UART_LSR_ROOM = 0x20 };

/* Inter-processor interrupts: for each core a control word and a status word. */
#define OMPIC_CONTROL(core) (((volatile word *)0x98000000)[2 * (core)])
#define OMPIC_STATUS(core) (((volatile word *)0x98000000)[2 * (core) + 1])
#define OMPIC_ACK 0x80000000u
#define OMPIC_SEND(core) (0x40000000u | (word)(core) << 16) /* or with 16 bits of data */

#define read_special(number)                                             \
    ({                                                                   \
        word value_;                                                     \
        __asm__ volatile("l.mfspr %0,r0,%1" : "=r"(value_) : "K"(number)); \
        value_;                                                          \
    })
#define write_special(number, value) \
    __asm__ volatile("l.mtspr r0,%0,%1" : : "r"((word)(value)), "K"(number) : "memory")

/* Loads a word and reserves it. */
static inline word load_linked(volatile word *place)
{
    word value;
    __asm__ volatile("l.lwa %0,0(%1)" : "=r"(value) : "r"(place) : "memory");
    return value;
}

/* Stores a word if its reservation still stands, and tells whether it did. */
static inline int store_conditional(volatile word *place, word value)
{
    int stored;
    __asm__ volatile("l.swa 0(%1),%2\n\t"
                     "l.bf 1f\n\t"
                     "l.ori %0,r0,1\n\t"
                     "l.ori %0,r0,0\n"
                     "1:"
                     : "=&r"(stored)
                     : "r"(place), "r"(value)
                     : "memory", "cc");
    return stored;
}

/* Adds to a word, whatever other cores do. */
void add_atomically(volatile word *place, word amount);
/* Waits until a word is `value`. By l.lwa, so that what was done before the l.swa that made it so is ordered before. */
void await(volatile word *place, word value);

void put_char(char letter);
void put_text(const char *text);
void put_number(word number);

/* Sets and clears bits of SR. */
void set_status(word bits);
void clear_status(word bits);

/* Every core begins here; what it returns is the core's exit value. */
word main(word core, word cores);
/* Every exception comes here. Without one of its own, a program ends the core with the vector as exit value. */
void handle_exception(word vector);

#endif
