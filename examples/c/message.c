/*
 * A message goes round all cores by inter-processor interrupts. Core 0 sends 1 to core 1; each core adds 1 and sends it to
 * the next; core 0 prints what comes back, which is the number of cores.
 */
#include "board.h"

static volatile word mail[8]; /* what a core has received, each written and read by its own core */

void handle_exception(word vector)
{
    word core = read_special(SPR_COREID);
    if (vector != VECTOR_EXTERNAL)
        return;
    /* The status has the sender in bits 29..16 and the data in 15..0. */
    mail[core] = OMPIC_STATUS(core) & 0xFFFF;
    OMPIC_CONTROL(core) = OMPIC_ACK;
    write_special(SPR_PICSR, 1u << LINE_OMPIC);
}

static word receive(word core)
{
    while (mail[core] == 0)
        ;
    return mail[core];
}

static void send(word from, word to, word data)
{
    OMPIC_CONTROL(from) = OMPIC_SEND(to) | data;
}

word main(word core, word cores)
{
    word next = core + 1 < cores ? core + 1 : 0;

    write_special(SPR_PICMR, 1u << LINE_OMPIC);
    set_status(SR_IEE);
    if (core == 0)
        send(core, next, 1);
    word data = receive(core);
    if (core != 0) {
        send(core, next, data + 1);
        return data;
    }
    put_text("the message came back as ");
    put_number(data);
    put_char('\n');
    return data;
}
