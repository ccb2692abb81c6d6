/*
 * The only program of the kernel's initramfs, without a C library. It numbers the lines that it reads, and halts the
 * machine at a line `halt`.
 */

enum { READ = 63, WRITE = 64, REBOOT = 142 };

/* A system call: its number in r11, its arguments from r3 on, its answer in r11. */
static long call(long number, long first, long second, long third)
{
    register long r11 __asm__("r11") = number;
    register long r3 __asm__("r3") = first;
    register long r4 __asm__("r4") = second;
    register long r5 __asm__("r5") = third;
    __asm__ volatile("l.sys 1\n\tl.nop"
                     : "+r"(r11), "+r"(r3), "+r"(r4), "+r"(r5)
                     :
                     : "r6", "r7", "r8", "r12", "r13", "r15", "r17", "r19", "r21", "r23", "r25", "r27", "r29", "r31",
                       "memory");
    return r11;
}

static void print(const char *text, long length)
{
    call(WRITE, 1, (long)text, length);
}

#define PRINT(text) print(text, sizeof text - 1)

static int is_halt(const char *line, long length)
{
    return length == 5 && line[0] == 'h' && line[1] == 'a' && line[2] == 'l' && line[3] == 't';
}

void _start(void)
{
    static char line[128];
    char number = '1';

    PRINT("init: type lines, and halt\n");
    for (;;) {
        long length = call(READ, 0, (long)line, sizeof line);
        if (length <= 0 || is_halt(line, length))
            break;
        print(&number, 1);
        PRINT(": ");
        print(line, length);
        number = number == '9' ? '1' : (char)(number + 1);
    }
    PRINT("init: halt\n");
    call(REBOOT, 0xFEE1DEAD, 672274793, 0xCDEF0123);
    for (;;)
        ;
}
