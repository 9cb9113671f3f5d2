/* The start-up of a program on the emulated board: vectors, files by semihosting, and what the calls took.
 *
 * The program reads `in` and writes `out`; at the end `counts` has, in ticks of timer 0, what an empty routine took,
 * what one of 1,001 instructions took, what the whole program took, and then a note of each counted call. */
typedef unsigned u32;
typedef unsigned long long u64;

extern u32 bss_start[], bss_end[], stack_top[], notes_at[], notes_end[];
extern void outer_empty(void), outer_known(void);
int main(void);
void start(void);

static volatile u32 *const TIMER = (u32 *)0x40000000; /* control, value (it counts down), reload */
static u32 in, out;
static u32 *next;

/* lr and r4 of the caller, and the time before: counted.S. */
u32 held[3];

static u32 host(u32 what, const void *with)
{
    register u32 r0 __asm__("r0") = what;
    register const void *r1 __asm__("r1") = with;
    __asm__ volatile("bkpt 0xAB" : "+r"(r0) : "r"(r1) : "memory");
    return r0;
}

static void stop(int good)
{
    host(0x18, (void *)(good ? 0x20026 : 0x20023));
    for (;;)
        ;
}

static u32 opened(const char *name, u32 length, u32 mode)
{
    u32 words[3] = {(u32)name, mode, length};
    u32 file = host(0x01, words);
    if (file == 0xFFFFFFFF)
        stop(0);
    return file;
}

/* How many bytes were moved. */
static u32 moved(u32 what, u32 file, const void *at, u32 length)
{
    u32 words[3] = {file, (u32)at, length};
    return length - host(what, words);
}

u64 read(u32 file, void *at, u64 length)
{
    (void)file;
    return moved(0x06, in, at, (u32)length);
}

u64 write(u32 file, const void *at, u64 length)
{
    (void)file;
    return moved(0x05, out, at, (u32)length);
}

/* What the kit's main asks of the C library of x86-64 before it runs the program: that a closed pipe ends nothing, and
 * whether the processor has all that the program is compiled for; where it has not, it writes so. Here it has all. */
u64 __sysv_signal(u32 number, u64 what)
{
    (void)number, (void)what;
    return 0;
}

const void *__x86_get_cpuid_feature_leaf(u32 leaf)
{
    static const u32 all[] = {~0u, ~0u, ~0u, ~0u, ~0u, ~0u, ~0u, ~0u};
    (void)leaf;
    return all;
}

u64 __write(u32 file, const void *at, u64 length)
{
    return write(file, at, length);
}

/* The same for the C program of the library (tests/library/lines.h). */
int vectors_read(void *into, u32 length)
{
    return (int)moved(0x06, in, into, length);
}

int vectors_write(const void *from, u32 length)
{
    return (int)moved(0x05, out, from, length);
}

/* A counted call has ended: its number in the four top bits, and the ticks. */
void note(u32 number, u32 after)
{
    u32 ticks = held[2] - after;
    if (next == notes_end || ticks >> 28)
        stop(0);
    *next++ = number << 28 | ticks;
}

void start(void)
{
    for (u32 *p = bss_start; p < bss_end; p++)
        *p = 0;
    in = opened("in", 2, 1);
    out = opened("out", 3, 5);
    u32 counts = opened("counts", 6, 5);
    TIMER[2] = TIMER[1] = 0xFFFFFFFF;
    TIMER[0] = 1;
    next = notes_at;
    outer_empty();
    outer_known();
    u32 *whole = next++;
    u32 before = TIMER[1];
    int status = main();
    *whole = before - TIMER[1];
    u32 length = (u32)((char *)next - (char *)notes_at);
    stop(status == 0 && moved(0x05, counts, notes_at, length) == length);
}

static void fault(void)
{
    stop(0);
}

#define FAULT (u32)fault
__attribute__((section(".vectors"), used)) static const u32 vectors[16] = {
    (u32)stack_top, (u32)start, FAULT, FAULT, FAULT, FAULT, FAULT, FAULT,
    FAULT, FAULT, FAULT, FAULT, FAULT, FAULT, FAULT, FAULT,
};
