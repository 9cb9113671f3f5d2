/* The division of 64 bits that the processor lacks: the lines of `lab` print decimal numbers with it. No call of the pod divides so. */
typedef unsigned u32;
typedef unsigned long long u64;

/* Bit by bit: no division is left for the compiler to ask this file for. */
u64 divided(u64 number, u64 by, u64 *rest)
{
    u64 quotient = 0, left = 0;
    for (u32 bit = 0; bit < 64; bit++) {
        u32 carried = (u32)(left >> 63);
        left = left << 1 | number >> 63;
        number <<= 1;
        quotient <<= 1;
        if (carried || left >= by) {
            left -= by;
            quotient |= 1;
        }
    }
    *rest = left;
    return quotient;
}

/* The name and the registers of the processor's run-time rules: quotient in r0 and r1, rest in r2 and r3. */
__attribute__((naked)) void __aeabi_uldivmod(void)
{
    __asm__ volatile("push {r6, lr}\n"
                     "sub sp, #16\n"
                     "add r6, sp, #8\n"
                     "str r6, [sp]\n"
                     "bl divided\n"
                     "ldr r2, [sp, #8]\n"
                     "ldr r3, [sp, #12]\n"
                     "add sp, #16\n"
                     "pop {r6, pc}\n");
}
