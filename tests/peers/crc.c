/* ./crc bytewise|slicing N: the CRC of a message of 258 bytes, N times, as the program `repeats` does it. */
#include <stdio.h>
#include <stdlib.h>
#include <string.h>
#include "crc.h"

__attribute__((noinline)) static uint16_t bytewise(const uint8_t *p, size_t n)
{
    return crc_bytewise(0xFFFF, p, n);
}

__attribute__((noinline)) static uint16_t slicing(const uint8_t *p, size_t n)
{
    return crc_slicing(0xFFFF, p, n);
}

int main(int argc, char **argv)
{
    if (argc != 3)
        return 2;
    uint8_t message[258];
    for (int i = 0; i < 258; i++)
        message[i] = (uint8_t)(i % 251);
    int wide = !strcmp(argv[1], "slicing");
    uint16_t c = 0;
    crc_prepare();
    for (long k = atol(argv[2]); k > 0; k--) {
        message[0] = (uint8_t)c;
        c = wide ? slicing(message, sizeof message) : bytewise(message, sizeof message);
    }
    printf("K %04X\n", c);
    return 0;
}
