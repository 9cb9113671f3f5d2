/* CRC-16 with the polynomial 0x1021 from 0xFFFF, high bit first: a byte at a time by a table, and eight at a time. */
#include <stddef.h>
#include <stdint.h>

static uint16_t crc_table[8][256];

static void crc_prepare(void)
{
    for (int b = 0; b < 256; b++) {
        uint16_t c = (uint16_t)(b << 8);
        for (int bit = 0; bit < 8; bit++)
            c = (uint16_t)(c & 0x8000 ? c << 1 ^ 0x1021 : c << 1);
        crc_table[0][b] = c;
    }
    /* Row k: the same byte with k zero bytes behind it. */
    for (int k = 1; k < 8; k++)
        for (int b = 0; b < 256; b++) {
            uint16_t c = crc_table[k - 1][b];
            crc_table[k][b] = (uint16_t)(c << 8 ^ crc_table[0][c >> 8]);
        }
}

static inline uint16_t crc_bytewise(uint16_t c, const uint8_t *p, size_t n)
{
    while (n--)
        c = (uint16_t)(c << 8 ^ crc_table[0][(c >> 8 ^ *p++) & 0xFF]);
    return c;
}

static inline uint16_t crc_slicing(uint16_t c, const uint8_t *p, size_t n)
{
    for (; n >= 8; n -= 8, p += 8)
        c = crc_table[7][p[0] ^ c >> 8] ^ crc_table[6][p[1] ^ (c & 0xFF)] ^ crc_table[5][p[2]] ^ crc_table[4][p[3]]
            ^ crc_table[3][p[4]] ^ crc_table[2][p[5]] ^ crc_table[1][p[6]] ^ crc_table[0][p[7]];
    return crc_bytewise(c, p, n);
}
