#include "store/checksum.h"

#define POLYNOMIAL 0x82F63B78U /* Castagnoli's, lowest bit first */

static uint32_t of_byte(uint32_t sum)
{
    int bit;
    for (bit = 0; bit < 8; bit++)
        sum = (sum & 1U) != 0 ? (sum >> 1) ^ POLYNOMIAL : sum >> 1;
    return sum;
}

static const uint32_t *table_of_bytes(void)
{
    static uint32_t table[256];
    uint32_t byte;
    if (table[255] == 0) /* the last entry is not zero once it is filled in */
        for (byte = 0; byte < 256; byte++)
            table[byte] = of_byte(byte);
    return table;
}

uint32_t checksum(const uint8_t *bytes, size_t length)
{
    const uint32_t *table = table_of_bytes();
    uint32_t sum = 0xFFFFFFFFU;
    for (; length > 0; length--, bytes++)
        sum = (sum >> 8) ^ table[(sum ^ *bytes) & 255U];
    return sum ^ 0xFFFFFFFFU;
}
