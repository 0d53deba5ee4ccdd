/* The checking program in plain C: a stand-in for the proved one, to test the tools with. */
#include "plain.h"

#include <stdio.h>

#define INPUT_LIMIT 65536
#define HEADER_BYTES 15
#define NAMING_BYTES (HEADER_BYTES + 2 * 32) /* header, root and salt */

/* The question's length and the number of values by the header; false when 15 bytes do not pass. */
static int split(const uint8_t *input, size_t length, size_t *question, uint32_t *w, uint32_t *m)
{
    uint8_t none[1];

    if (length < HEADER_BYTES || PLAIN(check)(input, HEADER_BYTES, none, 0, none, 0) != 6)
        return 0;
    *w = (uint32_t)(input[9] | input[10] << 8);
    *m = input[13];
    *question = NAMING_BYTES + 4 * (size_t)(input[12] + input[13]) + 2 * (size_t)input[11];
    if (*question > length)
        *question = length;
    return 1;
}

int main(void)
{
    static uint8_t input[INPUT_LIMIT], values[4 * 256 * 8];
    size_t length = fread(input, 1, sizeof input, stdin), question = length;
    uint32_t w = 0, m = 0;
    uint32_t number;

    split(input, length, &question, &w, &m);
    number = PLAIN(check)(input, question, input + question, length - question, values,
                          4 * (size_t)w * m);
    printf("verdict %u\n", number);
    for (uint32_t p = 0; number == 0 && p < m; p++)
        for (uint32_t i = 0; i < w; i++) {
            const uint8_t *at = values + 4 * (p * w + i);
            printf("%u %u %u\n", p + 1, i + 1,
                   at[0] | at[1] << 8 | at[2] << 16 | (uint32_t)at[3] << 24);
        }
    return 0;
}
