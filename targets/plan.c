/* Plans a call a number of times and does little else, so that what a plan takes can be counted:
 *   plan TIMES ARGUMENTS
 * The call is for PPC64, without a result, of up to 128 arguments that are i32 and double in turns. */
#include "flakuzhen.h"
#include <stdlib.h>
#include <string.h>

int main(int count, char **words)
{
    static const uint8_t head[8] = {0x01, 0x00, 0x01, 0x01, 0x02, 0x00, 0x00, 0x03};
    static const uint8_t types[2][4] = {{0x10, 0x00, 0x01, 0x04}, {0x11, 0x00, 0x01, 0x01}};
    uint8_t sig[10 + 128 * 4];
    int times, arguments, i;

    if (count != 3)
        return 2;
    times = atoi(words[1]);
    arguments = atoi(words[2]);
    if (arguments < 0 || arguments > 128)
        return 2;
    memcpy(sig, head, 8);
    sig[8] = (uint8_t)(4 * arguments >> 8);
    sig[9] = (uint8_t)(4 * arguments);
    for (i = 0; i < arguments; i++)
        memcpy(sig + 10 + 4 * i, types[i % 2], 4);
    for (i = 0; i < times; i++)
        if (fz_measure(sig, 10 + 4 * (size_t)arguments).answer.number != FZ_ACCEPTED)
            return 1;
    return 0;
}
