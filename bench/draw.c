/* draw SEED I L A: prints the circuit that the C library generates. */
#include "yunverok.h"
#include <stdio.h>
#include <stdlib.h>

static uint8_t out[YUNVEROK_GENERATED];
static uint64_t answer[YUNVEROK_ANSWER];

int main(int count, char **words)
{
    uint64_t numbers[4];
    if (count != 5) return 2;
    for (int i = 0; i < 4; i++) numbers[i] = strtoull(words[i + 1], NULL, 10);
    if (yunverok_generate(numbers[0], numbers[1], numbers[2], numbers[3], out, sizeof out, answer, YUNVEROK_ANSWER)) return 1;
    return fwrite(out, 1, answer[YUNVEROK_LENGTH], stdout) != answer[YUNVEROK_LENGTH];
}
