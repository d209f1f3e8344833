/* ask FILE b k D: searches the circuit in FILE through the C library, and prints the answer and how long load and search took together,
   in milliseconds. The memories are those of the largest size. */
#include "yunverok.h"
#include <inttypes.h>
#include <stdio.h>
#include <stdlib.h>
#include <time.h>

static uint8_t file[YUNVEROK_TEXT + 1], out[YUNVEROK_WITNESS];
static uint32_t circuit[YUNVEROK_MEMORY], work[YUNVEROK_WORK];
static uint64_t answer[YUNVEROK_ANSWER];

static double now(void)
{
    struct timespec t;
    clock_gettime(CLOCK_MONOTONIC, &t);
    return t.tv_sec * 1e3 + t.tv_nsec * 1e-6;
}

int main(int count, char **words)
{
    FILE *stream = count == 5 ? fopen(words[1], "rb") : NULL;
    if (!stream) return 2;
    size_t length = fread(file, 1, sizeof file, stream);
    fclose(stream);
    double start = now();
    uint64_t refusal = yunverok_load(0, NULL, 0, circuit, YUNVEROK_MEMORY, file, length, answer, YUNVEROK_ANSWER);
    if (!refusal)
        refusal = yunverok_search(0, NULL, 0, circuit, YUNVEROK_MEMORY, strtoull(words[2], NULL, 10), strtoull(words[3], NULL, 10),
                                  strtoull(words[4], NULL, 10), work, YUNVEROK_WORK, out, sizeof out, answer, YUNVEROK_ANSWER);
    double end = now();
    static const char *const said[] = {"done", "found", "none", "spent"};
    if (refusal) printf("refused %" PRIu64, refusal);
    else printf("%s %" PRIu64, said[answer[YUNVEROK_KIND] & 3], answer[YUNVEROK_FRAME]);
    printf("\n%.4f\n", end - start);
    return 0;
}
