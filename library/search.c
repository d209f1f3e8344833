/* search FILE b k D: searches the circuit in FILE for bad line b, frames 0 to k, with a budget of D sequences for each frame. Prints
   `found t` and the witness, `none k`, `spent t R` or `refused n`. Exit status: 0 for an answer, 1 for a refusal, 2 for a wrong call. */
#include "yunverok.h"
#include <errno.h>
#include <inttypes.h>
#include <stdio.h>
#include <stdlib.h>

/* One byte more than the longest file, so that a longer one is seen and refused. */
static uint8_t file[YUNVEROK_TEXT + 1];
static uint32_t circuit[YUNVEROK_MEMORY], work[YUNVEROK_WORK];
static uint8_t out[YUNVEROK_WITNESS];
static uint64_t answer[YUNVEROK_ANSWER];

static int number(const char *word, uint64_t *value)
{
    char *end;
    errno = 0;
    *value = strtoull(word, &end, 10);
    return word[0] >= '0' && word[0] <= '9' && *end == 0 && errno == 0;
}

/* The bytes of FILE, at most one more than a file may have; -1 where it can't be read. */
static long contents(const char *name)
{
    FILE *stream = fopen(name, "rb");
    if (!stream) return -1;
    size_t length = fread(file, 1, sizeof file, stream);
    int failed = ferror(stream);
    fclose(stream);
    return failed ? -1 : (long)length;
}

static int refused(uint64_t n)
{
    printf("refused %" PRIu64 "\n", n);
    return 1;
}

int main(int count, char **words)
{
    uint64_t b, k, d;
    if (count != 5 || !number(words[2], &b) || !number(words[3], &k) || !number(words[4], &d)) {
        fputs("usage: search FILE b k D\n", stderr);
        return 2;
    }
    long length = contents(words[1]);
    if (length < 0) {
        perror(words[1]);
        return 2;
    }
    /* One user, who shares nothing: user 0 and no bytes. */
    uint64_t refusal = yunverok_load(0, NULL, 0, circuit, YUNVEROK_MEMORY, file, length, answer, YUNVEROK_ANSWER);
    if (refusal) return refused(refusal);
    refusal = yunverok_search(0, NULL, 0, circuit, YUNVEROK_MEMORY, b, k, d, work, YUNVEROK_WORK, out, sizeof out, answer, YUNVEROK_ANSWER);
    if (refusal) return refused(refusal);
    switch (answer[YUNVEROK_KIND]) {
    case YUNVEROK_FOUND:
        printf("found %" PRIu64 "\n", answer[YUNVEROK_FRAME]);
        fwrite(out, 1, answer[YUNVEROK_LENGTH], stdout);
        return 0;
    case YUNVEROK_NONE: printf("none %" PRIu64 "\n", answer[YUNVEROK_FRAME]); return 0;
    default: printf("spent %" PRIu64 " %" PRIu64 "\n", answer[YUNVEROK_FRAME], answer[YUNVEROK_REACHED]); return 0;
    }
}
