/* Times widening: the witness of each example trigger, which are the arguments, and witnesses of 256 frames over 1,000 gates. */
#include "yunverok.h"
#include <stdio.h>
#include <stdlib.h>
#include <string.h>
#include <time.h>

static double now(void)
{
    struct timespec t;
    clock_gettime(CLOCK_MONOTONIC, &t);
    return t.tv_sec + t.tv_nsec * 1e-9;
}

static uint32_t seed = 1;
static uint32_t draw(uint32_t n)
{
    seed = seed * 1664525u + 1013904223u;
    return (seed >> 8) % n;
}

static uint32_t memory[33040];
static uint8_t text[70000], witness[70000], wide[70000];
static uint32_t work[16 * 65536];
static uint64_t answer[YUNVEROK_ANSWER];

/* The functions of the library for one user, who shares nothing: each aborts where it is refused. */
static void load(const uint8_t *file, size_t n)
{
    if (yunverok_load(0, NULL, 0, memory, 33040, file, n, answer, YUNVEROK_ANSWER)) abort();
}

static uint64_t replay(const uint8_t *from, size_t n)
{
    if (yunverok_replay(0, NULL, 0, memory, 33040, from, n, answer, YUNVEROK_ANSWER)) abort();
    return answer[YUNVEROK_KIND];
}

static int eithers(size_t n)
{
    int count = 0;
    for (size_t i = 0; i < n; i++) count += wide[i] == 'x';
    return count;
}

/* Widens the witness of n bytes. The answer is the time in seconds. */
static double widen(size_t n)
{
    double start = now();
    if (yunverok_widen(0, NULL, 0, memory, 33040, witness, n, wide, sizeof wide, answer, YUNVEROK_ANSWER)) abort();
    double end = now();
    if (replay(wide, n) != YUNVEROK_ALL) abort();
    return end - start;
}

static size_t read(const char *name, uint8_t *into, size_t room)
{
    FILE *f = fopen(name, "r");
    if (!f) return 0;
    size_t n = fread(into, 1, room - 1, f);
    fclose(f);
    into[n] = 0;
    return n;
}

static void row(const char *name, size_t n)
{
    unsigned frames = 0;
    for (size_t i = 0; i < n; i++) frames += witness[i] == '\n';
    frames -= 4;
    double best = widen(n);
    for (int i = 0; i < 4; i++) {
        double time = widen(n);
        if (time < best) best = time;
    }
    printf("%-28s %6u %6u %4d %10.3f\n", name, frames, memory[2] + memory[1] * frames, eithers(n), best * 1e3);
}

/* Each trigger's witness: the one that the search finds, where it asks for one on its first line or in a line `Ask:`, or a file beside it. */
static void triggers(int count, char **names)
{
    printf("%-28s %6s %6s %4s %10s\n", "trigger", "frames", "bits", "x", "ms");
    for (int i = 0; i < count; i++) {
        size_t n = read(names[i], text, sizeof text);
        if (!n) abort();
        unsigned b, k;
        unsigned long long d;
        int at = 0;
        char *ask = strstr((char *)text, "Ask: search ");
        if (sscanf((char *)text, "search %u %u %llu\n%n", &b, &k, &d, &at) != 3 && (!ask || sscanf(ask, "Ask: search %*s %u %u %llu", &b, &k, &d) != 3))
            abort();
        load(text + at, n - at);
        char *name = strrchr(names[i], '/');
        name = name ? name + 1 : names[i];
        char beside[256];
        snprintf(beside, sizeof beside, "%.*s.witness", (int)(strrchr(names[i], '.') - names[i]), names[i]);
        size_t length = read(beside, witness, sizeof witness);
        if (!length) {
            if (yunverok_search(0, NULL, 0, memory, 33040, b, k, d, work, sizeof work / 4, witness, sizeof witness, answer, YUNVEROK_ANSWER)) abort();
            length = answer[YUNVEROK_LENGTH];
        }
        if (length) row(name, length);
        else printf("%-28s no witness\n", name);
    }
}

enum { INPUTS = 4, LATCHES = 24, GATES = 1000, FRAMES = 256 };

/* The machine that the library generates of a seed, with another bad line: bad is its literal, of four digits as that of the last gate. */
static size_t machine(uint64_t from, uint32_t bad)
{
    if (yunverok_generate(from, INPUTS, LATCHES, GATES, text, sizeof text, answer, YUNVEROK_ANSWER)) abort();
    char *p = (char *)text, digits[11];
    for (int line = 0; line < 1 + INPUTS + LATCHES; line++) p = strchr(p, '\n') + 1;
    memcpy(p, digits, sprintf(digits, "%u", bad));
    return answer[YUNVEROK_LENGTH];
}

static void machines(void)
{
    double sum = 0, worst = 0;
    int most = 0, least = 16;
    for (int i = 0; i < 20; i++) {
        uint32_t bad = 2 * (INPUTS + LATCHES + 1 + GATES - 1 - draw(200));
        char *p = (char *)witness;
        p += sprintf(p, "1\nb0\n");
        for (int j = 0; j < LATCHES; j++) *p++ = '0';
        *p++ = '\n';
        for (int u = 0; u < FRAMES; u++) {
            for (int j = 0; j < INPUTS; j++) *p++ = '0' + draw(2);
            *p++ = '\n';
        }
        p += sprintf(p, ".\n");
        load(text, machine(i, bad));
        if (replay(witness, p - (char *)witness) == YUNVEROK_NO) load(text, machine(i, bad + 1));
        double time = widen(p - (char *)witness);
        int x = eithers(p - (char *)witness);
        sum += time;
        if (worst < time) worst = time;
        if (most < x) most = x;
        if (x < least) least = x;
    }
    printf("\n256 frames over %d gates, %d inputs, %d latches, 20 machines: %.1f ms in the mean, %.1f ms at worst, %d to %d x\n", GATES, INPUTS, LATCHES, sum / 20 * 1e3, worst * 1e3, least, most);
}

int main(int argc, char **argv)
{
    triggers(argc - 1, argv + 1);
    machines();
    return 0;
}
