/* Times load, the test for number 9 and write in both forms per gate, replay, fold, and the search beside a plain C enumeration of 64
   sequences a pass.
   The arguments are example triggers. */
#include "yunverok.h"
#include <stdio.h>
#include <stdlib.h>
#include <string.h>
#include <time.h>

static double now(void)
{
    struct timespec t;
    clock_gettime(CLOCK_MONOTONIC, &t);
    return t.tv_sec + t.tv_nsec * 1e-9;
}

static uint32_t seed = 1;
static uint32_t draw(uint32_t n)
{
    seed = seed * 1664525u + 1013904223u;
    return (seed >> 8) % n;
}

static uint32_t memory[33040];
static uint8_t text[70000], back[70000];
static uint32_t work[16 * 65536];
static uint8_t out[24 * 65536 + 64];
static uint64_t answer[YUNVEROK_ANSWER];

/* The functions of the library for one user, who shares nothing: each aborts where it is refused. The answer of those that write is the
   length of the text. */
static void load(const uint8_t *file, size_t n)
{
    if (yunverok_load(0, NULL, 0, memory, 33040, file, n, answer, YUNVEROK_ANSWER)) abort();
}

/* The test for number 9: the circuit has no input 256, which is asked after it. */
static void test(void)
{
    if (yunverok_pin(0, NULL, 0, memory, 33040, 256, 2, answer, YUNVEROK_ANSWER) != 18) abort();
}

static size_t write_form(uint64_t form, uint8_t *to, size_t room)
{
    if (yunverok_write(0, memory, 33040, form, to, room, answer, YUNVEROK_ANSWER)) abort();
    return answer[YUNVEROK_LENGTH];
}

static void search(uint64_t b, uint64_t k, uint64_t d)
{
    if (yunverok_search(0, NULL, 0, memory, 33040, b, k, d, work, sizeof work / 4, back, sizeof back, answer, YUNVEROK_ANSWER)) abort();
}

/* A chain of gates as deep as it is long, in file order or reversed. */
static size_t chain(int gates, int reversed)
{
    char *p = (char *)text;
    p += sprintf(p, "aag %d 2 0 1 %d 1 0\n2\n4\n%d\n%d\n", gates + 2, gates, 2 * (gates + 2), 2 * (gates + 2));
    for (int i = 0; i < gates; i++) {
        int g = reversed ? gates - 1 - i : i;
        p += sprintf(p, "%d %d %d\n", 2 * (g + 3), 2 * (g + 2), 2 + (g & 1));
    }
    return p - (char *)text;
}

static void loads(void)
{
    static const int sizes[] = {384, 768, 1536, 3072};
    printf("per gate, in nanoseconds (the best of 20 runs)\n%-9s %6s %8s %8s %8s %8s\n", "order", "gates", "load", "test", "write", "binary");
    for (int reversed = 0; reversed < 2; reversed++)
        for (int i = 0; i < 4; i++) {
            size_t n = chain(sizes[i], reversed);
            double loaded = 1e9, tested = 1e9, written = 1e9, binary = 1e9;
            for (int r = 0; r < 20; r++) {
                double a = now();
                for (int k = 0; k < 20; k++) load(text, n);
                double b = now();
                for (int k = 0; k < 20; k++) test();
                double c = now();
                for (int k = 0; k < 20; k++)
                    if (write_form(0, back, sizeof back) != n) abort();
                double d = now();
                for (int k = 0; k < 20; k++) write_form(1, out, sizeof out);
                double e = now();
                if ((b - a) / 20 < loaded) loaded = (b - a) / 20;
                if ((c - b) / 20 < tested) tested = (c - b) / 20;
                if ((d - c) / 20 < written) written = (d - c) / 20;
                if ((e - d) / 20 < binary) binary = (e - d) / 20;
            }
            if (memcmp(text, back, n)) abort();
            printf("%-9s %6d %8.1f %8.1f %8.1f", reversed ? "reversed" : "file", sizes[i], loaded / sizes[i] * 1e9, tested / sizes[i] * 1e9, written / sizes[i] * 1e9);
            printf(" %8.1f", binary / sizes[i] * 1e9);
            printf("   load %.3f ms\n", loaded * 1e3);
        }
}

/* The same enumeration in plain C. */
struct gate { uint32_t lit, left, right; };
static struct gate gates[3072];
static struct { uint32_t lit, next; } latches[64];
static uint64_t values[4097], state[64];
static const uint64_t patterns[6] = {0xaaaaaaaaaaaaaaaaull, 0xccccccccccccccccull, 0xf0f0f0f0f0f0f0f0ull,
                                     0xff00ff00ff00ff00ull, 0xffff0000ffff0000ull, 0xffffffff00000000ull};
static uint64_t value(uint32_t l) { return values[l >> 1] ^ -(uint64_t)(l & 1); }

static int plain(int a, int free, int k, uint32_t bad, uint64_t *found)
{
    for (int t = 0; t <= k; t++)
        for (uint64_t block = 0; block < (1ull << free) / 64; block++) {
            values[0] = 0;
            for (int j = 0; j < free; j++) {
                int bit = free - 1 - j;
                values[latches[j].lit >> 1] = bit < 6 ? patterns[bit] : (block >> (bit - 6)) & 1 ? ~0ull : 0;
            }
            for (int u = 0;; u++) {
                for (int g = 0; g < a; g++) values[gates[g].lit >> 1] = value(gates[g].left) & value(gates[g].right);
                if (u == t) break;
                for (int j = 0; j < free; j++) state[j] = value(latches[j].next);
                for (int j = 0; j < free; j++) values[latches[j].lit >> 1] = state[j];
            }
            uint64_t hit = value(bad);
            if (hit) {
                *found = block * 64 + __builtin_ctzll(hit);
                return t;
            }
        }
    return -1;
}

/* Free latches only, so that every frame has the same 2^free sequences; the bad line is never true. */
static size_t random_circuit(int a, int free)
{
    char *p = (char *)text;
    p += sprintf(p, "aag %d 0 %d 0 %d 1\n", free + a, free, a);
    for (int j = 0; j < free; j++) {
        latches[j].lit = 2 * (j + 1);
        latches[j].next = draw(2 * (free + a + 1));
        p += sprintf(p, "%u %u %u\n", latches[j].lit, latches[j].next, latches[j].lit);
    }
    for (int g = 0; g < a; g++) {
        gates[g].lit = 2 * (free + 1 + g);
        gates[g].left = g + 1 == a ? 2 : draw(gates[g].lit - 2) + 2;
        gates[g].right = g + 1 == a ? 3 : draw(gates[g].lit - 2) + 2;
    }
    p += sprintf(p, "%u\n", gates[a - 1].lit);
    for (int g = 0; g < a; g++) p += sprintf(p, "%u %u %u\n", gates[g].lit, gates[g].left, gates[g].right);
    return p - (char *)text;
}

static void searches(void)
{
    static const int sizes[] = {20, 200, 2000}, bounds[] = {0, 7, 31}, bits[] = {18, 16, 12};
    printf("\nsearch of frames 0 to k, million sequences a second (the best of 5 runs)\n%6s %6s %10s %10s %7s\n", "gates", "bound", "yunverok", "plain C", "ratio");
    for (int i = 0; i < 3; i++)
        for (int j = 0; j < 3; j++) {
            int free = bits[i] - (bounds[j] ? 2 : 0);
            size_t n = random_circuit(sizes[i], free);
            load(text, n);
            double ours = 1e9, theirs = 1e9;
            for (int r = 0; r < 5; r++) {
                uint64_t x;
                double a = now();
                search(0, bounds[j], 1ull << 32);
                double b = now();
                int t = plain(sizes[i], free, bounds[j], gates[sizes[i] - 1].lit, &x);
                double c = now();
                if (t >= 0 || answer[YUNVEROK_KIND] != YUNVEROK_NONE) abort();
                if (b - a < ours) ours = b - a;
                if (c - b < theirs) theirs = c - b;
            }
            double count = (double)(1ull << free) * (bounds[j] + 1) / 1e6;
            printf("%6d %6d %10.2f %10.2f %7.2f\n", sizes[i], bounds[j], count / ours, count / theirs, theirs / ours);
        }
}

/* A witness of 256 frames for a chain of 3,072 gates. */
static void replays(void)
{
    size_t n = chain(3072, 1);
    load(text, n);
    char *p = (char *)back;
    p += sprintf(p, "1\nb0\n\n");
    for (int u = 0; u < 256; u++) p += sprintf(p, "%d%d\n", u & 1, u >> 1 & 1);
    p += sprintf(p, ".\n");
    double best = 1e9;
    for (int r = 0; r < 20; r++) {
        double a = now();
        if (yunverok_replay(0, NULL, 0, memory, 33040, back, p - (char *)back, answer, YUNVEROK_ANSWER)) abort();
        double b = now();
        if (b - a < best) best = b - a;
    }
    printf("\nreplay of 256 frames of 3,072 gates: %.2f ms\n", best * 1e3);
}

/* Folds bad line b at frame t of the circuit in memory. The answer is the time in seconds. */
static double fold(uint64_t b, uint64_t t, int *gates)
{
    double start = now();
    if (yunverok_fold(0, NULL, 0, memory, 33040, b, t, work, sizeof work / 4, out, sizeof out, answer, YUNVEROK_ANSWER)) abort();
    double end = now();
    sscanf((char *)out, "aag %*d %*d %*d %*d %d", gates);
    return end - start;
}

/* Random gates over inputs and latches. One operand of each is among the sixty gates before it. */
static size_t random_gates(int inputs, int latches, int a)
{
    char *p = (char *)text;
    uint32_t first = inputs + latches + 1;
    p += sprintf(p, "aag %d %d %d 0 %d 1\n", inputs + latches + a, inputs, latches, a);
    for (int i = 0; i < inputs; i++) p += sprintf(p, "%d\n", 2 * (i + 1));
    for (int j = 0; j < latches; j++) p += sprintf(p, "%d %u\n", 2 * (inputs + j + 1), 2 * (first + draw(a)) + draw(2));
    p += sprintf(p, "%d\n", 2 * (inputs + latches + a));
    for (int g = 0; g < a; g++) {
        uint32_t low = g > 60 ? 2 * (first + g - 60) : 2, lit = 2 * (first + g), left = low + draw(lit - low), right = 2 + draw(lit - 2);
        p += sprintf(p, "%u %u %u\n", lit, left, right);
    }
    return p - (char *)text;
}

/* The same circuits at each size: only the frame grows. Each is folded once in turn, as a user folds it, and the sums of the sixteen
   times are compared. A small fold that is repeated at once is faster, a large one hardly: probably its branches are learnt. */
static void folds(void)
{
    static const int sizes[] = {4096, 8192, 16384, 32768, 65536};
    printf("\nfold of frames with more than 12 free bits: 16 circuits of 300 random gates, 8 inputs and 8 latches (the best sum of 5 runs)\n");
    printf("%8s %6s %10s %10s %10s\n", "size", "frame", "gates", "worst ms", "ns a unit");
    for (int i = 0; i < 5; i++) {
        int a = 300, t = sizes[i] / (a + 8) - 1, gates = 0;
        double best = 1e9, worst = 0, size = (t + 1.0) * (a + 8) + 1;
        for (int r = 0; r < 5; r++) {
            double sum = 0;
            gates = 0;
            for (int c = 1; c <= 16; c++) {
                int kept;
                seed = c;
                load(text, random_gates(8, 8, a));
                double time = fold(0, t, &kept);
                sum += time;
                gates += kept;
                if (time > worst) worst = time;
            }
            if (sum < best) best = sum;
        }
        printf("%8.0f %6d %10d %10.2f %10.1f\n", size, t, gates, worst * 1e3, best / size / 16 * 1e9);
    }
}

/* Gates in threes: one of two literals of the inputs; one of it or its complement with one of these literals or the complement; and one
   of the complements of that and of the last gate of the three before. */
static size_t repeating_gates(int inputs, int a)
{
    char *p = (char *)text;
    uint32_t first = inputs + 1, left = 0, right = 0, last = 0;
    p += sprintf(p, "aag %d %d 0 0 %d 1\n", inputs + a, inputs, a);
    for (int i = 0; i < inputs; i++) p += sprintf(p, "%d\n", 2 * (i + 1));
    p += sprintf(p, "%d\n", 2 * (inputs + a));
    for (int g = 0; g < a; g++) {
        uint32_t lit = 2 * (first + g);
        if (g % 3 == 0) {
            left = 2 + draw(2 * inputs);
            right = 2 + draw(2 * inputs);
            p += sprintf(p, "%u %u %u\n", lit, left, right);
        } else if (g % 3 == 1) {
            uint32_t again = (draw(2) ? left : right) ^ draw(2), gate = (lit - 2) ^ draw(2);
            p += draw(2) ? sprintf(p, "%u %u %u\n", lit, again, gate) : sprintf(p, "%u %u %u\n", lit, gate, again);
        } else {
            p += sprintf(p, "%u %u %u\n", lit, (lit - 2) ^ 1, last ^ 1);
            last = lit;
        }
    }
    return p - (char *)text;
}

static void repeats(void)
{
    int gates = 0;
    double best = 1e9;
    for (int r = 0; r < 5; r++) {
        double sum = 0;
        gates = 0;
        for (int c = 1; c <= 16; c++) {
            int kept;
            seed = c;
            load(text, repeating_gates(16, 3000));
            sum += fold(0, 0, &kept);
            gates += kept;
        }
        if (sum < best) best = sum;
    }
    printf("\nfold of 3,000 gates over 16 free bits, every second of which repeats an operand one gate down: 16 circuits\n");
    printf("gates kept %d, %.1f ns a unit (the best sum of 5 runs)\n", gates, best / 16 / 3017 * 1e9);
}

/* Products of random literals of twelve inputs: almost all are false in every pattern, so that many gates have the same signature. */
static size_t products(int a)
{
    char *p = (char *)text;
    p += sprintf(p, "aag %d 12 0 0 %d 1\n", 12 + a, a);
    for (int i = 0; i < 12; i++) p += sprintf(p, "%d\n", 2 * (i + 1));
    p += sprintf(p, "%d\n", 2 * (12 + a));
    uint32_t order[12], left = 0;
    for (int g = 0; g < a; g++) {
        int place = g % 11;
        if (place == 0) {
            for (int i = 0; i < 12; i++) order[i] = i + 1;
            for (int i = 0; i < 12; i++) {
                int j = i + draw(12 - i);
                uint32_t v = order[i];
                order[i] = order[j];
                order[j] = v;
            }
            left = 2 * order[0] + draw(2);
        }
        uint32_t right = 2 * order[place + 1] + draw(2);
        p += sprintf(p, "%d %u %u\n", 2 * (13 + g), left, right);
        left = 2 * (13 + g);
    }
    return p - (char *)text;
}

static void merges(void)
{
    printf("\nfold of 3,072 gates over 12 free bits: the worst of 16 circuits, in milliseconds\n");
    for (int kind = 0; kind < 2; kind++) {
        double worst = 0;
        for (int c = 1; c <= 16; c++) {
            int kept;
            seed = c;
            load(text, kind ? products(3072) : random_gates(12, 0, 3072));
            double time = fold(0, 0, &kept);
            if (time > worst) worst = time;
        }
        printf("%-24s %10.1f\n", kind ? "products of literals" : "random gates", worst * 1e3);
    }
}

/* The example triggers, at the frame of the answer: gates of the unrolled circuit, with those of the conjunction of the bad line and
   the constraints of every frame, and of the folded one. */
static void triggers(int count, char **names)
{
    printf("\nexample triggers\n%-24s %4s %6s %10s %10s %8s %10s\n", "file", "b", "frame", "free bits", "unrolled", "folded", "ms");
    for (int i = 0; i < count; i++) {
        FILE *f = fopen(names[i], "r");
        if (!f) abort();
        size_t n = fread(text, 1, sizeof text - 1, f);
        fclose(f);
        text[n] = 0;
        unsigned b, k;
        unsigned long long d;
        int at, kept, inputs;
        if (sscanf((char *)text, "search %u %u %llu\n%n", &b, &k, &d, &at) != 3) abort();
        load(text + at, n - at);
        search(b, k, d);
        if (answer[YUNVEROK_KIND] == YUNVEROK_SPENT) abort();
        uint64_t t = answer[YUNVEROK_FRAME];
        double time = fold(b, t, &kept);
        sscanf((char *)out, "aag %*d %d", &inputs);
        char *name = strrchr(names[i], '/');
        printf("%-24s %4u %6llu %10d %10llu %8d %10.3f\n", name ? name + 1 : names[i], b, (unsigned long long)t, inputs, (unsigned long long)((t + 1) * (memory[4] + memory[6])), kept, time * 1e3);
    }
}

int main(int argc, char **argv)
{
    loads();
    replays();
    searches();
    folds();
    repeats();
    merges();
    triggers(argc - 1, argv + 1);
    return 0;
}
