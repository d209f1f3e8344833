/* limits K FILE...: the search by states in plain C, up to bound K, with other limits on its work than the library has: for each file the
   latches and those in the cone, the states met and the first slope of the limit with which it is answered; then for each slope how many of
   the files are answered, and the time of the others until they are given up. The limit is 40,000 and `slope` for each unit of size, of work
   as crates/reachable/specs/Quota.antt counts it. */
#include <stdint.h>
#include <stdio.h>
#include <stdlib.h>
#include <string.h>
#include <time.h>

enum { VARS = 4097, ROOM = 1 << 18 };
static unsigned M, I, L, O, A, B, C, U, kept, bad, in[256], lat[1024][3], con[64], gate[3072][3], cone[1024];
static uint8_t mark[VARS];
static uint64_t value[VARS], next[1024];
static uint32_t record[ROOM][2], head[4096];
static const uint64_t six[6] = {0xaaaaaaaaaaaaaaaa, 0xcccccccccccccccc, 0xf0f0f0f0f0f0f0f0, 0xff00ff00ff00ff00, 0xffff0000ffff0000, 0xffffffff00000000};

static double now(void)
{
    struct timespec t;
    clock_gettime(CLOCK_MONOTONIC, &t);
    return t.tv_sec * 1e3 + t.tv_nsec * 1e-6;
}
static uint64_t word(unsigned l) { return value[l / 2] ^ -(uint64_t)(l & 1); }

static void line(FILE *f, unsigned *to, int count)
{
    char text[256], *p = text;
    if (!fgets(text, sizeof text, f)) exit(2);
    for (int i = 0; i < count; i++) to[i] = strtoul(p, &p, 10);
}
static int load(const char *name)
{
    unsigned h[7], x[1];
    char text[256];
    FILE *f = fopen(name, "r");
    if (!f || !fgets(text, sizeof text, f) || strncmp(text, "aag ", 4)) return 0;
    memset(h, 0, sizeof h);
    char *p = text + 4;
    for (int i = 0; i < 7; i++) h[i] = strtoul(p, &p, 10);
    M = h[0], I = h[1], L = h[2], O = h[3], A = h[4], B = h[5], C = h[6], U = 0;
    if (M >= VARS || I > 256 || L > 1024 || A > 3072 || C > 64) return 0;
    for (unsigned i = 0; i < I; i++) line(f, in + i, 1);
    for (unsigned i = 0; i < L; i++) lat[i][2] = 0, line(f, lat[i], 3), U += lat[i][2] == lat[i][0];
    for (unsigned i = 0; i < O; i++) { line(f, x, 1); if (!i) bad = x[0]; }
    for (unsigned i = 0; i < B; i++) { line(f, x, 1); if (!i) bad = x[0]; }
    for (unsigned i = 0; i < C; i++) line(f, con + i, 1);
    for (unsigned i = 0; i < A; i++) line(f, gate[i], 3);
    fclose(f);
    memset(mark, 0, sizeof mark);
    mark[bad / 2] = 1;
    for (unsigned i = 0; i < C; i++) mark[con[i] / 2] = 1;
    for (int more = 1; more;) {
        more = 0;
        for (unsigned i = A; i-- > 0;) if (mark[gate[i][0] / 2])
            for (int j = 1; j < 3; j++) more |= !mark[gate[i][j] / 2], mark[gate[i][j] / 2] = 1;
        for (unsigned i = 0; i < L; i++) if (mark[lat[i][0] / 2]) more |= !mark[lat[i][1] / 2], mark[lat[i][1] / 2] = 1;
    }
    kept = 0;
    for (unsigned i = 0; i < L; i++) if (mark[lat[i][0] / 2]) cone[kept++] = i;
    return 1;
}
static uint64_t met;
static int meet(uint32_t s, uint64_t quota)
{
    unsigned h = (uint64_t)s * 2654435761u / 1048576 % 4096;
    for (uint32_t e = head[h]; e; e = record[e - 1][1]) if (record[e - 1][0] == s) return 1;
    if (met == quota) return 0;
    record[met][0] = s, record[met][1] = head[h], head[h] = ++met;
    return 1;
}
static uint64_t size(unsigned t) { return (uint64_t)(t + 1) * (I + A + C + 1) + U + 1; }
static uint64_t quota(unsigned t, uint64_t slope)
{
    uint64_t effort = (uint64_t)(A + L + 1) * (I < 6 ? 1 : 1u << (I - 6)) + (uint64_t)(kept + 8) * (1u << I), most = 4 * size(t), pays = (40000 + slope * size(t)) / effort;
    uint64_t q = pays < most ? pays : most;
    return q < ROOM ? q : ROOM;
}
/* -1: given up; else the answer */
static int search(unsigned k, uint64_t slope)
{
    if (I > 16 || kept > 32 || U > 16) return -1;
    memset(head, 0, sizeof head);
    met = 0;
    for (uint32_t y = 0; y < 1u << U; y++) {
        uint32_t s = 0, left = U, q = 0;
        for (unsigned j = 0; j < L; j++) {
            unsigned bit = lat[j][2] == lat[j][0] ? y >> --left & 1 : lat[j][2];
            if (mark[lat[j][0] / 2]) s |= bit << q++;
        }
        if (!meet(s, quota(0, slope))) return -1;
    }
    uint64_t lo = 0, hi = met;
    for (unsigned t = 0; t <= k; t++) {
        int lost = 0;
        for (uint64_t e = lo; e < hi; e++)
            for (uint32_t first = 0; first < 1u << I; first += 64) {
                uint64_t hits, left = I < 6 ? (1ull << (1 << I)) - 1 : ~0ull;
                value[0] = 0;
                for (unsigned q = 0; q < kept; q++) value[lat[cone[q]][0] / 2] = -(uint64_t)(record[e][0] >> q & 1);
                for (unsigned i = 0; i < I; i++) value[in[i] / 2] = I - 1 - i < 6 ? six[I - 1 - i] : -(uint64_t)(first >> (I - 1 - i) & 1);
                for (unsigned i = 0; i < A; i++) value[gate[i][0] / 2] = word(gate[i][1]) & word(gate[i][2]);
                for (unsigned i = 0; i < C; i++) left &= word(con[i]);
                hits = left & word(bad);
                if (hits) return t;
                if (lost) continue;
                for (unsigned i = 0; i < L; i++) next[i] = word(lat[i][1]);
                while (left && !lost) {
                    unsigned p = __builtin_ctzll(left);
                    uint64_t same = ~0ull;
                    uint32_t s = 0;
                    for (unsigned q = 0; q < kept; q++) {
                        uint64_t x = next[cone[q]], bit = x >> p & 1;
                        s |= bit << q, same &= bit ? x : ~x;
                    }
                    left &= ~same;
                    lost = !meet(s, quota(t, slope));
                }
            }
        if (lost) return -1;
        if (met == hi) return k;
        lo = hi, hi = met;
    }
    return k;
}
int main(int count, char **words)
{
    static const uint64_t slopes[] = {0, 16, 32, 64, 128, 256, 512, 1024, 4096};
    enum { SLOPES = sizeof slopes / sizeof *slopes };
    unsigned k = atoi(words[1]);
    int answered[SLOPES] = {0}, files = 0;
    double worst[SLOPES] = {0}, all[SLOPES] = {0};
    for (int i = 2; i < count; i++) {
        if (!load(words[i])) continue;
        files++;
        printf("%-40s inputs %u latches %u cone %u free %u gates %u:", words[i], I, L, kept, U, A);
        int first = 1;
        for (int j = 0; j < SLOPES; j++) {
            double best = 1e9;
            int r = 0;
            for (int n = 0; n < 3; n++) {
                double a = now();
                r = search(k, slopes[j]);
                double b = now();
                if (b - a < best) best = b - a;
            }
            all[j] += best;
            if (r >= 0) {
                answered[j]++;
                if (first) printf(" slope %llu, %llu states, %.3f ms", (unsigned long long)slopes[j], (unsigned long long)met, best), first = 0;
            } else if (best > worst[j]) worst[j] = best;
        }
        printf("%s\n", first ? " never" : "");
    }
    for (int j = 0; j < SLOPES; j++)
        printf("| %llu | %d of %d | %.3f | %.3f |\n", (unsigned long long)slopes[j], answered[j], files, all[j], worst[j]);
    return 0;
}
