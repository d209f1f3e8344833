/* incremental FILE k: bad line 0 of an ASCII AIGER file without constraints, frame after frame, with one incremental CaDiCaL over a plain
   unrolling: each frame adds three clauses for each gate, its bad line is assumed, and where that fails its complement is kept. Prints the
   answer and how long it took, in milliseconds. The file is trusted: it is one that yunverok has loaded. */
#include <ccadical.h>
#include <stdio.h>
#include <stdlib.h>
#include <time.h>

enum { VARIABLES = 4097 };
static unsigned inputs[VARIABLES], latches[VARIABLES], next[VARIABLES], reset[VARIABLES], gates[VARIABLES], left[VARIABLES], right[VARIABLES];
static int now_of[VARIABLES], then_of[VARIABLES]; /* the solver's variable of each circuit variable, in this frame and the next one */
static CCaDiCaL *solver;
static int used;

static double now(void)
{
    struct timespec t;
    clock_gettime(CLOCK_MONOTONIC, &t);
    return t.tv_sec * 1e3 + t.tv_nsec * 1e-6;
}

static int fresh(void) { return ++used; }
static int literal(unsigned l) { return l & 1 ? -now_of[l >> 1] : now_of[l >> 1]; }

static void clause(int a, int b, int c)
{
    ccadical_add(solver, a);
    if (b) ccadical_add(solver, b);
    if (c) ccadical_add(solver, c);
    ccadical_add(solver, 0);
}

int main(int count, char **words)
{
    FILE *f = count == 3 ? fopen(words[1], "r") : NULL;
    unsigned m, i, l, o, a, b = 0, c = 0, skipped, bad = 0;
    char line[128];
    if (!f || !fgets(line, sizeof line, f) || sscanf(line, "aag %u %u %u %u %u %u %u", &m, &i, &l, &o, &a, &b, &c) < 6 || !b || c) return 2;
    double start = now();
    for (unsigned j = 0; j < i; j++)
        if (!fgets(line, sizeof line, f) || sscanf(line, "%u", inputs + j) != 1) return 2;
    for (unsigned j = 0; j < l; j++)
        if (!fgets(line, sizeof line, f) || sscanf(line, "%u %u %u", latches + j, next + j, reset + j) < 2) return 2;
    for (unsigned j = 0; j < o + b; j++) {
        if (!fgets(line, sizeof line, f) || sscanf(line, "%u", &skipped) != 1) return 2;
        if (j == o) bad = skipped;
    }
    for (unsigned j = 0; j < a; j++)
        if (!fgets(line, sizeof line, f) || sscanf(line, "%u %u %u", gates + j, left + j, right + j) != 3) return 2;
    solver = ccadical_init();
    int k = atoi(words[2]), no = fresh();
    clause(-no, 0, 0);
    now_of[0] = no;
    for (unsigned j = 0; j < l; j++) {
        now_of[latches[j] >> 1] = reset[j] == 0 ? no : fresh();
        if (reset[j] == 1) clause(now_of[latches[j] >> 1], 0, 0);
    }
    for (int t = 0; t <= k; t++) {
        for (unsigned j = 0; j < i; j++) now_of[inputs[j] >> 1] = fresh();
        for (unsigned j = 0; j < a; j++) now_of[gates[j] >> 1] = fresh();
        for (unsigned j = 0; j < a; j++) {
            int g = literal(gates[j]), x = literal(left[j]), y = literal(right[j]);
            clause(-g, x, 0);
            clause(-g, y, 0);
            clause(g, -x, -y);
        }
        ccadical_assume(solver, literal(bad));
        if (ccadical_solve(solver) == 10) {
            printf("found %d\n%.4f\n", t, now() - start);
            return 0;
        }
        clause(-literal(bad), 0, 0);
        for (unsigned j = 0; j < l; j++) then_of[j] = literal(next[j]);
        for (unsigned j = 0; j < l; j++) now_of[latches[j] >> 1] = then_of[j];
    }
    printf("none %d\n%.4f\n", k, now() - start);
    return 0;
}
