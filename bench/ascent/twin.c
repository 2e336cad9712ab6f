/* The same ascent without proofs, to compare with: `twin FILE TIMES` reads an instance, sorts its lanes, makes
   the ascent from zeros as often, and prints the sum of the duals, the lanes that one ascent visits, and the
   nanoseconds that one takes. */
#include <stdint.h>
#include <stdio.h>
#include <stdlib.h>
#include <string.h>
#include <time.h>

typedef __int128 wide;
typedef struct { uint64_t cost; uint32_t site; } lane;

static int sites, customers;
static lane *lanes;
static wide *values, *slacks;
static uint64_t *fixed;
static int *blockers;
static long visited;

static uint64_t amount(FILE *f) {
    double x;
    if (fscanf(f, "%lf", &x) != 1) exit(1);
    return (uint64_t)(x * 1000000 + 0.5);
}

static int before(const void *a, const void *b) {
    const lane *x = a, *y = b;
    if (x->cost != y->cost) return x->cost < y->cost ? -1 : 1;
    return x->site < y->site ? -1 : x->site > y->site;
}

static void start(void) {
    for (int i = 0; i < sites; i++) slacks[i] = fixed[i];
    for (int j = 0; j < customers; j++) {
        values[j] = lanes[(size_t)j * sites].cost;
        blockers[j] = -1;
        visited++;
    }
    for (int j = 0; j < customers; j++)
        for (int k = 0; k < sites; k++) {
            lane l = lanes[(size_t)j * sites + k];
            visited++;
            if (values[j] <= (wide)l.cost) break;
            slacks[l.site] -= values[j] - (wide)l.cost;
        }
}

static int turn(int j) {
    if (blockers[j] >= 0 && slacks[blockers[j]] <= 0) return 0;
    const lane *mine = lanes + (size_t)j * sites;
    wide v = values[j], rise = -1;
    int k = 0;
    for (; k < sites; k++) {
        visited++;
        wide above = (wide)mine[k].cost - v;
        if (rise >= 0 && above >= rise) break;
        if (above > 0) { rise = rise < 0 || above < rise ? above : rise; continue; }
        wide slack = slacks[mine[k].site];
        if (slack <= 0) { blockers[j] = mine[k].site; return 0; }
        rise = rise < 0 || slack < rise ? slack : rise;
    }
    if (rise < 0) return 0;
    for (k = 0; k < sites; k++) {
        visited++;
        if ((wide)mine[k].cost > v) break;
        slacks[mine[k].site] -= rise;
    }
    values[j] = v + rise;
    return 1;
}

static void ascend(void) {
    start();
    for (int risen = 1; risen;) {
        risen = 0;
        for (int j = 0; j < customers; j++) risen |= turn(j);
    }
}

int main(int argc, char **argv) {
    FILE *f = fopen(argv[1], "r");
    int times = atoi(argv[2]), zero;
    if (fscanf(f, "%d %d %d", &sites, &customers, &zero) != 3) return 1;
    lanes = malloc(sizeof(lane) * sites * customers);
    values = malloc(sizeof(wide) * customers);
    slacks = malloc(sizeof(wide) * sites);
    fixed = malloc(sizeof(uint64_t) * sites);
    blockers = malloc(sizeof(int) * customers);
    for (int i = 0; i < sites; i++) {
        if (fscanf(f, "%d", &zero) != 1) return 1;
        fixed[i] = amount(f);
        for (int j = 0; j < customers; j++) {
            lane *l = lanes + (size_t)j * sites + i;
            l->cost = amount(f);
            l->site = i;
        }
    }
    for (int j = 0; j < customers; j++) qsort(lanes + (size_t)j * sites, sites, sizeof(lane), before);
    struct timespec a, b;
    clock_gettime(CLOCK_MONOTONIC, &a);
    for (int t = 0; t < times; t++) ascend();
    clock_gettime(CLOCK_MONOTONIC, &b);
    double each = ((b.tv_sec - a.tv_sec) * 1e9 + (b.tv_nsec - a.tv_nsec)) / times;
    uint64_t sum = 0;
    for (int j = 0; j < customers; j++) sum += (uint64_t)values[j];
    printf("%llu %ld %.0f\n", (unsigned long long)sum, visited / times, each);
    return 0;
}
