/* How long loading a plan takes: plans of 16 carriers and their times, as multiples of the first.
   Every row is judged in the same run, many times over; only the ratios mean something. */
#include <stdio.h>
#include <time.h>

#include "viqondes.h"

enum { CARRIERS = 16, STEPS = 32, WIDTH = 64 };

struct plan {
    const char *name;
    int steps;                     /* entries of each carrier */
    int cells[CARRIERS][STEPS];
};

/* Carriers that go along rows of their own and never cross. */
static void apart(struct plan *p, int from)
{
    for (int i = from; i < CARRIERS; i++)
        for (int t = 0; t < p->steps; t++)
            p->cells[i][t] = i * WIDTH + t;
}

/* The first `n` carriers, two and two, come into one cell in turn. */
static void pairs(struct plan *p, int n)
{
    static const int first[4] = { 1, 0, 0, 0 }, second[4] = { 2, 2, 1, 2 };

    for (int i = 0; i < n; i += 2)
        for (int t = 0; t < p->steps; t++) {
            p->cells[i][t] = i * WIDTH + first[t % 4];
            p->cells[i + 1][t] = i * WIDTH + second[t % 4];
        }
    apart(p, n);
}

/* The first `n` carriers go along one row, one behind another. */
static void train(struct plan *p, int n)
{
    for (int i = 0; i < n; i++)
        for (int t = 0; t < p->steps; t++)
            p->cells[i][t] = 2 * (n - 1 - i) + t;
    apart(p, n);
}

static size_t write_record(const struct plan *p, uint8_t *out)
{
    const int entries = CARRIERS * p->steps, header[4] = { WIDTH, CARRIERS, CARRIERS, entries };
    size_t len = 0;

    for (int i = 0; i < 4; i++) {
        out[len++] = (uint8_t)(header[i] & 255);
        out[len++] = (uint8_t)(header[i] >> 8);
    }
    for (int i = 0; i < CARRIERS; i++)
        for (int t = 0; t < p->steps; t++)
            out[len++] = (uint8_t)i;
    for (int i = 0; i < CARRIERS; i++)
        for (int t = 0; t < p->steps; t++) {
            out[len++] = (uint8_t)(p->cells[i][t] & 255);
            out[len++] = (uint8_t)(p->cells[i][t] >> 8);
        }
    return len;
}

static int is_visit(const struct plan *p, int i, int t)
{
    return t == 0 || p->cells[i][t] != p->cells[i][t - 1];
}

static void count(const struct plan *p, int *visits, int *crossings)
{
    *visits = *crossings = 0;
    for (int i = 0; i < CARRIERS; i++)
        for (int t = 0; t < p->steps; t++) {
            if (!is_visit(p, i, t))
                continue;
            ++*visits;
            for (int j = i + 1; j < CARRIERS; j++)
                for (int s = 0; s < p->steps; s++)
                    *crossings += is_visit(p, j, s) && p->cells[j][s] == p->cells[i][t];
        }
}

/* Seconds for one call, over enough calls to take a tenth of a second or more. */
static double seconds(const uint8_t *bytes, size_t len)
{
    for (int calls = 1;; calls *= 2) {
        const clock_t begun = clock();
        for (int k = 0; k < calls; k++)
            if (viqondes_plan_fault(bytes, len) != 0)
                return -1;
        const double taken = (double)(clock() - begun) / CLOCKS_PER_SEC;
        if (taken >= 0.1)
            return taken / calls;
    }
}

int main(void)
{
    static struct plan plans[] = {
        { .name = "apart", .steps = STEPS },      { .name = "apart", .steps = STEPS / 2 },
        { .name = "2 in turn", .steps = STEPS },  { .name = "16 in turn", .steps = STEPS },
        { .name = "train of 2", .steps = STEPS }, { .name = "train of 8", .steps = STEPS / 2 },
        { .name = "train of 8", .steps = STEPS },
    };
    static uint8_t record[8 + 3 * CARRIERS * STEPS];
    double unit = 0;

    apart(&plans[0], 0);
    apart(&plans[1], 0);
    pairs(&plans[2], 2);
    pairs(&plans[3], CARRIERS);
    train(&plans[4], 2);
    train(&plans[5], 8);
    train(&plans[6], 8);
    printf("%-11s %7s %6s %9s %7s\n", "plan", "entries", "visits", "crossings", "time");
    for (size_t i = 0; i < sizeof plans / sizeof *plans; i++) {
        int visits, crossings;
        const double taken = seconds(record, write_record(&plans[i], record));
        count(&plans[i], &visits, &crossings);
        if (i == 0)
            unit = taken;
        printf("%-11s %7d %6d %9d %7.2f\n", plans[i].name, CARRIERS * plans[i].steps, visits, crossings, taken / unit);
    }
    printf("a unit was %.2f ms\n", 1000 * unit);
    return 0;
}
