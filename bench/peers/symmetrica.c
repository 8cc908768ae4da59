/* Symmetrica: the whole table of each degree by chartafel, the best of some runs; then single characters of
   degrees 8, 12, 14 and 16 by charvalue, on average over all pairs and at worst, and character degrees by
   dimension_partition, on average over all shapes. Nanoseconds. */
#include <symmetrica/def.h>
#include <symmetrica/macro.h>
#include <time.h>

static double now(void) {
    struct timespec t;
    clock_gettime(CLOCK_MONOTONIC, &t);
    return t.tv_sec * 1e9 + t.tv_nsec;
}

static void tables(void) {
    int degrees[] = {10, 12, 14, 16};
    for (int k = 0; k < 4; k++) {
        double best = 1e18;
        for (int run = 0; run < 7; run++) {
            OP degree = callocobject(), table = callocobject();
            M_I_I(degrees[k], degree);
            double begun = now();
            chartafel(degree, table);
            double took = now() - begun;
            if (took < best) best = took;
            freeall(degree);
            freeall(table);
        }
        printf("table %d %.0f\n", degrees[k], best);
    }
}

/* The average is the best of some rounds over all pairs; the worst that of the pair whose best time is longest. */
static void singles(int n, int rounds) {
    OP degree = callocobject(), parts = callocobject(), value = callocobject();
    M_I_I(n, degree);
    makevectorofpart(degree, parts);
    int count = S_V_LI(parts);
    double best = 1e18, worst = 0;
    for (int round = 0; round < rounds; round++) {
        double begun = now();
        for (int i = 0; i < count; i++)
            for (int j = 0; j < count; j++)
                charvalue(S_V_I(parts, i), S_V_I(parts, j), value, NULL);
        double took = now() - begun;
        if (took < best) best = took;
    }
    for (int i = 0; i < count; i++)
        for (int j = 0; j < count; j++) {
            double least = 1e18;
            for (int run = 0; run < 5; run++) {
                double begun = now();
                charvalue(S_V_I(parts, i), S_V_I(parts, j), value, NULL);
                double took = now() - begun;
                if (took < least) least = took;
            }
            if (least > worst) worst = least;
        }
    printf("single %d %.0f %.0f\n", n, best / count / count, worst);
    freeall(degree);
    freeall(parts);
    freeall(value);
}

static void degrees(int n) {
    OP degree = callocobject(), parts = callocobject(), value = callocobject();
    M_I_I(n, degree);
    makevectorofpart(degree, parts);
    int count = S_V_LI(parts);
    double best = 1e18;
    for (int round = 0; round < 200; round++) {
        double begun = now();
        for (int i = 0; i < count; i++) dimension_partition(S_V_I(parts, i), value);
        double took = now() - begun;
        if (took < best) best = took;
    }
    printf("degrees %d %.1f\n", n, best / count);
    freeall(degree);
    freeall(parts);
    freeall(value);
}

int main(void) {
    anfang();
    tables();
    singles(8, 200);
    singles(12, 20);
    singles(14, 5);
    singles(16, 3);
    degrees(8);
    degrees(12);
    degrees(14);
    degrees(16);
    ende();
    return 0;
}
