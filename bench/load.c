/*
 * load.c: how full the table gets. Many herds of scattered animal numbers fill empty tables by sets of absent animals, up
 * to the first refusal: 6 (no room within four moves) or 5 (no vacant place). It tells the load, which is held animals in
 * 4N slots, at the first refusal 6, and the visits and moves of the sets before it. The same seed gives the same tables.
 * Use: load [--row] [seed [file]]. With --row a herd's numbers follow each other from a scattered one on, as ear tags do.
 * The file, for draw.py, gets a line for every number of held animals.
 */
#include "herd.h"

#include <inttypes.h>
#include <stdio.h>
#include <stdlib.h>
#include <string.h>

enum { SHAPES = 4, MOST_HERDS = 10000, STEPS = 20 /* of 5 % load */ };
static const struct { size_t n, herds; } shapes[SHAPES] = {{64, MOST_HERDS}, {256, 5000}, {1024, 2000}, {2048, 1000}};

/* The sets that found so many animals held, and the herds that met refusal 6 there. */
typedef struct {
    uint64_t sets, visits, moves, moved, refused;
    size_t most_visits, most_moves;
} Stretch;

static Stretch stretches[SHAPES][M + 1]; /* by the number of animals held */
static size_t first_refusals[SHAPES][MOST_HERDS], refused[SHAPES];
static uint32_t slots[4 * 2048], counters[V];
static uint64_t items[4 * M];
static int in_row;

static size_t less(size_t a, size_t b) { return a < b ? a : b; }
static size_t places(size_t shape) { return less(4 * shapes[shape].n, M); }
static double percent(size_t animals, size_t shape) { return 100.0 * (double)animals / (double)(4 * shapes[shape].n); }

static void fill_one(size_t shape) {
    size_t n = shapes[shape].n, v = less(n, V), m = places(shape);
    boughladder_fresh(slots, 4 * n, counters, v, items, 4 * m);
    uint64_t animal = any();
    for (size_t animals = 0;; animals++, animal = in_row ? animal + 1 : any()) {
        Stretch *s = &stretches[shape][animals];
        BoughladderSetting set = boughladder_set(slots, 4 * n, counters, v, items, 4 * m, animal, 1, NOW, NOW);
        if (set.refusal == BOUGHLADDER_NO_PLACE) return;
        if (set.refusal == BOUGHLADDER_NO_ROOM) {
            first_refusals[shape][refused[shape]++] = animals;
            s->refused++;
            return;
        }
        if (set.refusal != 0 || set.visits == 0) {
            printf("a set of an absent animal: refusal %" PRIu32 ", %zu visits\n", set.refusal, set.visits);
            exit(1);
        }
        s->sets++;
        s->visits += set.visits;
        s->moves += set.moves;
        s->moved += set.moves != 0;
        if (set.visits > s->most_visits) s->most_visits = set.visits;
        if (set.moves > s->most_moves) s->most_moves = set.moves;
    }
}

static int by_size(const void *a, const void *b) {
    size_t x = *(const size_t *)a, y = *(const size_t *)b;
    return (x > y) - (x < y);
}

/* The load that the herd of this rank had at its refusal 6, the earliest first; those that met none come last. */
static void print_rank(size_t shape, size_t rank) {
    if (rank < refused[shape]) printf(" %.1f %% |", percent(first_refusals[shape][rank], shape));
    else printf(" none |");
}

static void print_first_refusals(void) {
    puts("Load at the first refusal 6, the mean over the herds that met it. N 2048 has 8192 slots but, as every table, at most");
    puts("4096 places: they run out (refusal 5) at 50 % load.\n");
    puts("| N | Places | Load with all places taken | Herds | Met no refusal 6 | Mean | Least | 1 % of herds | 50 % of herds "
         "| Most |");
    puts("|---|---|---|---|---|---|---|---|---|---|");
    for (size_t shape = 0; shape < SHAPES; shape++) {
        size_t herds = shapes[shape].herds, met = refused[shape];
        double sum = 0;
        for (size_t i = 0; i < met; i++) sum += percent(first_refusals[shape][i], shape);
        qsort(first_refusals[shape], met, sizeof first_refusals[shape][0], by_size);
        printf("| %zu | %zu | %.0f %% | %zu | %zu |", shapes[shape].n, places(shape), percent(places(shape), shape), herds,
               herds - met);
        if (met > 0) printf(" %.1f %% |", sum / (double)met);
        else printf(" none |");
        print_rank(shape, 0);
        print_rank(shape, herds / 100);
        print_rank(shape, herds / 2);
        print_rank(shape, met > 0 ? met - 1 : 0);
        puts("");
    }
}

static void print_steps(size_t shape) {
    printf("\nN %zu: the sets that were not refused, by the load that they found\n\n", shapes[shape].n);
    puts("| Load | Sets | Visits, mean | Visits, most | Moves, mean | Moves, most | Moved anything |");
    puts("|---|---|---|---|---|---|---|");
    for (size_t step = 0, animals = 0; step < STEPS && animals < places(shape); step++) {
        Stretch row = {0, 0, 0, 0, 0, 0, 0};
        for (; STEPS * animals < (step + 1) * 4 * shapes[shape].n; animals++) {
            const Stretch *s = &stretches[shape][animals];
            row.sets += s->sets;
            row.visits += s->visits;
            row.moves += s->moves;
            row.moved += s->moved;
            if (s->most_visits > row.most_visits) row.most_visits = s->most_visits;
            if (s->most_moves > row.most_moves) row.most_moves = s->most_moves;
        }
        double sets = (double)row.sets;
        printf("| %zu to %zu %% | %" PRIu64 " | %.2f | %zu | %.3f | %zu | %.2f %% |\n", 100 * step / STEPS,
               100 * (step + 1) / STEPS, row.sets, (double)row.visits / sets, row.most_visits, (double)row.moves / sets,
               row.most_moves, 100.0 * (double)row.moved / sets);
    }
}

static void write_lines(FILE *file) {
    fputs("buckets,herds,animals,refused,sets,visits,moves\n", file);
    for (size_t shape = 0; shape < SHAPES; shape++)
        for (size_t animals = 0; animals <= places(shape); animals++) {
            const Stretch *s = &stretches[shape][animals];
            fprintf(file, "%zu,%zu,%zu,%" PRIu64 ",%" PRIu64 ",%" PRIu64 ",%" PRIu64 "\n", shapes[shape].n, shapes[shape].herds,
                    animals, s->refused, s->sets, s->visits, s->moves);
        }
}

int main(int argc, char **argv) {
    in_row = argc > 1 && strcmp(argv[1], "--row") == 0;
    argc -= in_row, argv += in_row;
    state = argc > 1 ? strtoull(argv[1], NULL, 10) : 1;
    for (size_t shape = 0; shape < SHAPES; shape++)
        for (size_t i = 0; i < shapes[shape].herds; i++) fill_one(shape);
    print_first_refusals();
    for (size_t shape = 0; shape < SHAPES; shape++) print_steps(shape);
    if (argc > 2) {
        FILE *file = fopen(argv[2], "w");
        if (file != NULL) write_lines(file);
        if (file == NULL || fclose(file) != 0) {
            perror(argv[2]);
            return 1;
        }
    }
    return 0;
}
