/* Filters a small sheet of Levels by a recipe, and shows a refusal. */
#include "evaluator.h"

#include <stdint.h>
#include <stdio.h>
#include <string.h>

enum { VERTICES = 5, EDGES = 4, WIDTH = 2 };

/* A path: the edges 0-1, 1-2, 2-3, 3-4. */
static const uint8_t graph[EDGES * 8] = {
    0, 0, 0, 0, 1, 0, 0, 0,
    1, 0, 0, 0, 2, 0, 0, 0,
    2, 0, 0, 0, 3, 0, 0, 0,
    3, 0, 0, 0, 4, 0, 0, 0,
};

/* The Levels 5 2 7 7 1. */
static const uint8_t vertices[VERTICES * WIDTH] = {5, 0, 2, 0, 7, 0, 7, 0, 1, 0};

static void print_levels(const uint8_t *records, size_t count) {
    for (size_t i = 0; i < count; i++)
        printf("%s%d", i == 0 ? "" : " ", records[WIDTH * i] + 256 * records[WIDTH * i + 1]);
    printf("\n");
}

/* Runs the recipe on the path, with no edge records, and prints the weights or why there are none. */
static void run(const char *recipe) {
    uint8_t vertices_out[VERTICES * WIDTH], edges_out[EDGES * WIDTH];
    struct evaluator_refusal refusal;
    uint32_t status = evaluator_filter(EVALUATOR_LEVEL, VERTICES, graph, sizeof graph, vertices, sizeof vertices,
                                       NULL, 0, true, (const uint8_t *)recipe, strlen(recipe),
                                       vertices_out, sizeof vertices_out, edges_out, sizeof edges_out, &refusal);
    printf("%s\n", recipe);
    switch (status) {
    case EVALUATOR_ACCEPTED:
        print_levels(vertices_out, VERTICES);
        print_levels(edges_out, EDGES);
        break;
    case EVALUATOR_REFUSED:
        printf("refused: rule %d, place %d, part %d\n", (int)refusal.number, (int)refusal.place, (int)refusal.part);
        break;
    default:
        printf("status %d\n", (int)status);
    }
}

int main(void) {
    run("A1");
    run("D1 H E1 M");
    run("O3 4 C2");
    return 0;
}
