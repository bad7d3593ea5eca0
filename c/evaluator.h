/* The graph sheet evaluator for C.
 *
 * docs/c-library.md says how to build and link the library, docs/refusals.md has every refusal.
 *
 * What holds for every call:
 *
 * - A buffer is a pointer and then its length in bytes. The pointer has to be good for that many bytes. A buffer of length 0
 *   may be NULL.
 * - refusal and words have to point to an object of their type. They are not buffers: NULL is not allowed.
 * - An output (vertices_out, edges_out, words, refusal) must overlap no other buffer of the same call. Inputs may overlap each
 *   other.
 * - A call reads no byte outside its inputs, writes no byte outside its outputs, keeps no pointer and gives back all memory that
 *   it takes. It uses no global state: calls on different outputs may run in different threads at once.
 * - Lengths and contents may be anything: what is wrong is refused. Nothing is changed then but *refusal.
 */
#ifndef EVALUATOR_H
#define EVALUATOR_H

#include <stdbool.h>
#include <stddef.h>
#include <stdint.h>

#ifdef __cplusplus
extern "C" {
#endif

/* What a call answers. */
enum evaluator_status {
    EVALUATOR_ACCEPTED = 0,
    EVALUATOR_REFUSED = 1,  /* an input or an output buffer is at fault: *refusal says why */
    EVALUATOR_NO_KIND = 2,  /* no kind has the number */
    EVALUATOR_NO_MEMORY = 3 /* malloc gave no memory; the inputs may be right or wrong */
};

/* The kinds of weight, with the width of a record. The low byte of a record comes first. */
enum evaluator_kind {
    EVALUATOR_PRESENCE = 0,          /* 1 byte: 0 or 1 */
    EVALUATOR_LEVEL = 1,             /* 2 bytes: 0 to 65535 */
    EVALUATOR_CLASSES = 2,           /* 4 bytes: bit k for class k */
    EVALUATOR_REVERSED_PRESENCE = 3, /* the same records, with the order turned */
    EVALUATOR_REVERSED_LEVEL = 4,
    EVALUATOR_REVERSED_CLASSES = 5
};

/* The part of the input that a refusal is about. */
enum evaluator_part {
    EVALUATOR_PART_GRAPH = 1,
    EVALUATOR_PART_SHEET = 2,
    EVALUATOR_PART_WORD = 3,
    EVALUATOR_PART_RECIPE = 4,
    EVALUATOR_PART_READING = 5 /* no call of this header answers it */
};

/* A refusal. Every call sets it; all three numbers are 0 unless the call answers EVALUATOR_REFUSED. */
struct evaluator_refusal {
    uint64_t number; /* the rule that was broken, as in docs/refusals.md */
    uint64_t place;  /* the record, edge or byte at fault, counted from 0; 0 where the rule names none */
    uint64_t part;   /* an evaluator_part */
};

/* Judges a graph file for n vertices: a record of 8 bytes for each edge, its two ends as 32-bit numbers, low byte first.
 *
 * Judged in this order: the length is a multiple of 8 (1), at most 1,000,000 vertices and 4,000,000 edges (2), and then record by
 * record: the first end is under the second (4), the second under n (5), the record above the one before it (6).
 *
 * It takes as much memory as the graph file has bytes. */
uint32_t evaluator_check_graph(size_t n, const uint8_t *graph, size_t graph_len, struct evaluator_refusal *refusal);

/* Reads a recipe text. Accepted, *words is the number of its words, 0 to 96; else *words stays as it was.
 *
 * The text is bytes: it ends by its length, and a NUL byte or a newline in it is a wrong word. Judged in this order: at most 4,096
 * bytes (12), then word by word: its shape (13), its size (11), at most 96 words (14), its turn (15); and then nothing is still
 * held at the end (16).
 *
 * It takes no memory, and never answers EVALUATOR_NO_MEMORY. */
uint32_t evaluator_read_recipe(const uint8_t *text, size_t text_len, size_t *words, struct evaluator_refusal *refusal);

/* Opens a sheet from a graph file and records, runs a recipe on it and closes it to records.
 *
 * vertices has a record for each of the n vertices, edges one for each edge in the order of the graph file. With edges_absent there
 * are no edge records, each edge gets the meet of the weights of its ends, and edges is not looked at: pass NULL and 0.
 * edges_absent = false with length 0 is right only for a graph without edges.
 *
 * vertices_out is to be n times the width of a record long, and edges_out as many times as the graph file has records; not longer.
 *
 * Judged in this order: the number of the kind (EVALUATOR_NO_KIND); the graph file, as evaluator_check_graph does; the lengths of
 * vertices and edges (8), each vertex record (9), each edge record (9, and 10 where its weight is not below those of its ends);
 * the recipe, as evaluator_read_recipe does; the lengths of vertices_out and edges_out (8).
 *
 * On EVALUATOR_ACCEPTED the outputs hold the records of the weights after the recipe; else no byte of them changes. */
uint32_t evaluator_filter(uint32_t kind, size_t n, const uint8_t *graph, size_t graph_len,
                          const uint8_t *vertices, size_t vertices_len,
                          const uint8_t *edges, size_t edges_len, bool edges_absent,
                          const uint8_t *recipe, size_t recipe_len,
                          uint8_t *vertices_out, size_t vertices_out_len,
                          uint8_t *edges_out, size_t edges_out_len,
                          struct evaluator_refusal *refusal);

#ifdef __cplusplus
}
#endif

#endif
