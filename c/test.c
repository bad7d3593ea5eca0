/* Drives the library from C: lengths and contents of every buffer, right and wrong, every refusal that the calls have, and results
 * beside a plain reading of the definitions.
 *
 * Every call is made three times: with each buffer in a heap block of exactly its length (NULL where that is 0), with each buffer
 * ending at a page that cannot be touched, and with each beginning after one. So a read or write outside a buffer ends the program,
 * also inside the library, which no sanitizer sees. Inputs in pages cannot be written. After each call every byte that was not to
 * change is compared. */
#define _GNU_SOURCE
#include "evaluator.h"

#include <inttypes.h>
#include <stdio.h>
#include <stdlib.h>
#include <string.h>
#include <sys/mman.h>

static unsigned long checks;

static void check_at(int line, bool ok, const char *what) {
    checks++;
    if (!ok) {
        printf("line %d: %s\n", line, what);
        exit(1);
    }
}
#define CHECK(ok) check_at(__LINE__, ok, #ok)

/* malloc gives no memory once this many blocks were given; below 0, always. The test is linked with --wrap=malloc. */
static long blocks_left = -1;
void *__real_malloc(size_t size);
void *__wrap_malloc(size_t size);

void *__wrap_malloc(size_t size) {
    if (blocks_left == 0)
        return NULL;
    blocks_left -= blocks_left > 0;
    return __real_malloc(size);
}

/* What blocks_left is during each call of the library. */
static long blocks = -1;

/* Bytes that are passed. */
struct bytes {
    const uint8_t *at;
    size_t len;
};
#define BYTES(...) ((struct bytes){(const uint8_t[]){__VA_ARGS__}, sizeof((const uint8_t[]){__VA_ARGS__})})
#define TEXT(text) ((struct bytes){(const uint8_t *)(text), strlen(text)})
#define NOTHING ((struct bytes){NULL, 0})

/* Where a buffer lies. */
enum placement { ON_HEAP, UNTIL_GUARD, AFTER_GUARD, PLACEMENTS };

enum { PAGE = 4096, ROOM = 4 * PAGE, UNTOUCHED = 0xA5 };

/* A buffer, with what is around it. */
struct buffer {
    uint8_t *room; /* ROOM bytes between two pages that cannot be touched */
    uint8_t *at;
    size_t len;
    enum placement placement;
};

enum slot { GRAPH, VERTICES, EDGES, RECIPE, VERTICES_OUT, EDGES_OUT, WORDS, REFUSAL, SLOTS };
static struct buffer buffers[SLOTS];

static void map_rooms(void) {
    for (int slot = 0; slot < SLOTS; slot++) {
        uint8_t *pages = mmap(NULL, ROOM + 2 * PAGE, PROT_NONE, MAP_PRIVATE | MAP_ANONYMOUS, -1, 0);
        CHECK(pages != MAP_FAILED);
        buffers[slot].room = pages + PAGE;
    }
}

/* Places a buffer of this length and fills it. */
static struct buffer *place(enum slot slot, size_t len, enum placement placement) {
    struct buffer *b = &buffers[slot];
    b->len = len;
    b->placement = len <= ROOM ? placement : ON_HEAP;
    if (b->placement == ON_HEAP) {
        b->at = len == 0 ? NULL : malloc(len);
        CHECK(len == 0 || b->at != NULL);
    } else {
        CHECK(mprotect(b->room, ROOM, PROT_READ | PROT_WRITE) == 0);
        memset(b->room, UNTOUCHED, ROOM);
        b->at = b->placement == UNTIL_GUARD ? b->room + ROOM - len : b->room;
    }
    if (len > 0)
        memset(b->at, UNTOUCHED, len);
    return b;
}

/* Places an input, which no call may write. */
static struct buffer *place_input(enum slot slot, struct bytes bytes, enum placement placement) {
    struct buffer *b = place(slot, bytes.len, placement);
    if (bytes.len > 0)
        memcpy(b->at, bytes.at, bytes.len);
    if (b->placement != ON_HEAP)
        CHECK(mprotect(b->room, ROOM, PROT_READ) == 0);
    return b;
}

static bool all_untouched(const uint8_t *at, size_t len) {
    for (size_t i = 0; i < len; i++)
        if (at[i] != UNTOUCHED)
            return false;
    return true;
}

/* Whether what is around the buffer is as it was; gives its memory back. */
static bool around_untouched(struct buffer *b) {
    bool ok = true;
    if (b->placement == ON_HEAP)
        free(b->at);
    else
        ok = all_untouched(b->room, (size_t)(b->at - b->room)) &&
             all_untouched(b->at + b->len, (size_t)(b->room + ROOM - (b->at + b->len)));
    b->at = NULL;
    return ok;
}

static bool holds(const struct buffer *b, struct bytes bytes) {
    return b->len == bytes.len && (b->len == 0 || memcmp(b->at, bytes.at, b->len) == 0);
}

/* What a call is to answer. */
struct answer {
    uint32_t status;
    struct evaluator_refusal refusal;
};
static const struct answer ACCEPTED = {EVALUATOR_ACCEPTED, {0, 0, 0}};
static const struct answer NO_KIND = {EVALUATOR_NO_KIND, {0, 0, 0}};
static const struct answer NO_MEMORY = {EVALUATOR_NO_MEMORY, {0, 0, 0}};

static struct answer refused(uint64_t number, uint64_t place, uint64_t part) {
    return (struct answer){EVALUATOR_REFUSED, {number, place, part}};
}

static bool same(struct answer a, struct answer b) {
    return a.status == b.status && a.refusal.number == b.refusal.number && a.refusal.place == b.refusal.place &&
           a.refusal.part == b.refusal.part;
}

static struct answer answer_of(uint32_t status, struct buffer *refusal) {
    struct answer a = {status, {0, 0, 0}};
    memcpy(&a.refusal, refusal->at, sizeof a.refusal);
    CHECK(around_untouched(refusal));
    return a;
}

/* Checks a graph file in each placement. */
static struct answer check_graph(size_t n, struct bytes graph) {
    struct answer first = ACCEPTED;
    for (enum placement p = ON_HEAP; p < PLACEMENTS; p++) {
        struct buffer *g = place_input(GRAPH, graph, p);
        struct buffer *r = place(REFUSAL, sizeof(struct evaluator_refusal), p);
        blocks_left = blocks;
        uint32_t status = evaluator_check_graph(n, g->at, g->len, (struct evaluator_refusal *)r->at);
        blocks_left = -1;
        struct answer a = answer_of(status, r);
        CHECK(holds(g, graph));
        CHECK(around_untouched(g));
        CHECK(p == ON_HEAP || same(a, first));
        first = a;
    }
    return first;
}

/* Reads a recipe in each placement; words is set where it is accepted, and else has to be as it was. */
static struct answer read_recipe(struct bytes text, size_t *words) {
    struct answer first = ACCEPTED;
    for (enum placement p = ON_HEAP; p < PLACEMENTS; p++) {
        struct buffer *t = place_input(RECIPE, text, p);
        struct buffer *w = place(WORDS, sizeof(size_t), p);
        struct buffer *r = place(REFUSAL, sizeof(struct evaluator_refusal), p);
        blocks_left = blocks;
        uint32_t status = evaluator_read_recipe(t->at, t->len, (size_t *)w->at, (struct evaluator_refusal *)r->at);
        blocks_left = -1;
        struct answer a = answer_of(status, r);
        CHECK(holds(t, text));
        CHECK(around_untouched(t));
        if (status == EVALUATOR_ACCEPTED)
            memcpy(words, w->at, sizeof *words);
        else
            CHECK(all_untouched(w->at, w->len));
        CHECK(around_untouched(w));
        CHECK(p == ON_HEAP || same(a, first));
        first = a;
    }
    return first;
}

/* What a filter call is given. */
struct job {
    uint32_t kind;
    size_t n;
    struct bytes graph, vertices, edges;
    bool edges_absent;
    struct bytes recipe;
    size_t vertices_out_len, edges_out_len;
};

enum { MOST_OUT = 1 << 20 };
static uint8_t vertices_out[MOST_OUT], edges_out[MOST_OUT];

/* Filters in each placement. The records go to vertices_out and edges_out; where the job is not accepted no byte may change. */
static struct answer filter(const struct job *job) {
    struct answer first = ACCEPTED;
    for (enum placement p = ON_HEAP; p < PLACEMENTS; p++) {
        struct buffer *g = place_input(GRAPH, job->graph, p);
        struct buffer *v = place_input(VERTICES, job->vertices, p);
        struct buffer *e = place_input(EDGES, job->edges, p);
        struct buffer *t = place_input(RECIPE, job->recipe, p);
        struct buffer *vo = place(VERTICES_OUT, job->vertices_out_len, p);
        struct buffer *eo = place(EDGES_OUT, job->edges_out_len, p);
        struct buffer *r = place(REFUSAL, sizeof(struct evaluator_refusal), p);
        blocks_left = blocks;
        uint32_t status = evaluator_filter(job->kind, job->n, g->at, g->len, v->at, v->len, e->at, e->len, job->edges_absent,
                                           t->at, t->len, vo->at, vo->len, eo->at, eo->len, (struct evaluator_refusal *)r->at);
        blocks_left = -1;
        struct answer a = answer_of(status, r);
        CHECK(holds(g, job->graph) && holds(v, job->vertices) && holds(e, job->edges) && holds(t, job->recipe));
        if (status == EVALUATOR_ACCEPTED) {
            CHECK(vo->len <= MOST_OUT && eo->len <= MOST_OUT);
            CHECK(p == ON_HEAP || holds(vo, (struct bytes){vertices_out, vo->len}));
            CHECK(p == ON_HEAP || holds(eo, (struct bytes){edges_out, eo->len}));
            if (vo->len > 0)
                memcpy(vertices_out, vo->at, vo->len);
            if (eo->len > 0)
                memcpy(edges_out, eo->at, eo->len);
        } else {
            CHECK(all_untouched(vo->at, vo->len));
            CHECK(all_untouched(eo->at, eo->len));
        }
        CHECK(around_untouched(g) && around_untouched(v) && around_untouched(e) && around_untouched(t));
        CHECK(around_untouched(vo));
        CHECK(around_untouched(eo));
        CHECK(p == ON_HEAP || same(a, first));
        first = a;
    }
    return first;
}

static void expect_filter_at(int line, struct job job, struct answer expected) {
    struct answer a = filter(&job);
    if (!same(a, expected))
        printf("answered %" PRIu32 ": %" PRIu64 " %" PRIu64 " %" PRIu64 "\n", a.status, a.refusal.number, a.refusal.place,
               a.refusal.part);
    check_at(line, same(a, expected), "the job is answered as expected");
}
#define EXPECT_FILTER(job, expected) expect_filter_at(__LINE__, job, expected)

/* ---- Graph files ---- */

/* A record of a graph file: its numbers' low bytes. */
#define EDGE(v, w) (v), 0, 0, 0, (w), 0, 0, 0

static void test_graphs(void) {
    CHECK(same(check_graph(0, NOTHING), ACCEPTED));
    CHECK(same(check_graph(5, NOTHING), ACCEPTED));
    CHECK(same(check_graph(1000000, NOTHING), ACCEPTED));
    CHECK(same(check_graph(2, BYTES(EDGE(0, 1))), ACCEPTED));
    CHECK(same(check_graph(3, BYTES(EDGE(0, 1), EDGE(0, 2), EDGE(1, 2))), ACCEPTED));

    /* 1: every length that is no multiple of 8 */
    const uint8_t zeros[64] = {0};
    for (size_t len = 0; len < sizeof zeros; len++)
        if (len % 8 != 0)
            CHECK(same(check_graph(3, (struct bytes){zeros, len}), refused(1, 0, EVALUATOR_PART_GRAPH)));
    CHECK(same(check_graph(1000001, BYTES(1, 2, 3)), refused(1, 0, EVALUATOR_PART_GRAPH)));
    /* 2 */
    CHECK(same(check_graph(1000001, NOTHING), refused(2, 0, EVALUATOR_PART_GRAPH)));
    CHECK(same(check_graph(SIZE_MAX, NOTHING), refused(2, 0, EVALUATOR_PART_GRAPH)));
    CHECK(same(check_graph(1000001, BYTES(EDGE(2, 2))), refused(2, 0, EVALUATOR_PART_GRAPH)));
    /* 4, 5, 6 and their places */
    CHECK(same(check_graph(3, BYTES(EDGE(0, 1), EDGE(2, 2))), refused(4, 1, EVALUATOR_PART_GRAPH)));
    CHECK(same(check_graph(3, BYTES(EDGE(2, 1))), refused(4, 0, EVALUATOR_PART_GRAPH)));
    CHECK(same(check_graph(0, BYTES(EDGE(0, 1))), refused(5, 0, EVALUATOR_PART_GRAPH)));
    CHECK(same(check_graph(3, BYTES(EDGE(1, 3))), refused(5, 0, EVALUATOR_PART_GRAPH)));
    CHECK(same(check_graph(3, BYTES(0, 0, 0, 0, 1, 0, 0, 1)), refused(5, 0, EVALUATOR_PART_GRAPH)));
    CHECK(same(check_graph(3, BYTES(EDGE(0, 2), EDGE(0, 1))), refused(6, 1, EVALUATOR_PART_GRAPH)));
    CHECK(same(check_graph(3, BYTES(EDGE(0, 1), EDGE(0, 1))), refused(6, 1, EVALUATOR_PART_GRAPH)));
    CHECK(same(check_graph(3, BYTES(EDGE(1, 3), EDGE(2, 2))), refused(5, 0, EVALUATOR_PART_GRAPH)));
}

/* The largest graph files: 4,000,000 records are judged, one more is too many. */
static void test_large_graphs(void) {
    size_t most = (size_t)4000000 * 8;
    uint8_t *zeros = calloc(most + 8, 1);
    CHECK(zeros != NULL);
    struct evaluator_refusal refusal;
    CHECK(evaluator_check_graph(10, zeros, most + 8, &refusal) == EVALUATOR_REFUSED);
    CHECK(refusal.number == 2 && refusal.place == 0 && refusal.part == EVALUATOR_PART_GRAPH);
    CHECK(evaluator_check_graph(10, zeros, most, &refusal) == EVALUATOR_REFUSED);
    CHECK(refusal.number == 4 && refusal.place == 0 && refusal.part == EVALUATOR_PART_GRAPH);
    CHECK(evaluator_check_graph(10, zeros, most + 4, &refusal) == EVALUATOR_REFUSED);
    CHECK(refusal.number == 1 && refusal.place == 0 && refusal.part == EVALUATOR_PART_GRAPH);
    free(zeros);
}

/* ---- Recipes ---- */

static void test_recipes(void) {
    static const struct {
        const char *text;
        size_t words;
    } right[] = {{"", 0}, {" ", 0}, {"A1", 1}, {"  D1  H E200 M ", 4}, {"H F H J", 4}, {"O200 C1", 2}};
    static const struct {
        const char *text;
        uint64_t number, place, part;
    } wrong[] = {
        {"D1 O201", 11, 3, EVALUATOR_PART_WORD},   {"O99999999999999999999999", 11, 0, EVALUATOR_PART_WORD},
        {"O3 4 C2", 13, 3, EVALUATOR_PART_WORD},   {"O", 13, 1, EVALUATOR_PART_WORD},
        {"O03", 13, 1, EVALUATOR_PART_WORD},       {"o3", 13, 0, EVALUATOR_PART_WORD},
        {"A1\n", 13, 2, EVALUATOR_PART_WORD},      {"D1\tE1", 13, 2, EVALUATOR_PART_WORD},
        {"J", 15, 0, EVALUATOR_PART_RECIPE},       {"H H", 15, 2, EVALUATOR_PART_RECIPE},
        {"H", 16, 1, EVALUATOR_PART_RECIPE},       {"D1 H E1", 16, 7, EVALUATOR_PART_RECIPE},
        {"H  ", 16, 3, EVALUATOR_PART_RECIPE},     {"\xff", 13, 0, EVALUATOR_PART_WORD},
    };
    size_t words;
    for (size_t i = 0; i < sizeof right / sizeof *right; i++) {
        words = 1000;
        CHECK(same(read_recipe(TEXT(right[i].text), &words), ACCEPTED));
        CHECK(words == right[i].words);
    }
    for (size_t i = 0; i < sizeof wrong / sizeof *wrong; i++)
        CHECK(same(read_recipe(TEXT(wrong[i].text), &words), refused(wrong[i].number, wrong[i].place, wrong[i].part)));
    /* a NUL byte does not end a text */
    CHECK(same(read_recipe(BYTES('A', '1', 0), &words), refused(13, 2, EVALUATOR_PART_WORD)));

    /* 12: by length alone */
    uint8_t text[5000];
    memset(text, ' ', sizeof text);
    CHECK(same(read_recipe((struct bytes){text, 4096}, &words), ACCEPTED));
    CHECK(words == 0);
    text[0] = 'X';
    CHECK(same(read_recipe((struct bytes){text, 4097}, &words), refused(12, 0, EVALUATOR_PART_RECIPE)));
    CHECK(same(read_recipe((struct bytes){text, 5000}, &words), refused(12, 0, EVALUATOR_PART_RECIPE)));
    CHECK(same(read_recipe((struct bytes){text, 4096}, &words), refused(13, 0, EVALUATOR_PART_WORD)));

    /* 14: the 97th word */
    size_t len = 0;
    for (int i = 0; i < 48; i++, len += 4)
        memcpy(text + len, "H F ", 4);
    CHECK(same(read_recipe((struct bytes){text, len}, &words), ACCEPTED));
    CHECK(words == 96);
    memcpy(text + len, "D1", 2);
    CHECK(same(read_recipe((struct bytes){text, len + 2}, &words), refused(14, 192, EVALUATOR_PART_RECIPE)));
    memcpy(text + len, "D0", 2);
    CHECK(same(read_recipe((struct bytes){text, len + 2}, &words), refused(13, 193, EVALUATOR_PART_WORD)));
}

/* ---- Jobs ---- */

/* A path of three vertices with Levels 5, 2, 7 and edges 2, 1. */
static struct job levels(void) {
    static const uint8_t graph[] = {EDGE(0, 1), EDGE(1, 2)}, vertices[] = {5, 0, 2, 0, 7, 0}, edges[] = {2, 0, 1, 0};
    return (struct job){
        .kind = EVALUATOR_LEVEL,
        .n = 3,
        .graph = {graph, sizeof graph},
        .vertices = {vertices, sizeof vertices},
        .edges = {edges, sizeof edges},
        .recipe = TEXT("A1"),
        .vertices_out_len = 6,
        .edges_out_len = 4,
    };
}

static void test_lengths(void) {
    static const uint8_t zeros[64] = {0};
    struct answer wrong_bytes = refused(8, 0, EVALUATOR_PART_SHEET);
    EXPECT_FILTER(levels(), ACCEPTED);
    for (size_t len = 0; len <= 16; len++) {
        struct job job = levels();
        job.vertices = (struct bytes){zeros, len};
        job.edges = (struct bytes){zeros, 4};
        EXPECT_FILTER(job, len == 6 ? ACCEPTED : wrong_bytes);

        job = levels();
        job.edges = (struct bytes){zeros, len};
        EXPECT_FILTER(job, len == 4 ? ACCEPTED : wrong_bytes);
        job.edges_absent = true; /* then their length is not looked at */
        EXPECT_FILTER(job, ACCEPTED);

        job = levels();
        job.vertices_out_len = len;
        EXPECT_FILTER(job, len == 6 ? ACCEPTED : wrong_bytes);

        job = levels();
        job.edges_out_len = len;
        EXPECT_FILTER(job, len == 4 ? ACCEPTED : wrong_bytes);

        job = levels();
        job.graph = (struct bytes){zeros, len};
        EXPECT_FILTER(job, len == 0 ? wrong_bytes : len % 8 == 0 ? refused(4, 0, EVALUATOR_PART_GRAPH) : refused(1, 0, EVALUATOR_PART_GRAPH));
    }
    struct job job = levels();
    job.vertices_out_len = 0;
    job.edges_out_len = 0;
    EXPECT_FILTER(job, wrong_bytes);
    job = levels();
    job.graph = job.vertices = job.edges = job.recipe = NOTHING;
    EXPECT_FILTER(job, wrong_bytes);
}

static void test_kind_numbers(void) {
    static const uint32_t none[] = {6, 7, 255, 256, 65536, 0x80000000u, UINT32_MAX};
    for (size_t i = 0; i < sizeof none / sizeof *none; i++) {
        struct job job = levels();
        job.kind = none[i];
        EXPECT_FILTER(job, NO_KIND);
        job.graph = BYTES(1);
        EXPECT_FILTER(job, NO_KIND);
        job.vertices_out_len = job.edges_out_len = 0;
        EXPECT_FILTER(job, NO_KIND);
    }
}

static void test_contents(void) {
    struct job job = levels();
    job.n = 1000001;
    EXPECT_FILTER(job, refused(2, 0, EVALUATOR_PART_GRAPH));
    job.n = SIZE_MAX;
    EXPECT_FILTER(job, refused(2, 0, EVALUATOR_PART_GRAPH));
    job = levels();
    job.n = 2;
    EXPECT_FILTER(job, refused(5, 1, EVALUATOR_PART_GRAPH));
    job = levels();
    job.graph = BYTES(EDGE(1, 2), EDGE(0, 1));
    EXPECT_FILTER(job, refused(6, 1, EVALUATOR_PART_GRAPH));
    job.graph = BYTES(EDGE(0, 1), EDGE(1, 1));
    EXPECT_FILTER(job, refused(4, 1, EVALUATOR_PART_GRAPH));

    /* 9 and 10, by Presence */
    struct job presence = {
        .kind = EVALUATOR_PRESENCE,
        .n = 3,
        .graph = BYTES(EDGE(0, 1), EDGE(1, 2)),
        .vertices = BYTES(1, 0, 1),
        .edges = BYTES(0, 0),
        .vertices_out_len = 3,
        .edges_out_len = 2,
    };
    for (int reversed = 0; reversed < 2; reversed++) {
        job = presence;
        job.kind = reversed ? EVALUATOR_REVERSED_PRESENCE : EVALUATOR_PRESENCE;
        job.edges = reversed ? BYTES(1, 1) : BYTES(0, 0);
        EXPECT_FILTER(job, ACCEPTED);
        job.vertices = BYTES(1, 2, 2);
        EXPECT_FILTER(job, refused(9, 1, EVALUATOR_PART_SHEET));
        job.vertices = BYTES(1, 0, 255);
        EXPECT_FILTER(job, refused(9, 2, EVALUATOR_PART_SHEET));
        job.vertices = BYTES(1, 0, 1);
        job.edges = reversed ? BYTES(1, 2) : BYTES(0, 2);
        EXPECT_FILTER(job, refused(9, 4, EVALUATOR_PART_SHEET));
        job.edges = reversed ? BYTES(0, 2) : BYTES(1, 2);
        EXPECT_FILTER(job, refused(10, 0, EVALUATOR_PART_SHEET));
        job.edges_absent = true;
        EXPECT_FILTER(job, ACCEPTED);
    }
    job = levels();
    job.edges = BYTES(2, 0, 3, 0);
    EXPECT_FILTER(job, refused(10, 1, EVALUATOR_PART_SHEET));
    job.edges = BYTES(0, 1, 1, 0); /* the high byte counts */
    EXPECT_FILTER(job, refused(10, 0, EVALUATOR_PART_SHEET));
    job.kind = EVALUATOR_REVERSED_LEVEL;
    job.edges = BYTES(5, 0, 6, 0);
    EXPECT_FILTER(job, refused(10, 1, EVALUATOR_PART_SHEET));

    /* recipes: 11 to 16 */
    static const struct {
        const char *text;
        uint64_t number, place, part;
    } wrong[] = {
        {"D1 O201", 11, 3, EVALUATOR_PART_WORD}, {"O3 4 C2", 13, 3, EVALUATOR_PART_WORD}, {"J", 15, 0, EVALUATOR_PART_RECIPE},
        {"H", 16, 1, EVALUATOR_PART_RECIPE},     {"A1 ?", 13, 3, EVALUATOR_PART_WORD},
    };
    for (size_t i = 0; i < sizeof wrong / sizeof *wrong; i++) {
        job = levels();
        job.recipe = TEXT(wrong[i].text);
        EXPECT_FILTER(job, refused(wrong[i].number, wrong[i].place, wrong[i].part));
    }
    static uint8_t text[4097];
    memset(text, ' ', sizeof text);
    job = levels();
    job.recipe = (struct bytes){text, 4096};
    EXPECT_FILTER(job, ACCEPTED);
    job.recipe = (struct bytes){text, 4097};
    EXPECT_FILTER(job, refused(12, 0, EVALUATOR_PART_RECIPE));
    for (size_t i = 0; i < 97; i++)
        memcpy(text + 3 * i, "D1 ", 3);
    job.recipe = (struct bytes){text, 3 * 96};
    EXPECT_FILTER(job, ACCEPTED);
    job.recipe = (struct bytes){text, 3 * 97};
    EXPECT_FILTER(job, refused(14, 288, EVALUATOR_PART_RECIPE));
}

/* Everything is wrong, and is put right step by step: the order of judging. */
static void test_order(void) {
    struct job job = {
        .kind = 6,
        .n = 2000000,
        .graph = BYTES(EDGE(0, 1), EDGE(1, 1), 7),
        .vertices = BYTES(1, 2),
        .edges = BYTES(2),
        .recipe = TEXT("H"),
    };
    EXPECT_FILTER(job, NO_KIND);
    job.kind = EVALUATOR_PRESENCE;
    EXPECT_FILTER(job, refused(1, 0, EVALUATOR_PART_GRAPH));
    job.graph = BYTES(EDGE(0, 1), EDGE(1, 1));
    EXPECT_FILTER(job, refused(2, 0, EVALUATOR_PART_GRAPH));
    job.n = 3;
    EXPECT_FILTER(job, refused(4, 1, EVALUATOR_PART_GRAPH));
    job.graph = BYTES(EDGE(0, 1), EDGE(1, 2));
    EXPECT_FILTER(job, refused(8, 0, EVALUATOR_PART_SHEET));
    job.vertices = BYTES(1, 1, 2);
    EXPECT_FILTER(job, refused(8, 0, EVALUATOR_PART_SHEET));
    job.edges = BYTES(1, 2);
    EXPECT_FILTER(job, refused(9, 2, EVALUATOR_PART_SHEET));
    job.vertices = BYTES(1, 1, 0);
    EXPECT_FILTER(job, refused(9, 4, EVALUATOR_PART_SHEET));
    job.edges = BYTES(1, 1);
    EXPECT_FILTER(job, refused(10, 1, EVALUATOR_PART_SHEET));
    job.edges = BYTES(1, 0);
    EXPECT_FILTER(job, refused(16, 1, EVALUATOR_PART_RECIPE));
    job.recipe = NOTHING;
    EXPECT_FILTER(job, refused(8, 0, EVALUATOR_PART_SHEET));
    job.vertices_out_len = 3;
    EXPECT_FILTER(job, refused(8, 0, EVALUATOR_PART_SHEET));
    job.edges_out_len = 2;
    EXPECT_FILTER(job, ACCEPTED);
    CHECK(memcmp(vertices_out, (uint8_t[]){1, 1, 0}, 3) == 0 && memcmp(edges_out, (uint8_t[]){1, 0}, 2) == 0);
}

/* No vertices, and vertices without edges. */
static void test_empty(void) {
    for (uint32_t kind = 0; kind < 6; kind++) {
        static const uint8_t zeros[12] = {0};
        size_t width = (size_t)1 << kind % 3;
        for (int absent = 0; absent < 2; absent++) {
            struct job job = {.kind = kind, .edges_absent = absent, .recipe = TEXT("D1 H A3 J")};
            EXPECT_FILTER(job, ACCEPTED);
            job.edges_out_len = 1;
            EXPECT_FILTER(job, refused(8, 0, EVALUATOR_PART_SHEET));

            job = (struct job){.kind = kind, .n = 3, .vertices = {zeros, 3 * width}, .edges_absent = absent, .vertices_out_len = 3 * width};
            EXPECT_FILTER(job, ACCEPTED);
            CHECK(memcmp(vertices_out, zeros, 3 * width) == 0);
            /* a vertex without edges gets the lowest value from a dilation and the highest from an erosion */
            uint8_t ones[12];
            memset(ones, 255, sizeof ones);
            if (width == 1)
                memset(ones, 1, sizeof ones);
            job.recipe = TEXT("D1");
            EXPECT_FILTER(job, ACCEPTED);
            CHECK(memcmp(vertices_out, kind < 3 ? zeros : ones, 3 * width) == 0);
            job.recipe = TEXT("E1");
            EXPECT_FILTER(job, ACCEPTED);
            CHECK(memcmp(vertices_out, kind < 3 ? ones : zeros, 3 * width) == 0);
        }
    }
}

/* Without memory nothing changes; a leak is seen by the sanitizer and by valgrind. */
static void test_no_memory(void) {
    struct job job = levels();
    struct answer a = NO_MEMORY;
    long needed = -1;
    while (same(a, NO_MEMORY)) {
        blocks = ++needed;
        CHECK(needed < 100);
        a = filter(&job);
    }
    CHECK(same(a, ACCEPTED));
    CHECK(needed > 0);
    blocks = 0;
    CHECK(same(check_graph(job.n, job.graph), NO_MEMORY));
    size_t words;
    CHECK(same(read_recipe(job.recipe, &words), ACCEPTED));
    job.kind = 6;
    EXPECT_FILTER(job, NO_KIND);
    blocks = -1;
}

/* As many vertices as a graph may have. */
static void test_most_vertices(void) {
    enum { MOST = 1000000 };
    uint8_t *vertices = malloc(MOST);
    CHECK(vertices != NULL);
    for (size_t i = 0; i < MOST; i++)
        vertices[i] = i % 3 == 0;
    struct job job = {
        .kind = EVALUATOR_PRESENCE, .n = MOST, .graph = BYTES(0, 0, 0, 0, 0x3f, 0x42, 0x0f, 0), .vertices = {vertices, MOST},
        .edges_absent = true, .recipe = TEXT("H D1 J"), .vertices_out_len = MOST, .edges_out_len = 1,
    };
    EXPECT_FILTER(job, ACCEPTED);
    CHECK(memcmp(vertices_out, vertices, MOST) == 0 && edges_out[0] == 1);
    job.graph = BYTES(0, 0, 0, 0, 0x40, 0x42, 0x0f, 0);
    EXPECT_FILTER(job, refused(5, 0, EVALUATOR_PART_GRAPH));
    vertices[MOST - 1] = 2;
    job.graph = NOTHING;
    EXPECT_FILTER(job, refused(9, MOST - 1, EVALUATOR_PART_SHEET));
    free(vertices);
}

/* ---- Results ---- */

/* The path sheet of docs/overview.md and what filters make of it. */
static void test_path_sheet(void) {
    static const struct {
        const char *recipe;
        uint8_t vertices[5], edges[4];
    } results[] = {
        {"", {5, 2, 7, 7, 1}, {2, 2, 7, 1}},          {"D1", {5, 7, 7, 7, 7}, {2, 7, 7, 7}},
        {"E1", {2, 2, 2, 1, 1}, {2, 2, 1, 1}},        {"O1", {2, 2, 7, 7, 1}, {2, 2, 2, 1}},
        {"O2", {2, 2, 2, 2, 1}, {2, 2, 2, 1}},        {"C1", {5, 5, 7, 7, 7}, {2, 2, 7, 1}},
        {"C2", {5, 5, 7, 7, 7}, {2, 2, 7, 7}},        {"A1", {5, 5, 7, 7, 7}, {2, 2, 2, 1}},
        {"A2", {5, 5, 7, 7, 7}, {2, 2, 2, 2}},        {"D1 H E1 M", {5, 5, 7, 7, 7}, {2, 2, 7, 7}},
    };
    for (size_t i = 0; i < sizeof results / sizeof *results; i++) {
        struct job job = {
            .kind = EVALUATOR_LEVEL, .n = 5, .graph = BYTES(EDGE(0, 1), EDGE(1, 2), EDGE(2, 3), EDGE(3, 4)),
            .vertices = BYTES(5, 0, 2, 0, 7, 0, 7, 0, 1, 0), .edges_absent = true, .recipe = TEXT(results[i].recipe),
            .vertices_out_len = 10, .edges_out_len = 8,
        };
        EXPECT_FILTER(job, ACCEPTED);
        for (size_t v = 0; v < 5; v++)
            CHECK(vertices_out[2 * v] == results[i].vertices[v] && vertices_out[2 * v + 1] == 0);
        for (size_t e = 0; e < 4; e++)
            CHECK(edges_out[2 * e] == results[i].edges[e] && edges_out[2 * e + 1] == 0);
    }
}

/* The definitions of docs/filters.md, read plainly, on small graphs. */
enum { MOST_VERTICES = 7, MOST_EDGES = 8 };

struct graph {
    size_t n, m;
    uint8_t first[MOST_EDGES], second[MOST_EDGES];
};
struct weights {
    uint32_t vertices[MOST_VERTICES], edges[MOST_EDGES];
};
struct lattice {
    uint32_t top;
    bool numbers, reversed;
};

/* Joins and meets of numbers are the larger and the smaller, of sets the union and what they share; reversed, the other way round. */
static uint32_t combine(const struct lattice *k, bool join, uint32_t x, uint32_t y) {
    bool up = join != k->reversed;
    if (k->numbers)
        return (x < y) == up ? y : x;
    return up ? x | y : x & y;
}

static void to_edges(const struct lattice *k, const struct graph *g, bool join, const uint32_t *vertices, uint32_t *edges) {
    for (size_t e = 0; e < g->m; e++)
        edges[e] = combine(k, join, vertices[g->first[e]], vertices[g->second[e]]);
}

static void to_vertices(const struct lattice *k, const struct graph *g, bool join, const uint32_t *edges, uint32_t *vertices) {
    for (size_t v = 0; v < g->n; v++) {
        vertices[v] = join != k->reversed ? 0 : k->top;
        for (size_t e = 0; e < g->m; e++)
            if (g->first[e] == v || g->second[e] == v)
                vertices[v] = combine(k, join, vertices[v], edges[e]);
    }
}

/* Two passes on the vertex weights and two on the edge weights. */
static void round_of(const struct lattice *k, const struct graph *g, bool first_join, bool then_join, struct weights *w) {
    uint32_t edges[MOST_EDGES], vertices[MOST_VERTICES];
    to_edges(k, g, first_join, w->vertices, edges);
    to_vertices(k, g, first_join, w->edges, vertices);
    to_vertices(k, g, then_join, edges, w->vertices);
    to_edges(k, g, then_join, vertices, w->edges);
}

static void apply(const struct lattice *k, const struct graph *g, char letter, int size, struct weights *w) {
    switch (letter) {
    case 'D':
    case 'E':
        for (int i = 0; i < size; i++)
            round_of(k, g, letter == 'D', letter == 'D', w);
        break;
    case 'O':
    case 'C':
        apply(k, g, letter == 'O' ? 'E' : 'D', size / 2, w);
        if (size % 2 == 1)
            round_of(k, g, letter == 'C', letter == 'O', w);
        apply(k, g, letter == 'O' ? 'D' : 'E', size / 2, w);
        break;
    case 'A':
        for (int i = 1; i <= size; i++) {
            apply(k, g, 'C', i, w);
            apply(k, g, 'O', i, w);
        }
    }
}

static uint32_t state = 12345;

static uint32_t below(uint32_t bound) {
    state ^= state << 13;
    state ^= state >> 17;
    state ^= state << 5;
    return state % bound;
}

static void put(uint8_t *records, size_t width, size_t i, uint32_t value) {
    for (size_t b = 0; b < width; b++)
        records[i * width + b] = (uint8_t)(value >> 8 * b);
}

static uint32_t get(const uint8_t *records, size_t width, size_t i) {
    uint32_t value = 0;
    for (size_t b = 0; b < width; b++)
        value |= (uint32_t)records[i * width + b] << 8 * b;
    return value;
}

/* One right job of random parts, and its result by the definitions. */
static void test_result(uint32_t kind) {
    static const uint32_t tops[] = {1, 65535, UINT32_MAX};
    struct lattice k = {tops[kind % 3], kind % 3 == 1, kind >= 3};
    size_t width = (size_t)1 << kind % 3;
    struct graph g = {.n = below(MOST_VERTICES + 1)};
    uint8_t graph[MOST_EDGES * 8] = {0}, vertices[MOST_VERTICES * 4], edges[MOST_EDGES * 4];
    for (uint32_t v = 0; v < g.n; v++)
        for (uint32_t w = v + 1; w < g.n; w++)
            if (g.m < MOST_EDGES && below(3) == 0) {
                put(graph, 4, 2 * g.m, v);
                put(graph, 4, 2 * g.m + 1, w);
                g.first[g.m] = (uint8_t)v;
                g.second[g.m++] = (uint8_t)w;
            }
    struct weights w = {0};
    for (size_t v = 0; v < g.n; v++)
        put(vertices, width, v, w.vertices[v] = below(2) ? below(9) & k.top : (below(UINT32_MAX) ^ below(2) << 31) & k.top);
    bool absent = below(2);
    to_edges(&k, &g, false, w.vertices, w.edges);
    for (size_t e = 0; e < g.m; e++) {
        if (!absent)
            w.edges[e] = combine(&k, false, w.edges[e], below(10) & k.top);
        put(edges, width, e, w.edges[e]);
    }

    char text[200] = "";
    struct weights held = {0};
    bool holding = false;
    size_t len = 0;
    for (uint32_t words = below(6); words > 0 || holding; words -= words > 0) {
        char letter = holding && (words == 0 || below(4) == 0) ? "JMF"[below(3)] : !holding && below(4) == 0 ? 'H' : "DEOCA"[below(5)];
        if (letter == 'H') {
            held = w;
            holding = true;
            len += (size_t)sprintf(text + len, "H ");
        } else if (strchr("JMF", letter)) {
            for (size_t i = 0; letter != 'F' && i < g.n; i++)
                w.vertices[i] = combine(&k, letter == 'J', w.vertices[i], held.vertices[i]);
            for (size_t i = 0; letter != 'F' && i < g.m; i++)
                w.edges[i] = combine(&k, letter == 'J', w.edges[i], held.edges[i]);
            holding = false;
            len += (size_t)sprintf(text + len, "%c ", letter);
        } else {
            int size = 1 + (int)below(5);
            apply(&k, &g, letter, size, &w);
            len += (size_t)sprintf(text + len, "%c%d ", letter, size);
        }
    }
    struct job job = {
        .kind = kind, .n = g.n, .graph = {graph, 8 * g.m}, .vertices = {vertices, width * g.n},
        .edges = {edges, absent ? below(4) : width * g.m}, .edges_absent = absent, .recipe = {(const uint8_t *)text, len},
        .vertices_out_len = width * g.n, .edges_out_len = width * g.m,
    };
    memset(edges, 0, absent ? sizeof edges : 0);
    EXPECT_FILTER(job, ACCEPTED);
    for (size_t v = 0; v < g.n; v++)
        CHECK(get(vertices_out, width, v) == w.vertices[v]);
    for (size_t e = 0; e < g.m; e++)
        CHECK(get(edges_out, width, e) == w.edges[e]);
}

/* Anything at all: it is answered, the same in each placement, and nothing changes unless it is accepted. */
static void test_anything(void) {
    uint8_t graph[40], vertices[16], edges[16], recipe[24];
    size_t m = below(3), width = (size_t)1 << below(3);
    for (size_t i = 0; i < sizeof graph; i++)
        graph[i] = (uint8_t)(i % 4 != 0 ? below(60) == 0 : i % 8 == 0 ? i / 8 : i / 8 + 1 + below(2));
    for (size_t i = 0; i < sizeof vertices; i++) {
        vertices[i] = (uint8_t)(below(12) == 0 ? below(256) : below(2));
        edges[i] = (uint8_t)(below(12) == 0 ? below(256) : 0);
    }
    for (size_t i = 0; i < sizeof recipe; i++)
        recipe[i] = below(30) == 0 ? (uint8_t)below(256) : (uint8_t)(i % 3 == 0 ? "DEOCAHJMF"[below(9)] : i % 3 == 1 ? " 123"[below(4)] : ' ');
    struct job job = {
        .kind = below(20) == 0 ? below(UINT32_MAX) : (uint32_t)(width == 4 ? 2 : width - 1) + 3 * below(2),
        .n = m + 2 + below(2),
        .graph = {graph, 8 * m + (below(12) == 0 ? below(9) : 0)},
        .edges_absent = below(2),
        .recipe = {recipe, below(sizeof recipe + 1)},
    };
    size_t n = job.n;
    job.vertices = (struct bytes){vertices, n * width <= 16 && below(9) != 0 ? n * width : below(17)};
    job.edges = (struct bytes){edges, below(9) != 0 ? m * width : below(17)};
    job.vertices_out_len = below(9) != 0 ? n * width : below(20);
    job.edges_out_len = below(9) != 0 ? m * width : below(20);
    struct answer a = filter(&job);
    CHECK(a.status <= EVALUATOR_NO_KIND);
    CHECK((a.status == EVALUATOR_REFUSED) == (a.refusal.number != 0 && a.refusal.part != 0));
    CHECK(a.refusal.number <= 16 && a.refusal.number != 3 && a.refusal.number != 7 && a.refusal.part <= 4);
    CHECK((a.status == EVALUATOR_NO_KIND) == (job.kind > 5));
    CHECK(a.status != EVALUATOR_ACCEPTED || (job.vertices_out_len == n * width && job.edges_out_len == job.graph.len / 8 * width));
    struct answer file = check_graph(job.n, job.graph);
    CHECK(job.kind > 5 || file.status == EVALUATOR_ACCEPTED || same(a, file));
    size_t words;
    struct answer text = read_recipe(job.recipe, &words);
    CHECK(a.status != EVALUATOR_ACCEPTED || (file.status == EVALUATOR_ACCEPTED && text.status == EVALUATOR_ACCEPTED));
    CHECK(a.refusal.number < 11 || same(a, text));
}

int main(int argc, char **argv) {
    int turns = argc > 1 ? atoi(argv[1]) : 3000;
    CHECK(sizeof(struct evaluator_refusal) == 24 && sizeof(bool) == 1 && sizeof(size_t) == 8);
    map_rooms();
    test_graphs();
    test_large_graphs();
    test_recipes();
    test_lengths();
    test_kind_numbers();
    test_contents();
    test_order();
    test_empty();
    test_no_memory();
    test_most_vertices();
    test_path_sheet();
    for (int i = 0; i < turns; i++) {
        test_result((uint32_t)i % 6);
        test_anything();
    }
    printf("%lu checks passed\n", checks);
    return 0;
}
