// Opening, filtering and closing a sheet as plain C++ passes, to compare times and results with.
//
//   g++ -O3 -std=c++17 -o twin twin.cpp
//   ./twin grid W H TASK REPEAT
//   ./twin random N M SEED TASK REPEAT
//   ./twin check
//
// TASK is "open", "close", or a LETTER (D, E, O, C or A) and a SIZE (1 to 200). "open" judges the lengths, decodes the vertex records and
// gives each edge the smaller weight of its ends; "close" encodes all weights. The task is done REPEAT times, each time from the starting
// weights, which are put back outside the measured time. One line is printed: "best B ms, median M ms, checksum X". The median of an even
// number of runs is the later of the two middle ones. "check" does the tasks on a path of five vertices whose results are known, and
// prints "ok".
//
// Weights are Levels: unsigned 16-bit numbers. A record is two bytes, the low one first.
//
// The generator
//   One step of a state x is x = x * 6364136223846793005 + 1442695040888963407, modulo 2^64.
//
// Starting weights
//   x = 1. For each vertex in order: one step, then the weight is x >> 48.
//   Each edge weight is the smaller of the weights of its two ends.
//
// The grid
//   n = W * H. For v = 0, 1, .., n - 1 in order: the edge (v, v + 1) unless v is the last of its row (v % W = W - 1), and then the edge
//   (v, v + W) unless v is in the last row (v / W = H - 1). So m = H * (W - 1) + W * (H - 1), and the edges are sorted.
//
// The random graph
//   x = SEED, and the list of edges is empty. While the list has fewer than M edges:
//     as long as the list has fewer than M edges: one step, a = (x >> 32) % N; one step, b = (x >> 32) % N; if a and b differ, append the
//     edge (the smaller, the larger); then sort the list by first end, then second, and leave out the repeated edges.
//   M must be at most a quarter of N * (N - 1), so that this ends soon.
//
// The checksum
//   64-bit FNV-1a (h = 14695981039346656037; for each byte: h = (h xor byte) * 1099511628211) over the records of the vertices in order and
//   then of the edges in order; printed as 16 hexadecimal digits.

#include <algorithm>
#include <chrono>
#include <cstdint>
#include <cstdio>
#include <cstdlib>
#include <cstring>
#include <initializer_list>
#include <vector>

using Level = std::uint16_t;
using Levels = std::vector<Level>;
using Byte = std::uint8_t;
using Bytes = std::vector<Byte>;

struct Edge {
    std::uint32_t first;
    std::uint32_t second;

    bool operator<(const Edge &other) const {
        return first < other.first || (first == other.first && second < other.second);
    }
    bool operator==(const Edge &other) const { return first == other.first && second == other.second; }
};

struct Graph {
    std::size_t n = 0;
    std::vector<Edge> edges;
};

struct Weights {
    Levels vertices;
    Levels edges;
};

struct Records {
    Bytes vertices;
    Bytes edges;
};

struct Join {
    static constexpr Level neutral = 0;
    static Level of(Level a, Level b) { return a < b ? b : a; }
};

struct Meet {
    static constexpr Level neutral = 65535;
    static Level of(Level a, Level b) { return b < a ? b : a; }
};

// The four passes.

template <class S> void to_edges(const Graph &g, const Level *vertices, Level *out) {
    const std::size_t m = g.edges.size();
    const Edge *edges = g.edges.data();
    for (std::size_t i = 0; i < m; ++i) {
        out[i] = S::of(vertices[edges[i].first], vertices[edges[i].second]);
    }
}

template <class S> void to_vertices(const Graph &g, const Level *weights, Level *out) {
    const std::size_t m = g.edges.size();
    const Edge *edges = g.edges.data();
    std::fill(out, out + g.n, S::neutral);
    for (std::size_t i = 0; i < m; ++i) {
        const Level w = weights[i];
        Level &first = out[edges[i].first];
        first = S::of(first, w);
        Level &second = out[edges[i].second];
        second = S::of(second, w);
    }
}

// One round: vertices by side A to the edges and by side B back; edges by side A to the vertices and by side B back.
template <class A, class B> void round_of(const Graph &g, Weights &w, Weights &scratch) {
    to_edges<A>(g, w.vertices.data(), scratch.edges.data());
    to_vertices<B>(g, scratch.edges.data(), w.vertices.data());
    to_vertices<A>(g, w.edges.data(), scratch.vertices.data());
    to_edges<B>(g, scratch.vertices.data(), w.edges.data());
}

void dilate(const Graph &g, int rounds, Weights &w, Weights &scratch) {
    for (int i = 0; i < rounds; ++i) round_of<Join, Join>(g, w, scratch);
}

void erode(const Graph &g, int rounds, Weights &w, Weights &scratch) {
    for (int i = 0; i < rounds; ++i) round_of<Meet, Meet>(g, w, scratch);
}

void open(const Graph &g, int size, Weights &w, Weights &scratch) {
    erode(g, size / 2, w, scratch);
    if (size % 2 == 1) round_of<Meet, Join>(g, w, scratch);
    dilate(g, size / 2, w, scratch);
}

void close(const Graph &g, int size, Weights &w, Weights &scratch) {
    dilate(g, size / 2, w, scratch);
    if (size % 2 == 1) round_of<Join, Meet>(g, w, scratch);
    erode(g, size / 2, w, scratch);
}

void alternate(const Graph &g, int size, Weights &w, Weights &scratch) {
    for (int i = 1; i <= size; ++i) {
        close(g, i, w, scratch);
        open(g, i, w, scratch);
    }
}

void filter(const Graph &g, char letter, int size, Weights &w, Weights &scratch) {
    switch (letter) {
    case 'D': dilate(g, size, w, scratch); break;
    case 'E': erode(g, size, w, scratch); break;
    case 'O': open(g, size, w, scratch); break;
    case 'C': close(g, size, w, scratch); break;
    case 'A': alternate(g, size, w, scratch); break;
    }
}

// Records.

void decode(const Byte *records, std::size_t count, Level *out) {
    for (std::size_t i = 0; i < count; ++i) out[i] = Level(records[2 * i] | records[2 * i + 1] << 8);
}

void encode(const Level *weights, std::size_t count, Byte *out) {
    for (std::size_t i = 0; i < count; ++i) {
        out[2 * i] = Byte(weights[i] & 255);
        out[2 * i + 1] = Byte(weights[i] >> 8);
    }
}

bool fits(const Graph &g, const Weights &w) { return w.vertices.size() == g.n && w.edges.size() == g.edges.size(); }

// The weights from vertex records, each edge having the smaller weight of its ends. No where a length is wrong.
bool open_sheet(const Graph &g, const Bytes &vertex_records, Weights &w) {
    if (!fits(g, w) || vertex_records.size() != 2 * g.n) return false;
    decode(vertex_records.data(), g.n, w.vertices.data());
    to_edges<Meet>(g, w.vertices.data(), w.edges.data());
    return true;
}

// The records of the weights. No where a length is wrong.
bool close_sheet(const Graph &g, const Weights &w, Records &records) {
    const std::size_t m = g.edges.size();
    if (!fits(g, w) || records.vertices.size() != 2 * g.n || records.edges.size() != 2 * m) return false;
    encode(w.vertices.data(), g.n, records.vertices.data());
    encode(w.edges.data(), m, records.edges.data());
    return true;
}

// Graphs and weights.

void step(std::uint64_t &x) { x = x * 6364136223846793005u + 1442695040888963407u; }

Graph grid(std::uint32_t width, std::uint32_t height) {
    Graph g;
    g.n = std::size_t(width) * height;
    for (std::uint32_t v = 0; v < g.n; ++v) {
        if (v % width + 1 < width) g.edges.push_back({v, v + 1});
        if (v / width + 1 < height) g.edges.push_back({v, v + width});
    }
    return g;
}

Graph random_graph(std::uint32_t n, std::size_t m, std::uint64_t seed) {
    Graph g;
    g.n = n;
    std::uint64_t x = seed;
    while (g.edges.size() < m) {
        while (g.edges.size() < m) {
            step(x);
            const std::uint32_t a = (x >> 32) % n;
            step(x);
            const std::uint32_t b = (x >> 32) % n;
            if (a != b) g.edges.push_back({std::min(a, b), std::max(a, b)});
        }
        std::sort(g.edges.begin(), g.edges.end());
        g.edges.erase(std::unique(g.edges.begin(), g.edges.end()), g.edges.end());
    }
    return g;
}

// The weights with these vertices, each edge having the smaller weight of its ends.
Weights induced(const Graph &g, Levels vertices) {
    Weights w{std::move(vertices), Levels(g.edges.size())};
    to_edges<Meet>(g, w.vertices.data(), w.edges.data());
    return w;
}

Weights starting_weights(const Graph &g) {
    Levels vertices(g.n);
    std::uint64_t x = 1;
    for (Level &w : vertices) {
        step(x);
        w = Level(x >> 48);
    }
    return induced(g, std::move(vertices));
}

std::uint64_t checksum(const Records &records) {
    std::uint64_t h = 14695981039346656037u;
    for (const Bytes *part : {&records.vertices, &records.edges}) {
        for (Byte byte : *part) h = (h ^ byte) * 1099511628211u;
    }
    return h;
}

// The records of weights, byte by byte.
Records records_of(const Weights &w) {
    Records records;
    for (Level level : w.vertices) records.vertices.insert(records.vertices.end(), {Byte(level & 255), Byte(level >> 8)});
    for (Level level : w.edges) records.edges.insert(records.edges.end(), {Byte(level & 255), Byte(level >> 8)});
    return records;
}

// Measuring.

struct Task {
    enum Call { Open, Step, Close } call;
    char letter;
    int size;
};

// The buffers of all runs.
struct Bench {
    const Graph &g;
    const Weights start;
    const Records start_records;
    Weights weights;
    Weights scratch;
    Records records;

    explicit Bench(const Graph &graph)
        : g(graph), start(starting_weights(graph)), start_records(records_of(start)), weights(blank()), scratch(blank()), records(start_records) {}

    Weights blank() const { return {Levels(g.n), Levels(g.edges.size())}; }

    // What comes before a task and is not measured.
    bool prepare(const Task &task) {
        switch (task.call) {
        case Task::Open:
            std::fill(weights.vertices.begin(), weights.vertices.end(), Level(0));
            std::fill(weights.edges.begin(), weights.edges.end(), Level(0));
            return true;
        case Task::Step:
            std::copy(start.vertices.begin(), start.vertices.end(), weights.vertices.begin());
            std::copy(start.edges.begin(), start.edges.end(), weights.edges.begin());
            return true;
        default:
            std::fill(records.vertices.begin(), records.vertices.end(), Byte(0));
            std::fill(records.edges.begin(), records.edges.end(), Byte(0));
            return open_sheet(g, start_records.vertices, weights);
        }
    }

    bool perform(const Task &task) {
        switch (task.call) {
        case Task::Open: return open_sheet(g, start_records.vertices, weights);
        case Task::Step: filter(g, task.letter, task.size, weights, scratch); return true;
        default: return close_sheet(g, weights, records);
        }
    }

    // The checksum of what the task wrote.
    std::uint64_t written(const Task &task) const {
        return checksum(task.call == Task::Close ? records : records_of(weights));
    }
};

int measure(const Graph &g, const Task &task, int repeat) {
    Bench bench(g);
    std::vector<double> times;
    for (int i = 0; i < repeat; ++i) {
        const bool prepared = bench.prepare(task);
        const auto before = std::chrono::steady_clock::now();
        const bool done = bench.perform(task);
        const auto after = std::chrono::steady_clock::now();
        if (!prepared || !done) return 1;
        times.push_back(std::chrono::duration<double, std::milli>(after - before).count());
    }
    std::sort(times.begin(), times.end());
    std::printf("best %.4f ms, median %.4f ms, checksum %016llx\n", times.front(), times[times.size() / 2],
                static_cast<unsigned long long>(bench.written(task)));
    return 0;
}

bool check_ends(const Graph &path) {
    const Records known{{5, 0, 2, 0, 7, 0, 7, 0, 1, 0}, {2, 0, 2, 0, 7, 0, 1, 0}};
    Weights w{Levels(5), Levels(4)};
    Records records{Bytes(10), Bytes(8)};
    return open_sheet(path, known.vertices, w) && w.vertices == Levels{5, 2, 7, 7, 1} && w.edges == Levels{2, 2, 7, 1} &&
           close_sheet(path, w, records) && records.vertices == known.vertices && records.edges == known.edges;
}

int check() {
    struct Case {
        char letter;
        int size;
        Levels vertices;
        Levels edges;
    };
    const std::vector<Case> cases = {
        {'D', 1, {5, 7, 7, 7, 7}, {2, 7, 7, 7}}, {'E', 1, {2, 2, 2, 1, 1}, {2, 2, 1, 1}},
        {'O', 1, {2, 2, 7, 7, 1}, {2, 2, 2, 1}}, {'O', 2, {2, 2, 2, 2, 1}, {2, 2, 2, 1}},
        {'C', 1, {5, 5, 7, 7, 7}, {2, 2, 7, 1}}, {'C', 2, {5, 5, 7, 7, 7}, {2, 2, 7, 7}},
        {'A', 1, {5, 5, 7, 7, 7}, {2, 2, 2, 1}}, {'A', 2, {5, 5, 7, 7, 7}, {2, 2, 2, 2}},
    };
    const Graph path = grid(5, 1);
    for (const Case &c : cases) {
        Weights w = induced(path, {5, 2, 7, 7, 1});
        Weights scratch{Levels(5), Levels(4)};
        filter(path, c.letter, c.size, w, scratch);
        if (w.vertices != c.vertices || w.edges != c.edges) {
            std::printf("%c%d is wrong\n", c.letter, c.size);
            return 1;
        }
    }
    if (!check_ends(path)) {
        std::printf("open or close is wrong\n");
        return 1;
    }
    std::printf("ok\n");
    return 0;
}

int usage() {
    std::fprintf(stderr, "usage: twin grid W H TASK REPEAT\n"
                         "       twin random N M SEED TASK REPEAT\n"
                         "       twin check\n"
                         "TASK is open, close, or LETTER SIZE\n");
    return 2;
}

// Reads the words from TASK on: the task and REPEAT. No where they are none.
bool parse(int count, char **words, Task &task, int &repeat) {
    if (count != 2 && count != 3) return false;
    const char *word = words[0];
    repeat = std::atoi(words[count - 1]);
    task = {Task::Step, word[0], count == 3 ? std::atoi(words[1]) : 0};
    if (count == 3) {
        const bool known = std::strlen(word) == 1 && std::strchr("DEOCA", word[0]) != nullptr;
        return known && task.size >= 1 && task.size <= 200 && repeat >= 1;
    }
    task.call = std::strcmp(word, "open") == 0 ? Task::Open : Task::Close;
    return (task.call == Task::Open || std::strcmp(word, "close") == 0) && repeat >= 1;
}

int main(int argc, char **argv) {
    if (argc == 2 && std::strcmp(argv[1], "check") == 0) return check();
    const bool is_grid = argc >= 4 && std::strcmp(argv[1], "grid") == 0;
    const bool is_random = argc >= 5 && std::strcmp(argv[1], "random") == 0;
    if (!is_grid && !is_random) return usage();
    const int mesh_words = is_grid ? 4 : 5;
    Task task;
    int repeat;
    if (!parse(argc - mesh_words, argv + mesh_words, task, repeat)) return usage();
    const std::uint64_t a = std::strtoull(argv[2], nullptr, 10);
    const std::uint64_t b = std::strtoull(argv[3], nullptr, 10);
    if (is_grid) {
        if (a < 1 || b < 1 || a > 1000000 || b > 1000000 || a * b > 1000000) return usage();
        return measure(grid(std::uint32_t(a), std::uint32_t(b)), task, repeat);
    }
    if (a < 2 || a > 1000000 || b > 4000000 || b > a * (a - 1) / 4) return usage();
    return measure(random_graph(std::uint32_t(a), b, std::strtoull(argv[4], nullptr, 10)), task, repeat);
}
