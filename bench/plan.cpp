// Plans the batch of a text by a maximum matching between pages and open places: the rounds are found by
// bisection, and each number of rounds is tried once by the matching of a library, SuiteSparse's CXSparse, and
// once by Hopcroft and Karp's algorithm as it is written here. Prints the number of rounds and the least
// nanoseconds of all turns of each.
#include <algorithm>
#include <chrono>
#include <cstdint>
#include <cstdio>
#include <iostream>
#include <sstream>
#include <string>
#include <utility>
#include <vector>

#include <suitesparse/cs.h>

namespace {

struct Run {
    int die;
    int first;
    int last;
};

struct Batch {
    std::vector<std::vector<int>> holders;
    std::vector<Run> runs;
};

Batch read_batch(std::istream &input) {
    Batch batch;
    std::string line;
    while (std::getline(input, line)) {
        std::istringstream words(line);
        std::string word;
        words >> word;
        if (word == "page") {
            int page;
            words >> page >> word;
            batch.holders.emplace_back();
            for (int die; words >> die;) batch.holders.back().push_back(die);
        } else if (word == "closed") {
            Run run;
            words >> run.die >> run.first >> run.last;
            batch.runs.push_back(run);
        }
    }
    return batch;
}

bool is_open(const Batch &batch, int die, int round) {
    return std::none_of(batch.runs.begin(), batch.runs.end(), [&](const Run &run) {
        return run.die == die && run.first <= round && round <= run.last;
    });
}

// The open places of each page, one after the other, in so many rounds.
struct Graph {
    int pages = 0;
    int places = 0;
    std::vector<int> first;
    std::vector<int> place;
};

Graph graph_of(const Batch &batch, int rounds) {
    Graph graph;
    graph.pages = static_cast<int>(batch.holders.size());
    int dies = 0;
    for (const std::vector<int> &holders : batch.holders)
        for (int die : holders) dies = std::max(dies, die + 1);
    std::vector<std::vector<int>> at_die(dies);
    for (int die = 0; die < dies; die++)
        for (int round = 1; round <= rounds; round++)
            if (is_open(batch, die, round)) at_die[die].push_back(graph.places++);
    graph.first.push_back(0);
    for (const std::vector<int> &holders : batch.holders) {
        for (int die : holders) graph.place.insert(graph.place.end(), at_die[die].begin(), at_die[die].end());
        graph.first.push_back(static_cast<int>(graph.place.size()));
    }
    return graph;
}

// Whether the library matches each page with a place: a column with a row of a sparse matrix.
bool is_perfect_by_library(Graph &graph) {
    cs_di matrix{};
    matrix.nzmax = static_cast<int>(graph.place.size());
    matrix.m = graph.places;
    matrix.n = graph.pages;
    matrix.p = graph.first.data();
    matrix.i = graph.place.data();
    matrix.nz = -1;
    int *page_of = cs_di_maxtrans(&matrix, 0);
    const auto matched = std::count_if(page_of, page_of + graph.places, [](int page) { return page >= 0; });
    cs_di_free(page_of);
    return matched == graph.pages;
}

// Hopcroft and Karp's algorithm.
class Matching {
  public:
    explicit Matching(const Graph &graph)
        : graph_(graph), page_match_(graph.pages, -1), place_match_(graph.places, -1) {}

    bool is_perfect() {
        int matched = 0;
        while (layer()) {
            edge_.assign(graph_.first.begin(), graph_.first.end() - 1);
            for (int page = 0; page < graph_.pages; page++)
                if (page_match_[page] < 0 && augment(page)) matched++;
        }
        return matched == graph_.pages;
    }

  private:
    bool layer() {
        distance_.assign(graph_.pages, -1);
        std::vector<int> queue;
        for (int page = 0; page < graph_.pages; page++)
            if (page_match_[page] < 0) {
                distance_[page] = 0;
                queue.push_back(page);
            }
        bool found = false;
        for (std::size_t at = 0; at < queue.size(); at++) {
            const int page = queue[at];
            for (int edge = graph_.first[page]; edge < graph_.first[page + 1]; edge++) {
                const int other = place_match_[graph_.place[edge]];
                if (other < 0) {
                    found = true;
                } else if (distance_[other] < 0) {
                    distance_[other] = distance_[page] + 1;
                    queue.push_back(other);
                }
            }
        }
        return found;
    }

    bool augment(int page) {
        for (int &edge = edge_[page]; edge < graph_.first[page + 1]; edge++) {
            const int place = graph_.place[edge];
            const int other = place_match_[place];
            if (other < 0 || (distance_[other] == distance_[page] + 1 && augment(other))) {
                place_match_[place] = page;
                page_match_[page] = place;
                return true;
            }
        }
        return false;
    }

    const Graph &graph_;
    std::vector<int> page_match_, place_match_, distance_, edge_;
};

bool is_perfect_by_hopcroft_karp(Graph &graph) { return Matching(graph).is_perfect(); }

// Where there are fewer places than pages, no matching is tried.
template <typename Test> int least_rounds(const Batch &batch, Test is_perfect) {
    if (batch.holders.empty()) return 0;
    const auto is_enough = [&](int rounds) {
        Graph graph = graph_of(batch, rounds);
        return graph.pages <= graph.places && is_perfect(graph);
    };
    int fewer = 0;
    int enough = 1;
    while (!is_enough(enough)) {
        fewer = enough;
        enough *= 2;
    }
    while (enough - fewer > 1) {
        const int middle = fewer + (enough - fewer) / 2;
        (is_enough(middle) ? enough : fewer) = middle;
    }
    return enough;
}

// The least nanoseconds of all turns, and the number of rounds.
template <typename Test> std::pair<long long, int> time_of(const Batch &batch, Test is_perfect) {
    long long best = INT64_MAX;
    int rounds = 0;
    for (int turn = 0; turn < 20; turn++) {
        const auto start = std::chrono::steady_clock::now();
        rounds = least_rounds(batch, is_perfect);
        const auto end = std::chrono::steady_clock::now();
        best = std::min<long long>(best, std::chrono::nanoseconds(end - start).count());
    }
    return {best, rounds};
}

}  // namespace

int main() {
    const Batch batch = read_batch(std::cin);
    const auto library = time_of(batch, is_perfect_by_library);
    const auto written = time_of(batch, is_perfect_by_hopcroft_karp);
    if (library.second != written.second) {
        std::puts("the matchings differ");
        return 1;
    }
    std::printf("least %d\n", library.second);
    std::printf("library_nanoseconds %lld\n", library.first);
    std::printf("hopcroft_karp_nanoseconds %lld\n", written.first);
}
