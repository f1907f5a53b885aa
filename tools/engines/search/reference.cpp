// Plain engine for the split search, for the time of `mesh_search`: the same rounds over the same number of candidates.
//
//     g++ -O2 -std=c++17 -o reference reference.cpp && ./reference
//
// There are 4,096 candidates of 256 slots, in each of which about one slot in 2 or in 64 is occupied. The candidates
// are shuffled by random words and split into two lists. In round i, try j takes element j of the first list and
// element (j + i) mod n of the second. A pair with no common occupied slot leaves both lists at the round's end.
//
// Each line of the output has how many slots there are for an occupied one, the rounds, the pairs found, and the
// microseconds of a shuffle and of a search. Times are the least of five times 40 calls. It needs a C++17 compiler;
// tools/bench/search.sh compiles and runs it.
#include <algorithm>
#include <array>
#include <chrono>
#include <cstdint>
#include <cstdio>
#include <numeric>
#include <random>
#include <vector>

using Slots = std::array<uint64_t, 4>;
using Clock = std::chrono::steady_clock;

constexpr uint32_t candidates = 4096;
constexpr int calls = 40;

static bool are_meshable(const Slots &one, const Slots &other) {
    return ((one[0] & other[0]) | (one[1] & other[1]) | (one[2] & other[2]) | (one[3] & other[3])) == 0;
}

static std::vector<Slots> occupied_slots(std::mt19937_64 &random, unsigned of) {
    std::vector<Slots> all(candidates, Slots{});
    for (auto &slots : all) {
        unsigned kept = random() % 256;
        for (unsigned k = 0; k < 256; k++)
            if (k == kept || random() % of == 0) slots[k / 64] |= uint64_t(1) << (k % 64);
    }
    return all;
}

// The numbers below `candidates` in an order that the words pick.
static std::vector<uint32_t> shuffled(const std::vector<uint64_t> &words) {
    std::vector<uint32_t> order(candidates);
    std::iota(order.begin(), order.end(), 0);
    for (uint32_t k = 0; k < candidates; k++) std::swap(order[k], order[k + words[k] % (candidates - k)]);
    return order;
}

// The number of pairs that a search finds.
static size_t search(const std::vector<Slots> &all, const std::vector<uint64_t> &words, unsigned rounds) {
    auto order = shuffled(words);
    std::vector<uint32_t> left(order.begin(), order.begin() + candidates / 2);
    std::vector<uint32_t> right(order.begin() + candidates / 2, order.end());
    std::vector<char> is_paired(candidates, 0);
    std::vector<std::pair<uint32_t, uint32_t>> pairs;
    auto paired = [&](uint32_t candidate) { return is_paired[candidate] != 0; };
    for (unsigned round = 0; round < rounds && !left.empty(); round++) {
        size_t before = pairs.size();
        for (size_t j = 0; j < left.size(); j++) {
            uint32_t one = left[j], other = right[(j + round) % right.size()];
            if (!are_meshable(all[one], all[other])) continue;
            pairs.emplace_back(one, other);
            is_paired[one] = is_paired[other] = 1;
        }
        if (pairs.size() == before) continue;
        left.erase(std::remove_if(left.begin(), left.end(), paired), left.end());
        right.erase(std::remove_if(right.begin(), right.end(), paired), right.end());
    }
    return pairs.size();
}

// The least microseconds of a call, over five times `calls` calls.
template <typename Call> static double least(Call call) {
    double best = 1e30;
    for (int turn = 0; turn < 5; turn++) {
        auto start = Clock::now();
        for (int k = 0; k < calls; k++) call();
        std::chrono::duration<double, std::micro> took = Clock::now() - start;
        best = std::min(best, took.count() / calls);
    }
    return best;
}

int main() {
    std::mt19937_64 random(1);
    std::vector<uint64_t> words(candidates);
    for (auto &word : words) word = random();
    for (unsigned of : {2u, 64u}) {
        auto all = occupied_slots(random, of);
        for (unsigned rounds : {1u, 8u, 64u}) {
            size_t found = 0;
            double shuffle = least([&] { found += shuffled(words)[0]; });
            double whole = least([&] { found = search(all, words, rounds); });
            std::printf("%u %u %zu %.0f %.0f\n", of, rounds, found, shuffle, whole);
        }
    }
}
