// Plain engine for the arena and the span index, for the times of `mesh_arena` and `mesh_spans`.
//
//     g++ -O2 -std=c++17 -o reference reference.cpp && ./reference
//
// The arena has a bit for each free page, and a word that says which words of bits aren't 0. The index has such a set
// of the groups with a free slot, and for each span its occupied slots and the records of its objects.
//
// The output has a line `arena PAGES NANOSECONDS` for each arena, all of whose pages are taken: the nanoseconds of
// freeing a page and taking the lowest free one. It has a line `index FULL RETIRED OPEN PASS TOTALS` for each index:
// the numbers of full groups and of retired numbers before the open group, and the nanoseconds of finding a free slot,
// of this with an object made and freed there, and of these with a read of the counts. Times are the least of five
// runs. It needs GCC or Clang for C++17; tools/bench/arena.sh and tools/bench/index.sh compile and run it.
#include <algorithm>
#include <array>
#include <chrono>
#include <cstdint>
#include <cstdio>
#include <cstring>
#include <optional>
#include <utility>
#include <vector>

using Clock = std::chrono::steady_clock;

constexpr uint32_t page_bytes = 4096;
constexpr uint32_t rounds = 1'000'000;
constexpr int runs = 5;

/// A set of numbers below 65,536 that finds its least number by reading a few words.
class NumberSet {
  public:
    void add(uint32_t number) {
        words[number / 64] |= bit(number);
        summary[number / 4096] |= bit(number / 64);
    }

    void remove(uint32_t number) {
        words[number / 64] &= ~bit(number);
        if (words[number / 64] == 0) summary[number / 4096] &= ~bit(number / 64);
    }

    std::optional<uint32_t> least() const {
        for (uint32_t top = 0; top < summary.size(); top++) {
            if (summary[top] == 0) continue;
            uint32_t place = top * 64 + __builtin_ctzll(summary[top]);
            return place * 64 + __builtin_ctzll(words[place]);
        }
        return std::nullopt;
    }

  private:
    static uint64_t bit(uint32_t number) { return uint64_t(1) << (number % 64); }

    std::array<uint64_t, 1024> words{};
    std::array<uint64_t, 16> summary{};
};

/// Physical pages, each free or taken.
class Arena {
  public:
    explicit Arena(uint32_t pages) : bytes(size_t(pages) * page_bytes) {
        for (uint32_t page = 0; page < pages; page++) free.add(page);
    }

    /// Takes the lowest free page, and fills it with zeros.
    std::optional<uint32_t> take() {
        auto page = free.least();
        if (page) {
            free.remove(*page);
            std::memset(&bytes[size_t(*page) * page_bytes], 0, page_bytes);
        }
        return page;
    }

    void give(uint32_t page) { free.add(page); }

  private:
    NumberSet free;
    std::vector<uint8_t> bytes;
};

/// The object in a slot. The slot is free if the length is 0.
struct Record {
    uint32_t serial;
    uint32_t length;
};

/// A span of the class with two slots, in a group of its own.
struct Span {
    uint64_t occupied = 0;
    std::array<Record, 2> records{};
};

struct Totals {
    uint32_t objects = 0;
    uint32_t bytes = 0;
};

/// The spans of one class.
class Index {
  public:
    static constexpr uint32_t slots = 2;

    void add_span() {
        open.add(uint32_t(spans.size()));
        spans.emplace_back();
    }

    void retire(uint32_t group) { open.remove(group); }

    /// Finds the lowest group with a free slot, and the slot that the word picks.
    std::optional<std::pair<uint32_t, uint32_t>> open_slot(uint64_t word) const {
        auto group = open.least();
        if (!group) return std::nullopt;
        uint64_t free = ~spans[*group].occupied & ((uint64_t(1) << slots) - 1);
        for (uint64_t left = word % __builtin_popcountll(free); left > 0; left--) free &= free - 1;
        return std::pair(*group, uint32_t(__builtin_ctzll(free)));
    }

    void occupy(uint32_t group, uint32_t slot, Record record) {
        Span &span = spans[group];
        span.occupied |= uint64_t(1) << slot;
        span.records[slot] = record;
        totals.objects++;
        totals.bytes += record.length;
        if (__builtin_popcountll(span.occupied) == slots) open.remove(group);
    }

    std::optional<Record> record(uint32_t group, uint32_t slot) const {
        const Record &record = spans[group].records[slot];
        return record.length == 0 ? std::nullopt : std::optional(record);
    }

    void vacate(uint32_t group, uint32_t slot) {
        Span &span = spans[group];
        span.occupied &= ~(uint64_t(1) << slot);
        totals.objects--;
        totals.bytes -= span.records[slot].length;
        span.records[slot].length = 0;
        open.add(group);
    }

    Totals totals;

  private:
    NumberSet open;
    std::vector<Span> spans;
};

/// A value that the compiler must compute.
static volatile uint32_t sink;

/// The least nanoseconds of a round, over five runs of `rounds` rounds.
template <typename Round> static double nanoseconds(Round round) {
    double least = 1e18;
    for (int run = 0; run < runs; run++) {
        auto start = Clock::now();
        for (uint32_t word = 0; word < rounds; word++) round(word);
        std::chrono::duration<double, std::nano> used = Clock::now() - start;
        least = std::min(least, used.count() / rounds);
    }
    return least;
}

static void show_arena(uint32_t pages) {
    Arena arena(pages);
    uint32_t page = 0;
    for (uint32_t taken = 0; taken < pages; taken++) page = *arena.take();
    double used = nanoseconds([&](uint32_t) {
        arena.give(page);
        page = *arena.take();
    });
    std::printf("arena %u %.0f\n", pages, used);
}

__attribute__((noinline)) static void find(const Index &index, uint32_t word) {
    if (auto found = index.open_slot(word)) sink = found->second;
}

__attribute__((noinline)) static void pass(Index &index, uint32_t word) {
    if (auto found = index.open_slot(word)) {
        auto [group, slot] = *found;
        index.occupy(group, slot, Record{word, 1});
        if (index.record(group, slot)) index.vacate(group, slot);
    }
}

static void show_index(uint32_t full, uint32_t retired) {
    Index index;
    for (uint32_t group = 0; group < retired; group++) index.add_span();
    for (uint32_t group = 0; group < retired; group++) index.retire(group);
    for (uint32_t group = 0; group < full; group++) {
        index.add_span();
        for (uint32_t slot = 0; slot < Index::slots; slot++) {
            auto found = index.open_slot(0);
            index.occupy(found->first, found->second, Record{slot, 1});
        }
    }
    index.add_span();
    double found = nanoseconds([&](uint32_t word) { find(index, word); });
    double passed = nanoseconds([&](uint32_t word) { pass(index, word); });
    double counted = nanoseconds([&](uint32_t word) {
        pass(index, word);
        sink = index.totals.objects + index.totals.bytes;
    });
    std::printf("index %u %u %.0f %.0f %.0f\n", full, retired, found, passed, counted);
}

int main() {
    show_arena(16);
    show_arena(4096);
    show_index(40, 0);
    show_index(4000, 0);
    show_index(0, 20000);
    show_index(4000, 20000);
}
