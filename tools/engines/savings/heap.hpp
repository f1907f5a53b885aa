// A heap without contents and with unlimited physical pages: size classes, groups, `new` and `free`, sweeps, the search
// for pairs, and whole meshes. docs/FORMAT.md has the rules.
#pragma once

#include <algorithm>
#include <array>
#include <cstddef>
#include <cstdint>
#include <vector>

// ---- Size classes

struct SizeClass {
    uint32_t size;   // bytes of a slot
    uint32_t pages;  // of a span
    uint32_t slots;  // of a span
};

constexpr std::array<SizeClass, 10> CLASSES = {{{16, 1, 256},
                                                {32, 1, 128},
                                                {64, 1, 64},
                                                {128, 1, 32},
                                                {256, 1, 16},
                                                {384, 3, 32},
                                                {512, 1, 8},
                                                {1024, 1, 4},
                                                {1536, 3, 8},
                                                {2048, 1, 2}}};
constexpr uint32_t LONGEST = 2048;          // bytes of an object
constexpr uint32_t MOST_ADDRESSES = 65535;  // virtual pages
constexpr uint32_t MOST_SPANS = 65535;      // each has a virtual page at least
constexpr uint32_t MOST_MEMBERS = 64;       // spans of a group, with the greatest limit

// The least class that fits an object of this length, by its place in CLASSES.
inline uint32_t class_of(uint32_t length) {
    static const auto places = [] {
        std::array<uint8_t, LONGEST / 16 + 1> table{};
        for (uint32_t i = 0, place = 0; i < table.size(); i++) {
            if (i * 16 > CLASSES[place].size) place++;
            table[i] = place;
        }
        return table;
    }();
    return places[(length + 15) / 16];
}

// ---- Words

// xoshiro256++ (Blackman and Vigna), its state expanded from a seed by SplitMix64. The words are those of the generator
// `Xoshiro256PlusPlus` of the Rust crate rand_xoshiro, seeded by `seed_from_u64`.
class Words {
public:
    explicit Words(uint64_t seed) {
        for (uint64_t &part : state) {
            uint64_t z = (seed += 0x9e3779b97f4a7c15);
            z = (z ^ (z >> 30)) * 0xbf58476d1ce4e5b9;
            z = (z ^ (z >> 27)) * 0x94d049bb133111eb;
            part = z ^ (z >> 31);
        }
    }

    uint64_t next() {
        const uint64_t word = rotated(state[0] + state[3], 23) + state[0];
        const uint64_t shifted = state[1] << 17;
        state[2] ^= state[0];
        state[3] ^= state[1];
        state[1] ^= state[2];
        state[0] ^= state[3];
        state[2] ^= shifted;
        state[3] = rotated(state[3], 45);
        return word;
    }

private:
    static uint64_t rotated(uint64_t word, int places) { return word << places | word >> (64 - places); }

    uint64_t state[4];
};

// ---- Sets of numbers, a bit for each

// The k-th number in the set, counted from 0.
inline uint32_t nth_bit(uint64_t set, uint32_t k) {
    for (; k > 0; k--) set &= set - 1;
    return __builtin_ctzll(set);
}

// The occupied slots of a group.
struct Occupancy {
    uint64_t words[4] = {};

    void insert(uint32_t slot) { words[slot / 64] |= uint64_t{1} << slot % 64; }
    void erase(uint32_t slot) { words[slot / 64] &= ~(uint64_t{1} << slot % 64); }

    void insert_all(const Occupancy &other) {
        for (int i = 0; i < 4; i++) words[i] |= other.words[i];
    }

    bool is_disjoint(const Occupancy &other) const {
        uint64_t common = 0;
        for (int i = 0; i < 4; i++) common |= words[i] & other.words[i];
        return common == 0;
    }

    // The k-th free slot, counted from 0. There must be more than k free slots.
    uint32_t free_slot(uint32_t k) const {
        for (uint32_t i = 0;; i++) {
            const uint32_t count = __builtin_popcountll(~words[i]);
            if (k < count) return i * 64 + nth_bit(~words[i], k);
            k -= count;
        }
    }
};

// A set of group numbers: a bitmap, and a bitmap of its words that aren't 0.
class GroupSet {
public:
    void insert(uint32_t n) {
        words[n / 64] |= uint64_t{1} << n % 64;
        summary[n / 4096] |= uint64_t{1} << n / 64 % 64;
    }

    void erase(uint32_t n) {
        words[n / 64] &= ~(uint64_t{1} << n % 64);
        if (words[n / 64] == 0) summary[n / 4096] &= ~(uint64_t{1} << n / 64 % 64);
    }

    // The least number, or MOST_SPANS if the set is empty.
    uint32_t least() const {
        for (uint32_t i = 0; i < summary.size(); i++) {
            if (summary[i] == 0) continue;
            const uint32_t word = i * 64 + nth_bit(summary[i], 0);
            return word * 64 + nth_bit(words[word], 0);
        }
        return MOST_SPANS;
    }

    // Calls `visit` with each number in ascending order.
    template <class Visit>
    void for_each(Visit visit) const {
        for (uint32_t i = 0; i < summary.size(); i++)
            for (uint64_t full = summary[i]; full != 0; full &= full - 1) {
                const uint32_t word = i * 64 + nth_bit(full, 0);
                for (uint64_t left = words[word]; left != 0; left &= left - 1) visit(word * 64 + nth_bit(left, 0));
            }
    }

private:
    std::vector<uint64_t> words = std::vector<uint64_t>(MOST_SPANS / 64 + 1);
    std::array<uint64_t, MOST_SPANS / 4096 + 1> summary{};
};

// ---- The search for pairs of a class

struct Candidate {
    Occupancy occupied;
    uint32_t number;
    uint16_t objects;
    bool is_paired = false;
};

struct Pair {
    uint32_t source;
    uint32_t destination;
};

// The list shuffled by picking: each word, modulo the number of candidates left, picks the next one. The candidates
// left are kept in blocks, so that removing one moves few.
inline std::vector<Candidate> shuffled(const std::vector<Candidate> &list, Words &words) {
    constexpr uint32_t BLOCK = 256;
    std::vector<std::vector<uint32_t>> blocks(list.size() / BLOCK + 1);
    for (uint32_t i = 0; i < list.size(); i++) blocks[i / BLOCK].push_back(i);
    std::vector<Candidate> order;
    order.reserve(list.size());
    for (uint64_t left = list.size(); left > 0; left--) {
        uint64_t place = words.next() % left;
        auto block = blocks.begin();
        for (; place >= block->size(); ++block) place -= block->size();
        order.push_back(list[(*block)[place]]);
        block->erase(block->begin() + place);
    }
    return order;
}

inline void erase_paired(std::vector<Candidate> &list) {
    const auto is_paired = [](const Candidate &candidate) { return candidate.is_paired; };
    list.erase(std::remove_if(list.begin(), list.end(), is_paired), list.end());
}

// The pairs that at most `probe` rounds of tries find between the two halves of an order, in the order of the tries.
// The group with fewer objects is the source; on a tie it is the one from the second half. Adds the number of tries to
// `tries`.
inline std::vector<Pair> split_search(const std::vector<Candidate> &order, uint32_t probe, uint64_t &tries) {
    const size_t half = order.size() / 2;
    std::vector<Candidate> left(order.begin(), order.begin() + half);
    std::vector<Candidate> right(order.begin() + half, order.begin() + 2 * half);
    std::vector<Pair> pairs;
    for (uint32_t round = 0; round < probe && !left.empty(); round++) {
        const size_t found = pairs.size();
        tries += left.size();
        size_t k = round % right.size();
        for (Candidate &l : left) {
            Candidate &r = right[k];
            if (++k == right.size()) k = 0;
            if (!l.occupied.is_disjoint(r.occupied)) continue;
            l.is_paired = r.is_paired = true;
            pairs.push_back(l.objects < r.objects ? Pair{l.number, r.number} : Pair{r.number, l.number});
        }
        if (pairs.size() == found) continue;
        erase_paired(left);
        erase_paired(right);
    }
    return pairs;
}

// ---- The heap

// The span and the slot of an object.
struct Place {
    uint16_t span;
    uint8_t slot;
};

struct Group {
    Occupancy occupied;
    uint32_t objects = 0;
    uint32_t bytes = 0;  // of its objects
    uint16_t first_span;  // its spans are a list, in the order in which meshes appended them
    uint16_t last_span;
    uint8_t size_class;
    bool exists = true;   // neither swept nor the source of a mesh
    uint8_t members = 1;  // spans

    const SizeClass &row() const { return CLASSES[size_class]; }
    bool is_full() const { return objects == row().slots; }
};

class Heap {
public:
    std::array<uint32_t, CLASSES.size()> class_pages{};  // physical pages of each class's groups that have an object
    uint32_t pages = 0;                                  // and of all of them
    uint32_t empty_pages = 0;                            // physical pages of the groups without an object
    uint32_t addresses_used = 0;                         // virtual pages
    uint64_t meshes = 0;
    uint64_t refused = 0;  // pairs with too many members together
    uint64_t copied = 0;   // bytes of the objects that meshes moved
    uint64_t tries = 0;    // comparisons of two groups in searches

    Heap(uint32_t addresses, uint32_t most_members) : addresses(addresses), most_members(most_members) {}

    // Whether a group of the class has a free slot, or there are addresses for a new span.
    bool has_room(uint32_t size_class) const {
        return open[size_class].least() < MOST_SPANS || addresses_used + CLASSES[size_class].pages <= addresses;
    }

    // Makes an object in the lowest group of the class with a free slot, or in a new span. Requires `has_room`.
    Place make(uint32_t size_class, uint32_t length, uint64_t word) {
        const uint32_t lowest = open[size_class].least();
        const uint32_t number = lowest < MOST_SPANS ? lowest : add_span(size_class);
        Group &group = groups[number];
        const uint32_t slot = group.occupied.free_slot(word % (group.row().slots - group.objects));
        if (group.objects == 0) {
            empty_pages -= group.row().pages;
            hold(group);
        }
        group.occupied.insert(slot);
        group.objects++;
        group.bytes += length;
        if (group.is_full()) open[size_class].erase(number);
        return {group.first_span, static_cast<uint8_t>(slot)};
    }

    void free(Place place, uint32_t length) {
        const uint32_t number = group_of[place.span];
        Group &group = groups[number];
        group.occupied.erase(place.slot);
        group.objects--;
        group.bytes -= length;
        open[group.size_class].insert(number);
        if (group.objects > 0) return;
        unhold(group);
        empty_pages += group.row().pages;
        emptied.push_back(number);
    }

    // Sweeps every group without an object. The order has no effect on any figure.
    void sweep() {
        for (const uint32_t number : emptied) {
            const Group &group = groups[number];
            if (!group.exists || group.objects > 0) continue;
            empty_pages -= group.row().pages;
            remove(number);
        }
        emptied.clear();
    }

    // Searches each class, smallest first, and meshes the pairs found.
    void mesh(uint32_t probe, Words &words) {
        for (uint32_t size_class = 0; size_class < CLASSES.size(); size_class++)
            for (const Pair &pair : split_search(shuffled(candidates(size_class), words), probe, tries))
                mesh_whole(pair.source, pair.destination);
    }

private:
    // Counts the pages of a group that gets its first object.
    void hold(const Group &group) {
        class_pages[group.size_class] += group.row().pages;
        pages += group.row().pages;
    }

    // Counts no longer the pages of a group that has lost its last object.
    void unhold(const Group &group) {
        class_pages[group.size_class] -= group.row().pages;
        pages -= group.row().pages;
    }

    // Makes a group of one new span, without an object, and returns its number.
    uint32_t add_span(uint32_t size_class) {
        const uint32_t number = groups.size();
        Group group;
        group.size_class = size_class;
        group.first_span = group.last_span = number;
        groups.push_back(group);
        group_of.push_back(number);
        next_span.push_back(number);
        open[size_class].insert(number);
        addresses_used += group.row().pages;
        empty_pages += group.row().pages;
        return number;
    }

    // Removes a group, whose pages are counted no longer. Its number isn't used again.
    void remove(uint32_t number) {
        groups[number].exists = false;
        open[groups[number].size_class].erase(number);
    }

    // The groups of the class that are neither empty nor full, in ascending order.
    std::vector<Candidate> candidates(uint32_t size_class) const {
        std::vector<Candidate> found;
        open[size_class].for_each([&](uint32_t number) {
            const Group &group = groups[number];
            const uint16_t objects = group.objects;
            if (objects > 0) found.push_back({group.occupied, number, objects});
        });
        return found;
    }

    // Meshes two groups of a class that have no occupied slot in common, unless they have too many members
    // together.
    void mesh_whole(uint32_t source_number, uint32_t destination_number) {
        Group &source = groups[source_number], &destination = groups[destination_number];
        if (source.members + destination.members > most_members) {
            refused++;
            return;
        }
        meshes++;
        copied += source.bytes;
        destination.occupied.insert_all(source.occupied);
        destination.objects += source.objects;
        destination.bytes += source.bytes;
        uint16_t span = source.first_span;
        for (uint32_t i = 0; i < source.members; i++) {
            group_of[span] = destination_number;
            span = next_span[span];
        }
        next_span[destination.last_span] = source.first_span;
        destination.last_span = source.last_span;
        destination.members += source.members;
        if (destination.is_full()) open[destination.size_class].erase(destination_number);
        unhold(source);
        remove(source_number);
    }

    uint32_t addresses;                         // virtual pages in all
    uint32_t most_members;                      // of a group
    std::vector<Group> groups;                  // by number
    std::vector<uint16_t> group_of;             // the group of each span
    std::vector<uint16_t> next_span;            // the span after each span of a group, but not after the last
    std::array<GroupSet, CLASSES.size()> open;  // the groups of each class with a free slot
    std::vector<uint32_t> emptied;              // groups whose last object was freed since the last sweep
};
