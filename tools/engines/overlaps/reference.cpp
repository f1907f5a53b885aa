// Judges a history of overlapping calls: a plain engine, for golden files and for the time of `meshrun check`.
//
//     g++ -O2 -std=c++17 -o reference reference.cpp
//     ./reference FILE [--mode MODE] [--configurations N] [--count]
//
// FILE is a history of version 2. A call that was pending when the recording stopped never ends. For a text without a
// fault of its spelling it prints the verdict that `meshrun check` prints. The status is 0 if the history is
// linearizable, 3 if it isn't, and 4 if the verdict is `undecided`. For a line that begins too early the status is 2,
// with `line L: ORDER` on standard error. It needs GCC or Clang for C++17.
//
// Each object is judged by itself. Its configurations are kept: the bytes that it may have, and the marks of the
// pending accesses that had their effect. When an access ends, those are met to which effects of pending accesses lead,
// with no effect after that of the access that ends. Those that have its mark stay, without this mark. MODE, by default
// `plain`, says which effects are tried:
//
// - `plain`: all, one after another.
// - `reads`: with each effect, all pending loads (and requests of the address) that match the new bytes have theirs.
// - `inside`: as `reads`, but only effects of the smallest set of pending accesses that has the access that ends and,
//   with an access, each pending one that conflicts with it.
// - `parts`: as `reads`, with separate configurations for each part of the object. Accesses whose ranges meet are in
//   one part. Bytes in no part are the same in all configurations.
// - `serves`: as `inside`, and a configuration is dropped if effects lead from another one to its bytes and its marks,
//   and perhaps to marks of further loads.
//
// At most N configurations, by default 100,000, are met at one end, or made when parts are joined. With --count the
// numbers of configurations are printed on standard error: those that were met at all ends, those that were kept after
// all ends, the most that one object had at once, and those that were made when parts were joined.
#include <algorithm>
#include <array>
#include <charconv>
#include <cstdint>
#include <cstring>
#include <fstream>
#include <iostream>
#include <map>
#include <memory>
#include <optional>
#include <set>
#include <string>
#include <string_view>
#include <unordered_map>
#include <unordered_set>
#include <vector>

using Fields = std::vector<std::string_view>;

/// A moment of a history. `never` is after each moment at which a call begins or ends.
using Moment = unsigned __int128;

/// A set of places of pending accesses.
using Marks = uint64_t;

constexpr Moment never = Moment{1} << 64;
constexpr unsigned most_pending = 64;
constexpr size_t most_named = 8;
constexpr uint64_t chunk_bytes = 64;
constexpr size_t least_slots = 16;

const std::string outside = "refused 7 OUTSIDE";
const std::string not_after_new = "not after its new";
const std::string not_before_free = "not before its free";

struct Mode {
    bool reads, inside, parts, serves;
};

const std::map<std::string_view, Mode> modes = {
    {"plain", {false, false, false, false}},
    {"reads", {true, false, false, false}},
    {"inside", {true, true, false, false}},
    {"parts", {true, false, true, false}},
    {"serves", {true, true, false, true}},
};

struct Options {
    std::string path;
    Mode mode = modes.at("plain");
    size_t limit = 100'000;
    bool is_counted = false;
};

struct Counts {
    uint64_t met = 0, kept = 0, most_kept = 0, joined = 0;
};

// ---- Texts ----

std::string hex(uint64_t number) {
    char text[16];
    return {text, std::to_chars(text, text + sizeof text, number, 16).ptr};
}

std::string hex_of(const uint8_t* bytes, size_t count) {
    std::string text;
    for (size_t i = 0; i < count; i++) text += {"0123456789abcdef"[bytes[i] / 16], "0123456789abcdef"[bytes[i] % 16]};
    return text;
}

uint64_t number(std::string_view text, int base = 10) {
    uint64_t value = 0;
    std::from_chars(text.data(), text.data() + text.size(), value, base);
    return value;
}

void cut(std::string_view text, Fields& fields) {
    fields.clear();
    size_t from = 0, to;
    while ((to = text.find(' ', from)) != text.npos) {
        fields.push_back(text.substr(from, to - from));
        from = to + 1;
    }
    fields.push_back(text.substr(from));
}

bool begins_with(std::string_view text, std::string_view start) { return text.substr(0, start.size()) == start; }

/// The reason of a wrong answer. `of` is the object of an access, and empty for a `new`.
std::string unexplained(const std::string& answer, const std::string& of, const std::string& possible) {
    const char* last = begins_with(possible, "bytes ") ? " if it took effect last" : "";
    return "no order explains " + answer + of + "; possible" + last + ": " + possible;
}

// ---- Accesses ----

struct Range {
    uint64_t first = 0, end = 0;

    uint64_t count() const { return end - first; }
    bool is_empty() const { return first == end; }
    bool meets(const Range& other) const { return first < other.end && other.first < end; }
    bool has(const Range& other) const { return first <= other.first && other.end <= end; }
    Range with(const Range& other) const { return {std::min(first, other.first), std::max(end, other.end)}; }
};

/// A store, a load, or a request of the address. The latter touches no byte, like an access past the object's end.
struct Access {
    bool is_store = false;
    /// Whether its answer is right for some bytes.
    bool can = false;
    Range range;
    /// Where the bytes of the range begin in those of a configuration.
    uint32_t place = 0;
    /// What is stored, or was loaded.
    std::vector<uint8_t> data;

    bool matches(const uint8_t* bytes) const { return memcmp(bytes + place, data.data(), range.count()) == 0; }
    void store(uint8_t* bytes) const { memcpy(bytes + place, data.data(), range.count()); }
    bool conflicts(const Access& other) const { return (is_store || other.is_store) && range.meets(other.range); }
};

Marks bit(unsigned place) { return Marks{1} << place; }
unsigned lowest(Marks marks) { return __builtin_ctzll(marks); }

/// The pending accesses of an object, by their places.
struct Pending {
    std::vector<Access> at;
    Marks taken = 0;
    /// Those that can have their effect, and those of them that change no byte.
    Marks able = 0, reads = 0;

    unsigned add(const Access& access) {
        unsigned place = lowest(~taken);
        if (place == at.size()) at.emplace_back();
        at[place] = access;
        taken |= bit(place);
        if (access.can) able |= bit(place);
        if (access.can && !access.is_store) reads |= bit(place);
        return place;
    }

    void remove(unsigned place) {
        for (Marks* marks : {&taken, &able, &reads}) *marks &= ~bit(place);
    }

    /// The smallest set that has this access and, with an access, each pending one that conflicts with it.
    Marks conflicting(unsigned place) const {
        Marks found = bit(place), left = found;
        while (left) {
            const Access& access = at[lowest(left)];
            left &= left - 1;
            for (Marks others = taken & ~found; others; others &= others - 1) {
                if (!access.conflicts(at[lowest(others)])) continue;
                found |= bit(lowest(others));
                left |= bit(lowest(others));
            }
        }
        return found;
    }
};

// ---- Configurations ----

uint8_t* bytes_of(uint64_t* row) { return reinterpret_cast<uint8_t*>(row + 1); }
const uint8_t* bytes_of(const uint64_t* row) { return reinterpret_cast<const uint8_t*>(row + 1); }

/// A list of configurations: rows of words, the first of which are the marks and the others the bytes.
class Rows {
public:
    explicit Rows(size_t bytes = 0) : width_(1 + (bytes + 7) / 8) {}

    size_t width() const { return width_; }
    size_t count() const { return words_.size() / width_; }
    uint64_t* operator[](size_t row) { return words_.data() + row * width_; }
    const uint64_t* operator[](size_t row) const { return words_.data() + row * width_; }

    /// Adds a copy of a row that isn't in this list.
    uint64_t* add(const uint64_t* row) {
        words_.insert(words_.end(), row, row + width_);
        return words_.data() + words_.size() - width_;
    }

    void clear() { words_.clear(); }

    /// Keeps the rows with this mark, and takes the mark from them. Changes nothing if no row has it.
    bool keep(unsigned place) {
        size_t kept = 0;
        for (size_t row = 0; row < count(); row++) {
            if (!((*this)[row][0] & bit(place))) continue;
            memmove((*this)[kept], (*this)[row], 8 * width_);
            (*this)[kept++][0] &= ~bit(place);
        }
        if (kept > 0) words_.resize(kept * width_);
        return kept > 0;
    }

    /// Drops the rows that are told to be dropped.
    void drop(const std::vector<bool>& dropped) {
        size_t kept = 0;
        for (size_t row = 0; row < count(); row++) {
            if (!dropped[row]) memmove((*this)[kept++], (*this)[row], 8 * width_);
        }
        words_.resize(kept * width_);
    }

private:
    size_t width_;
    std::vector<uint64_t> words_;
};

/// Finds whether a row is in a list.
class Index {
public:
    void start(const Rows& rows) {
        size_t slots = least_slots;
        while (slots < 4 * rows.count()) slots *= 2;
        slots_.assign(slots, 0);
        for (size_t row = 0; row < rows.count(); row++) slots_[slot_of(rows, rows[row])] = row + 1;
    }

    /// Adds a row to the list, unless it is there.
    bool add(Rows& rows, const uint64_t* row) {
        size_t slot = slot_of(rows, row);
        if (slots_[slot] != 0) return false;
        rows.add(row);
        slots_[slot] = rows.count();
        if (2 * rows.count() > slots_.size()) start(rows);
        return true;
    }

private:
    /// The slot with this row, or the free one for it.
    size_t slot_of(const Rows& rows, const uint64_t* row) const {
        size_t slot = hash(row, rows.width()) & (slots_.size() - 1);
        while (slots_[slot] != 0 && memcmp(rows[slots_[slot] - 1], row, 8 * rows.width()) != 0) {
            slot = (slot + 1) & (slots_.size() - 1);
        }
        return slot;
    }

    static uint64_t hash(const uint64_t* row, size_t width) {
        uint64_t value = 0;
        for (size_t i = 0; i < width; i++) {
            value = (value ^ row[i]) * 0x9e3779b97f4a7c15;
            value ^= value >> 32;
        }
        return value;
    }

    /// Numbers of rows, each one greater, and 0 in a free slot.
    std::vector<uint32_t> slots_;
};

/// Bytes side by side, and where they begin in those of a configuration.
struct Block {
    Range range;
    uint32_t place;
};

/// Bytes of an object with the accesses that are pending on them, and the configurations of these bytes.
struct Part {
    /// In the order of their ranges, which don't meet.
    std::vector<Block> blocks;
    Marks pending = 0;
    Rows rows;

    const Block* block_with(const Range& range) const {
        auto behind = std::upper_bound(blocks.begin(), blocks.end(), range.first,
                                       [](uint64_t first, const Block& block) { return first < block.range.first; });
        if (behind == blocks.begin() || !std::prev(behind)->range.has(range)) return nullptr;
        return &*std::prev(behind);
    }

    uint32_t place_of(const Range& range) const {
        const Block* block = block_with(range);
        return block->place + (range.first - block->range.first);
    }
};

/// Carries configurations on by effects of pending accesses.
class Search {
public:
    Search(const Mode& mode, size_t limit) : mode(mode), limit(limit) {}

    const Mode mode;
    const size_t limit;
    Counts counts;

    /// Meets the configurations to which the effects that are tried lead, up to the effect of the access that ends.
    /// Returns whether the limit suffices.
    bool meet(Part& part, const Pending& pending, unsigned ending, Marks tried) {
        index_.start(part.rows);
        for (size_t row = 0; row < part.rows.count(); row++) {
            Marks marks = part.rows[row][0];
            if (marks & bit(ending)) continue;
            for (Marks left = tried & ~marks; left; left &= left - 1) {
                if (take_effect(part.rows[row], part, pending, lowest(left))) index_.add(part.rows, row_.data());
                if (part.rows.count() > limit) return false;
            }
        }
        return true;
    }

    /// Drops each configuration for which another one serves.
    void drop_served(Part& part, const Pending& pending) {
        Rows& rows = part.rows;
        std::vector<bool> dropped(rows.count());
        for (size_t row = 0; row < rows.count(); row++) {
            for (size_t other = 0; other < rows.count() && !dropped[row]; other++) {
                dropped[row] = other != row && !dropped[other] && serves(part, pending, rows[other], rows[row]);
            }
        }
        rows.drop(dropped);
    }

private:
    /// Makes `row_` the configuration after an effect. Returns whether the access can have it.
    bool take_effect(const uint64_t* row, const Part& part, const Pending& pending, unsigned place) {
        const Access& access = pending.at[place];
        if (!access.is_store && !access.matches(bytes_of(row))) return false;
        row_.assign(row, row + part.rows.width());
        if (access.is_store) access.store(bytes_of(row_.data()));
        row_[0] |= bit(place);
        if (mode.reads) mark_reads(row_.data(), part, pending);
        return true;
    }

    static void mark_reads(uint64_t* row, const Part& part, const Pending& pending) {
        for (Marks left = part.pending & pending.reads & ~row[0]; left; left &= left - 1) {
            if (pending.at[lowest(left)].matches(bytes_of(row))) row[0] |= bit(lowest(left));
        }
    }

    /// Whether effects lead from the configuration `from` to the bytes of `to` and at least its marks, where each mark
    /// more is of a load.
    bool serves(const Part& part, const Pending& pending, const uint64_t* from, const uint64_t* to) {
        Marks stores = part.pending & ~pending.reads;
        if (from[0] & ~to[0] & stores) return false;
        if (!are_alike(part, pending, to[0] & ~from[0] & stores, from, to)) return false;
        Rows met(8 * (part.rows.width() - 1));
        mark_reads(met.add(from), part, pending);
        serving_.start(met);
        for (size_t row = 0; row < met.count(); row++) {
            Marks left = to[0] & ~met[row][0] & stores;
            if (!left && !(to[0] & ~met[row][0]) && have_same_bytes(met[row], to, met.width())) return true;
            for (; left; left &= left - 1) {
                if (take_effect(met[row], part, pending, lowest(left))) serving_.add(met, row_.data());
            }
        }
        return false;
    }

    /// Whether two configurations have the same bytes outside the ranges of stores.
    bool are_alike(const Part& part, const Pending& pending, Marks stores, const uint64_t* one, const uint64_t* other) {
        row_.assign(one, one + part.rows.width());
        for (; stores; stores &= stores - 1) {
            const Access& store = pending.at[lowest(stores)];
            memcpy(bytes_of(row_.data()) + store.place, bytes_of(other) + store.place, store.range.count());
        }
        return have_same_bytes(row_.data(), other, part.rows.width());
    }

    static bool have_same_bytes(const uint64_t* one, const uint64_t* other, size_t width) {
        return std::equal(one + 1, one + width, other + 1);
    }

    std::vector<uint64_t> row_;
    Index index_, serving_;
};

// ---- The judge of an object ----

/// Bytes that are the same in all configurations; those that were never stored are zero.
class Base {
public:
    void load(const Range& range, uint8_t* bytes) const {
        for (Range left = range; !left.is_empty();) {
            const Range run = run_of(left);
            auto found = chunks_.find(run.first / chunk_bytes);
            if (found == chunks_.end()) memset(bytes, 0, run.count());
            else memcpy(bytes, &found->second[run.first % chunk_bytes], run.count());
            bytes += run.count(), left.first = run.end;
        }
    }

    void store(const Range& range, const uint8_t* bytes) {
        for (Range left = range; !left.is_empty();) {
            const Range run = run_of(left);
            memcpy(&chunks_[run.first / chunk_bytes][run.first % chunk_bytes], bytes, run.count());
            bytes += run.count(), left.first = run.end;
        }
    }

private:
    /// The beginning of a range that is in one chunk.
    static Range run_of(const Range& range) {
        return {range.first, std::min(range.end, (range.first / chunk_bytes + 1) * chunk_bytes)};
    }

    std::unordered_map<uint64_t, std::array<uint8_t, chunk_bytes>> chunks_;
};

enum class End { explained, unexplained, too_many };

/// Judges the accesses to one object. It has one part, or in mode `parts` one for each of its ranges.
class Judge {
public:
    explicit Judge(Search& search) : search_(search) {
        if (!search.mode.parts) parts_[0].rows = Rows(0), parts_[0].rows.add(&no_marks), kept_ = 1;
    }

    bool is_full() const { return pending_.taken == ~Marks{0}; }

    /// Takes the begin of an access, whose place it gives. There is none if a join makes too many configurations.
    std::optional<unsigned> begin(Access access) {
        Part* part = is_alone(access) ? nullptr : joined(access.range);
        if (!is_alone(access) && !part) return {};
        if (!access.range.is_empty()) access.place = part->place_of(access.range);
        unsigned place = pending_.add(access);
        if (part) part->pending |= bit(place);
        return place;
    }

    End end(unsigned place) {
        const Access& access = pending_.at[place];
        if (is_alone(access)) return end_alone(place);
        auto found = part_of(access.range);
        Part& part = found->second;
        size_t before = part.rows.count();
        Marks tried = search_.mode.inside ? pending_.conflicting(place) : part.pending;
        bool is_enough = search_.meet(part, pending_, place, tried & pending_.able);
        search_.counts.met += part.rows.count();
        if (!is_enough) return End::too_many;
        if (!part.rows.keep(place)) return End::unexplained;
        part.pending &= ~bit(place);
        pending_.remove(place);
        if (search_.mode.serves) search_.drop_served(part, pending_);
        count_kept(part.rows.count(), before);
        let_go(found);
        return End::explained;
    }

    /// The bytes that a load could have found at its end, which doesn't explain it.
    std::set<std::string> possible_loads(unsigned place) {
        const Access& access = pending_.at[place];
        const Part& part = part_of(access.range)->second;
        std::set<std::string> loads;
        for (size_t row = 0; row < part.rows.count(); row++) {
            loads.insert("bytes " + hex_of(bytes_of(part.rows[row]) + access.place, access.range.count()));
        }
        return loads;
    }

    const Access& access(unsigned place) const { return pending_.at[place]; }

private:
    using Parts = std::map<uint64_t, Part>;

    /// Whether an access is in no part, because its answer doesn't depend on bytes.
    bool is_alone(const Access& access) const { return search_.mode.parts && access.range.is_empty(); }

    End end_alone(unsigned place) {
        bool can = pending_.at[place].can;
        search_.counts.met += can ? 2 : 1;
        if (!can) return End::unexplained;
        search_.counts.kept += 1;
        pending_.remove(place);
        return End::explained;
    }

    void count_kept(size_t now, size_t before) {
        search_.counts.kept += now;
        kept_ += now - before;
        search_.counts.most_kept = std::max<uint64_t>(search_.counts.most_kept, kept_);
    }

    /// The part with the bytes of a range.
    Parts::iterator part_of(const Range& range) { return std::prev(parts_.upper_bound(range.first)); }

    /// The part that gets an access to this range, or null if it has too many configurations.
    Part* joined(const Range& range) {
        auto first = parts_.begin(), end = parts_.end();
        if (search_.mode.parts) std::tie(first, end) = meeting(range);
        bool is_one = std::distance(first, end) == 1;
        if (is_one && (range.is_empty() || first->second.block_with(range))) return &first->second;
        Part made;
        if (!combine(first, end, range, made)) return nullptr;
        parts_.erase(first, end);
        uint64_t key = search_.mode.parts ? made.blocks[0].range.first : 0;
        Part& part = parts_[key] = std::move(made);
        for (Marks left = part.pending; left; left &= left - 1) {
            Access& access = pending_.at[lowest(left)];
            if (!access.range.is_empty()) access.place = part.place_of(access.range);
        }
        return &part;
    }

    /// The parts whose bytes a range meets.
    std::pair<Parts::iterator, Parts::iterator> meeting(const Range& range) {
        auto end = parts_.lower_bound(range.end), first = end;
        while (first != parts_.begin() && std::prev(first)->second.blocks[0].range.meets(range)) --first;
        return {first, end};
    }

    /// Makes a part of parts and of the bytes of a range. Returns whether the limit suffices.
    bool combine(Parts::iterator first, Parts::iterator end, const Range& range, Part& made) {
        lay_out(made, first, end, range);
        size_t count = 1, before = 0;
        for (auto part = first; part != end; ++part) {
            count *= part->second.rows.count();
            before += part->second.rows.count();
            if (count > search_.limit) return false;
            multiply(made, part->second);
        }
        if (std::distance(first, end) > 1) search_.counts.joined += count;
        kept_ += count - before;
        search_.counts.most_kept = std::max<uint64_t>(search_.counts.most_kept, kept_);
        return true;
    }

    /// Gives a part the bytes of parts and of a range, and one configuration, whose bytes are those of the base.
    void lay_out(Part& made, Parts::iterator first, Parts::iterator end, Range range) const {
        for (auto part = first; part != end; ++part) {
            for (const Block& block : part->second.blocks) {
                if (block.range.meets(range)) range = range.with(block.range);
                else made.blocks.push_back(block);
            }
        }
        made.blocks.push_back({range, 0});
        std::sort(made.blocks.begin(), made.blocks.end(),
                  [](const Block& one, const Block& other) { return one.range.first < other.range.first; });
        uint32_t bytes = 0;
        for (Block& block : made.blocks) block.place = bytes, bytes += block.range.count();
        made.rows = Rows(bytes);
        std::vector<uint64_t> row(made.rows.width());
        for (const Block& block : made.blocks) base_.load(block.range, bytes_of(row.data()) + block.place);
        made.rows.add(row.data());
    }

    /// Multiplies the configurations of a part by those of another one, whose bytes it has.
    static void multiply(Part& made, const Part& part) {
        Rows product = made.rows;
        product.clear();
        for (size_t row = 0; row < made.rows.count(); row++) {
            for (size_t other = 0; other < part.rows.count(); other++) {
                uint64_t* both = product.add(made.rows[row]);
                both[0] |= part.rows[other][0];
                for (const Block& block : part.blocks) {
                    const uint8_t* bytes = bytes_of(part.rows[other]) + block.place;
                    memcpy(bytes_of(both) + made.place_of(block.range), bytes, block.range.count());
                }
            }
        }
        made.rows = std::move(product);
        made.pending |= part.pending;
    }

    /// Moves the bytes of a part to the base if nothing is pending there and they are the same in all configurations.
    void let_go(Parts::iterator found) {
        Part& part = found->second;
        if (!search_.mode.parts || part.pending || part.rows.count() > 1) return;
        base_.store(part.blocks[0].range, bytes_of(part.rows[0]));
        parts_.erase(found);
        kept_ -= 1;
    }

    static constexpr uint64_t no_marks = 0;

    Search& search_;
    Parts parts_;
    Base base_;
    Pending pending_;
    /// How many configurations all parts have.
    size_t kept_ = 0;
};

// ---- The judge of a history ----

/// A call that has begun. The answer of a `new` has a serial and an address, or is a refusal. The end of a call that was
/// pending when the recording stopped is `never`.
struct Call {
    uint32_t line;
    uint64_t begin;
    Moment end;
    uint32_t cell;
    std::string word, answer;
    uint64_t length = 0, address = 0;
    uint32_t serial = 0;
    /// Of an access, its place in the object's judge.
    std::optional<unsigned> place = {};

    bool is_object() const { return begins_with(answer, "object "); }
};

struct Object {
    uint32_t serial, line;
    uint64_t address, length;
    Judge judge;
};

/// What is known of a cell.
struct Cell {
    /// Whether a `new` and a `free` of it have begun.
    bool has_new = false, is_freed = false;
    /// From the end of the `new` to the begin of the `free`.
    std::unique_ptr<Object> object;
};

struct Verdict {
    int status;
    std::string text;
};

/// Takes the begins and ends of calls in the order of time, begins before ends at one moment.
class Timeline {
public:
    explicit Timeline(Search& search) : search_(search) {}

    /// Takes the ends before a moment, up to the first flaw.
    std::optional<Verdict> end_before(Moment moment) {
        while (!waiting_.empty() && waiting_.begin()->first.first < moment) {
            if (auto verdict = end_next()) return verdict;
        }
        return {};
    }

    std::optional<Verdict> begin(Call call, const Fields& asked) {
        Cell& cell = cells_[call.cell];
        if (auto verdict = misuse(call, cell)) return verdict;
        if (call.word == "new") cell.has_new = true;
        else if (call.word == "free") begin_free(cell);
        else {
            if (cell.object->judge.is_full()) return undecided(call, "64 pending accesses to one object");
            call.place = cell.object->judge.begin(access_of(call, asked, *cell.object));
            if (!call.place) return undecided(call, std::to_string(search_.limit) + " configurations");
        }
        std::pair<Moment, uint32_t> key(call.end, call.line);
        waiting_.emplace(key, std::move(call));
        return {};
    }

private:
    static Verdict undecided(const Call& call, const std::string& most) {
        return {4, "undecided at line " + std::to_string(call.line) + ": more than " + most};
    }

    static Verdict no_history(uint32_t line, const std::string& rule) {
        return {3, "line " + std::to_string(line) + ": no history: " + rule};
    }

    /// The verdict if a call breaks a rule of use as `call` begins: the call itself, or an access that its `free`
    /// doesn't wait for.
    std::optional<Verdict> misuse(const Call& call, const Cell& cell) const {
        if (call.word == "new") return cell.has_new ? std::optional(no_history(call.line, "cell again")) : std::nullopt;
        if (cell.is_freed) return no_history(call.line, not_before_free);
        if (!cell.object) return no_history(call.line, not_after_new);
        if (call.word != "free") return {};
        for (const auto& [key, other] : waiting_) {
            if (other.cell == call.cell && other.word != "new") return no_history(other.line, not_before_free);
        }
        return {};
    }

    void begin_free(Cell& cell) {
        cell.is_freed = true;
        starts_.erase(cell.object->address);
        cell.object.reset();
    }

    static Access access_of(const Call& call, const Fields& asked, const Object& object) {
        Access access;
        if (call.word == "addr") {
            access.can = call.answer == "at " + hex(object.address);
            return access;
        }
        access.is_store = call.word == "put";
        uint64_t first = number(asked[5]), count = access.is_store ? asked[6].size() / 2 : number(asked[6]);
        if (first + count > object.length) return access;
        access.range = {first, first + count};
        // What a pending load would have loaded isn't known, and changes nothing.
        if (!access.is_store && call.end == never) return access;
        std::string_view data = access.is_store ? asked[6] : std::string_view(call.answer).substr(6);
        access.can = data.size() == 2 * count;
        for (size_t i = 0; i < data.size(); i += 2) access.data.push_back(number(data.substr(i, 2), 16));
        return access;
    }

    std::optional<Verdict> end_next() {
        Call call = std::move(waiting_.extract(waiting_.begin()).mapped());
        Cell& cell = cells_[call.cell];
        std::string reason = call.word == "new" ? end_new(call, cell) : "";
        if (reason.empty() && call.place) {
            End end = cell.object->judge.end(*call.place);
            if (end == End::too_many) return undecided(call, std::to_string(search_.limit) + " configurations");
            if (end == End::unexplained) reason = unexplained(call.answer, named(call, *cell.object), possible(call, *cell.object));
        }
        if (reason.empty()) return {};
        return Verdict{3, "line " + std::to_string(call.line) + ": " + reason};
    }

    /// Takes the end of a `new`. Returns the reason if it has a flaw, or nothing.
    std::string end_new(const Call& call, Cell& cell) {
        if (call.length == 0) return call.answer == "refused 1 ZERO" ? "" : unexplained(call.answer, "", "refused 1 ZERO");
        if (!call.is_object()) {
            for (const char* fair : {"refused 2 ", "refused 3 ", "refused 4 "}) {
                if (begins_with(call.answer, fair)) return {};
            }
            return unexplained(call.answer, "", "object");
        }
        if (!serials_.insert(call.serial).second) return "serial again";
        if (const Object* other = overlapped(call)) {
            return "overlaps object " + std::to_string(other->serial) + ", made at line " + std::to_string(other->line);
        }
        cell.object.reset(new Object{call.serial, call.line, call.address, call.length, Judge(search_)});
        starts_[call.address] = cell.object.get();
        return {};
    }

    /// The live object with the greatest address that has an address of a new one, or null.
    const Object* overlapped(const Call& made) const {
        unsigned __int128 end = made.address;
        end += made.length;
        auto behind = starts_.lower_bound(end);
        if (behind == starts_.begin()) return nullptr;
        const Object* other = std::prev(behind)->second;
        return other->address + static_cast<unsigned __int128>(other->length) > made.address ? other : nullptr;
    }

    /// The object of an access, as a text.
    static std::string named(const Call& call, const Object& object) {
        return " of object " + std::to_string(object.serial) + " in cell " + std::to_string(call.cell) + ", made at line "
            + std::to_string(object.line);
    }

    /// The answers that an access could have had, as a text: the first of them, and two dots if there are more.
    static std::string possible(const Call& call, Object& object) {
        if (call.word == "addr") return "at " + hex(object.address);
        if (object.judge.access(*call.place).range.is_empty()) return outside;
        std::string text;
        size_t named = 0;
        for (const std::string& load : object.judge.possible_loads(*call.place)) {
            if (named > 0) text += " | ";
            if (named == most_named) return text + "..";
            text += load;
            named++;
        }
        return text;
    }

    Search& search_;
    std::map<std::pair<Moment, uint32_t>, Call> waiting_;
    std::unordered_map<uint32_t, Cell> cells_;
    std::unordered_set<uint32_t> serials_;
    std::map<unsigned __int128, const Object*> starts_;
};

// ---- The program ----

/// The call of a line. `asked` gets the fields before the arrow.
Call call_of_line(uint32_t line, std::string_view text, Fields& asked) {
    size_t arrow = text.find(" -> ");
    cut(text.substr(0, arrow), asked);
    bool is_pending = asked[2] == "-";
    Moment end = is_pending ? never : Moment{number(asked[2])};
    std::string answer(is_pending ? "done" : text.substr(arrow + 4));
    Call call{line, number(asked[1]), end, static_cast<uint32_t>(number(asked[4])), std::string(asked[3]), answer};
    if (call.word != "new") return call;
    call.length = number(asked[5]);
    if (!call.is_object()) return call;
    Fields answered;
    cut(call.answer, answered);
    call.serial = number(answered[1]);
    call.address = number(answered[3], 16);
    return call;
}

/// Finds lines that begin too early.
class Order {
public:
    bool takes(uint64_t worker, const Call& call) {
        auto [last, is_first] = ends_.try_emplace(worker, call.end);
        if (call.begin < begin_ || (!is_first && call.begin <= last->second)) return false;
        begin_ = call.begin;
        last->second = call.end;
        return true;
    }

private:
    uint64_t begin_ = 0;
    std::unordered_map<uint64_t, Moment> ends_;
};

Verdict judged(std::istream& file, Search& search) {
    Timeline timeline(search);
    Order order;
    std::string text;
    Fields asked;
    uint32_t line = 1;
    while (std::getline(file, text)) {
        Call call = call_of_line(++line, text, asked);
        if (!order.takes(number(asked[0]), call)) return {2, "line " + std::to_string(line) + ": ORDER"};
        if (auto verdict = timeline.end_before(call.begin)) return *verdict;
        if (auto verdict = timeline.begin(std::move(call), asked)) return *verdict;
    }
    if (auto verdict = timeline.end_before(never)) return *verdict;
    return {0, "linearizable " + std::to_string(line - 1) + " entries"};
}

std::optional<Options> options_of(int count, char** words) {
    Options options;
    for (int i = 1; i < count; i++) {
        std::string_view word = words[i];
        bool has_value = i + 1 < count;
        if (word == "--count") options.is_counted = true;
        else if (word == "--mode" && has_value && modes.count(words[i + 1])) options.mode = modes.at(words[++i]);
        else if (word == "--configurations" && has_value) options.limit = number(words[++i]);
        else if (options.path.empty() && !begins_with(word, "--")) options.path = word;
        else return {};
    }
    if (options.path.empty()) return {};
    return options;
}

int main(int count, char** words) {
    std::ios::sync_with_stdio(false);
    auto options = options_of(count, words);
    if (!options) {
        std::cerr << "usage: reference FILE [--mode MODE] [--configurations N] [--count]\n";
        return 2;
    }
    std::ifstream file(options->path);
    std::string text;
    if (!std::getline(file, text) || text != "history 2") {
        std::cerr << "no history of version 2\n";
        return 2;
    }
    Search search(options->mode, options->limit);
    Verdict verdict = judged(file, search);
    (verdict.status == 2 ? std::cerr : std::cout) << verdict.text << "\n";
    const Counts& counts = search.counts;
    if (options->is_counted) {
        std::cerr << "met " << counts.met << ", kept " << counts.kept << ", most kept at once " << counts.most_kept
                  << ", joined " << counts.joined << "\n";
    }
    return verdict.status;
}
