// Judges a recorded history of calls in the order of their effects: a plain engine, for the time of `meshrun check`.
//
//     g++ -O2 -std=c++17 -o reference reference.cpp
//     ./reference FILE
//
// FILE is a history of version 1. For a text without a fault it prints the verdict that `meshrun check` prints. The
// status is 0 if the history is legal, 3 if it isn't, and 2 if FILE doesn't begin as a history of version 1. It needs a
// C++17 compiler; tools/bench/check.sh compiles and runs it.
//
// Objects are in a std::map and a std::unordered_map, their bytes in chunks of 64. A line is cut into its fields.
#include <algorithm>
#include <charconv>
#include <cstdint>
#include <fstream>
#include <iostream>
#include <map>
#include <memory>
#include <string>
#include <string_view>
#include <unordered_map>
#include <unordered_set>
#include <vector>

using Fields = std::vector<std::string_view>;

constexpr uint64_t chunk_bytes = 64;

/// Bytes of an object, and the line of the last store to each.
struct Chunk {
    uint8_t bytes[chunk_bytes] = {};
    uint32_t lines[chunk_bytes] = {};
};

struct Object {
    uint32_t serial;
    uint32_t line;
    uint64_t address;
    uint64_t length;
    std::map<uint64_t, Chunk> chunks;

    bool is_outside(uint64_t offset, uint64_t count) const { return length < offset + count; }

    uint8_t byte(uint64_t offset) const {
        auto found = chunks.find(offset / chunk_bytes);
        return found == chunks.end() ? 0 : found->second.bytes[offset % chunk_bytes];
    }

    uint32_t stored_at(uint64_t offset) const {
        auto found = chunks.find(offset / chunk_bytes);
        return found == chunks.end() ? 0 : found->second.lines[offset % chunk_bytes];
    }

    void store(uint64_t offset, const std::vector<uint8_t>& bytes, uint32_t at_line) {
        for (uint64_t i = 0, run; i < bytes.size(); i += run) {
            run = run_at(offset + i, bytes.size() - i);
            Chunk& chunk = chunks[(offset + i) / chunk_bytes];
            std::copy_n(bytes.begin() + i, run, chunk.bytes + (offset + i) % chunk_bytes);
            std::fill_n(chunk.lines + (offset + i) % chunk_bytes, run, at_line);
        }
    }

    std::vector<uint8_t> load(uint64_t offset, uint64_t count) const {
        std::vector<uint8_t> bytes(count);
        for (uint64_t i = 0, run; i < count; i += run) {
            run = run_at(offset + i, count - i);
            auto found = chunks.find((offset + i) / chunk_bytes);
            if (found == chunks.end()) continue;
            std::copy_n(found->second.bytes + (offset + i) % chunk_bytes, run, bytes.begin() + i);
        }
        return bytes;
    }

    /// How many of so many bytes from this offset on are in its chunk.
    static uint64_t run_at(uint64_t offset, uint64_t count) {
        return std::min(count, chunk_bytes - offset % chunk_bytes);
    }
};

using Shared = std::shared_ptr<Object>;

std::string hex(uint64_t number) {
    char text[16];
    return {text, std::to_chars(text, text + sizeof text, number, 16).ptr};
}

std::string hex_of(const std::vector<uint8_t>& bytes) {
    std::string text;
    for (uint8_t byte : bytes) text += {"0123456789abcdef"[byte / 16], "0123456789abcdef"[byte % 16]};
    return text;
}

std::vector<uint8_t> bytes_of(std::string_view text) {
    std::vector<uint8_t> bytes(text.size() / 2);
    for (size_t i = 0; i < bytes.size(); i++) std::from_chars(text.data() + 2 * i, text.data() + 2 * i + 2, bytes[i], 16);
    return bytes;
}

uint64_t number(std::string_view text, int base = 10) {
    uint64_t value = 0;
    std::from_chars(text.data(), text.data() + text.size(), value, base);
    return value;
}

void cut(std::string_view text, Fields& fields) {
    fields.clear();
    size_t from = 0, to;
    while ((to = text.find(' ', from)) != text.npos) {
        fields.push_back(text.substr(from, to - from));
        from = to + 1;
    }
    fields.push_back(text.substr(from));
}

std::string range(uint64_t from, uint64_t length) { return hex(from) + ".." + hex(from + length); }

class Judge {
public:
    /// Takes an entry, `W COMMAND` and its answer. Returns why it can't be taken, nothing if it is.
    std::string take(uint32_t line, const Fields& asked, std::string_view answer) {
        where_ = {};
        if (asked[1] == "new") return take_new(line, asked, answer);
        std::string wanted = wanted_of(line, asked);
        if (answer == wanted) return {};
        bool is_refused = answer.substr(0, 7) == "refused" && wanted.substr(0, 7) != "refused";
        std::string reason = is_refused ? "live object is refused: " : "answer differs: ";
        return reason + std::string(answer) + ", wanted " + wanted + byte_of(answer, wanted);
    }

private:
    std::string take_new(uint32_t line, const Fields& asked, std::string_view answer) {
        uint64_t cell = number(asked[2]), length = number(asked[3]);
        if (length == 0) return answer == "refused 1 ZERO" ? "" : differs(answer, "refused 1 ZERO");
        if (answer == "refused 2 TOO_LARGE" || answer == "refused 3 NO_PAGES" || answer == "refused 4 NO_ADDRESSES") return {};
        if (answer.substr(0, 7) != "object ") return differs(answer, "object");
        cut(answer, answered_);
        uint32_t serial = number(answered_[1]);
        uint64_t address = number(answered_[3], 16);
        if (!serials_.insert(serial).second) return "serial again";
        auto behind = starts_.lower_bound(address + length);
        if (behind != starts_.begin()) {
            const Object& other = *std::prev(behind)->second;
            if (address < other.address + other.length)
                return "overlaps object " + std::to_string(other.serial) + ", made at line " + std::to_string(other.line)
                    + ": addresses " + range(address, length) + " and " + range(other.address, other.length);
        }
        auto made = std::make_shared<Object>(Object{serial, line, address, length, {}});
        starts_.emplace(address, made);
        cells_[cell] = made;
        return {};
    }

    std::string wanted_of(uint32_t line, const Fields& asked) {
        std::string_view word = asked[1];
        if (word == "peek" || word == "poke") {
            Object* object = holding(number(asked[2], 16));
            if (!object) return "refused 8 STRAY";
            uint64_t offset = number(asked[2], 16) - object->address;
            if (word == "peek") {
                where_ = {object, offset};
                return "byte " + hex_of({object->byte(offset)});
            }
            object->store(offset, bytes_of(asked[3]), line);
            return "done";
        }
        if (word == "copy") return copied(line, asked);
        std::string refused;
        Shared* named = named_by(number(asked[word == "alias" ? 3 : 2]), refused);
        if (!named) return refused;
        Object* object = named->get();
        if (word == "alias") {
            cells_[number(asked[2])] = *named;
            return "done";
        }
        if (word == "addr") return "at " + hex(object->address);
        if (word == "free") {
            starts_.erase(object->address);
            object->length = 0;
            object->chunks.clear();
            return "done";
        }
        uint64_t offset = number(asked[3]);
        uint64_t count = word == "put" ? asked[4].size() / 2 : number(asked[4]);
        if (object->is_outside(offset, count)) return "refused 7 OUTSIDE";
        if (word == "put") {
            object->store(offset, bytes_of(asked[4]), line);
            return "done";
        }
        where_ = {object, offset};
        return "bytes " + hex_of(object->load(offset, count));
    }

    std::string copied(uint32_t line, const Fields& asked) {
        auto to = cells_.find(number(asked[2])), from = cells_.find(number(asked[4]));
        if (to == cells_.end() || from == cells_.end()) return "refused 5 EMPTY";
        Object &into = *to->second, &out_of = *from->second;
        if (into.length == 0 || out_of.length == 0) return "refused 6 FREED";
        uint64_t to_offset = number(asked[3]), from_offset = number(asked[5]), count = number(asked[6]);
        if (into.is_outside(to_offset, count) || out_of.is_outside(from_offset, count)) return "refused 7 OUTSIDE";
        into.store(to_offset, out_of.load(from_offset, count), line);
        return "done";
    }

    Shared* named_by(uint64_t cell, std::string& refused) {
        auto found = cells_.find(cell);
        if (found == cells_.end()) refused = "refused 5 EMPTY";
        else if (found->second->length == 0) refused = "refused 6 FREED";
        else return &found->second;
        return nullptr;
    }

    Object* holding(uint64_t address) {
        auto behind = starts_.upper_bound(address);
        if (behind == starts_.begin()) return nullptr;
        Object* object = std::prev(behind)->second.get();
        return address < object->address + object->length ? object : nullptr;
    }

    static std::string differs(std::string_view answer, std::string_view wanted) {
        return "answer differs: " + std::string(answer) + ", wanted " + std::string(wanted);
    }

    /// The first byte in which a load differs from what is wanted, and where it was stored.
    std::string byte_of(std::string_view answer, const std::string& wanted) const {
        size_t space = wanted.find(' ') + 1;
        if (!where_.object || answer.substr(0, space) != wanted.substr(0, space)) return {};
        std::string_view one = answer.substr(space), other = std::string_view(wanted).substr(space);
        for (size_t i = 0; i + 1 < one.size() && i + 1 < other.size(); i += 2) {
            if (one.substr(i, 2) == other.substr(i, 2)) continue;
            uint64_t offset = where_.offset + i / 2;
            uint32_t line = where_.object->stored_at(offset);
            return "; byte " + std::to_string(offset) + (line ? " was last stored at line " + std::to_string(line) : " was never stored");
        }
        return {};
    }

    struct Where {
        const Object* object = nullptr;
        uint64_t offset = 0;
    };

    Where where_;
    Fields answered_;
    std::unordered_map<uint32_t, Shared> cells_;
    std::map<uint64_t, Shared> starts_;
    std::unordered_set<uint32_t> serials_;
};

int main(int count, char** words) {
    std::ios::sync_with_stdio(false);
    std::ifstream file(count == 2 ? words[1] : "");
    std::string text;
    if (!std::getline(file, text) || text != "history 1") {
        std::cerr << "no history\n";
        return 2;
    }
    Judge judge;
    Fields asked;
    uint32_t line = 1;
    while (std::getline(file, text)) {
        line++;
        size_t arrow = text.find(" -> ");
        cut(std::string_view(text).substr(0, arrow), asked);
        std::string reason = judge.take(line, asked, std::string_view(text).substr(arrow + 4));
        if (!reason.empty()) {
            std::cout << "line " << line << ": " << reason << "\n";
            return 3;
        }
    }
    std::cout << "legal " << line - 1 << " entries\n";
}
