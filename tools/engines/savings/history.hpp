// Reads the calls of a recorded history, and reports the first fault of its text (docs/FORMAT.md).
#pragma once

#include <algorithm>
#include <array>
#include <cstdint>
#include <cstdio>
#include <cstring>
#include <string>
#include <string_view>
#include <vector>

// Ends the run with an exit status and a line on standard error.
struct Stop {
    int status;
    std::string line;
};

// The first fault of a line.
struct LineFault {
    const char *kind;
};

// A `new` that was answered by an object, or a `free` or `alias` that was answered by `done`.
struct Call {
    enum { New, Free, Alias } kind;
    uint32_t cell;
    uint32_t from;    // of `alias`: the cell that is read
    uint64_t length;  // of `new`
};

// ---- Lines

class Lines {
public:
    explicit Lines(const char *path) : file(strcmp(path, "-") == 0 ? stdin : fopen(path, "rb")) {
        if (file == nullptr) throw Stop{1, "read fault"};
    }

    // Reads the next line, without its end; it is valid until the next call. Returns false at the end of the text.
    bool next(std::string_view &line) {
        for (;;) {
            const char *begin = &buffer[taken];
            const size_t length = std::min(filled - taken, LONGEST_LINE + 1);
            const char *end = static_cast<const char *>(memchr(begin, '\n', length));
            if (end != nullptr) {
                line = std::string_view(begin, end - begin);
                taken += line.size() + 1;
                count();
                return true;
            }
            const bool is_long = length > LONGEST_LINE;
            if (!is_long && read_more()) continue;
            if (length == 0 && number > 0) return false;
            count();
            throw LineFault{is_long ? "LONG_LINE" : "CUT"};
        }
    }

    // A message about the line that was read last. The first line is line 1.
    Stop stop(int status, const std::string &message) const {
        return {status, "line " + std::to_string(number) + ": " + message};
    }

private:
    static constexpr size_t LONGEST_LINE = 16384;
    static constexpr uint64_t MOST_LINES = 4294967295;

    void count() {
        if (number == MOST_LINES) throw Stop{2, "line 0: TOO_LONG"};
        number++;
    }

    // Moves what isn't taken yet to the front and reads more after it. Returns false at the end of the text.
    bool read_more() {
        memmove(&buffer[0], &buffer[taken], filled - taken);
        filled -= taken;
        taken = 0;
        const size_t read = fread(&buffer[filled], 1, buffer.size() - filled, file);
        if (ferror(file)) throw Stop{1, "read fault"};
        filled += read;
        return read > 0;
    }

    FILE *file;
    std::vector<char> buffer = std::vector<char>(1 << 20);
    size_t taken = 0;
    size_t filled = 0;
    uint64_t number = 0;
};

// ---- Fields

struct Fields {
    static constexpr size_t MOST = 35;

    std::array<std::string_view, MOST> field;
    size_t count = 0;

    void cut(std::string_view line) {
        bool is_faulty = false;
        size_t begin = 0;
        count = 0;
        for (size_t i = 0; i <= line.size(); i++) {
            const unsigned char byte = i < line.size() ? line[i] : ' ';
            if (byte > ' ' && byte <= '~') continue;
            if (byte != ' ') throw LineFault{"BYTE"};
            if (i == begin || count == MOST) is_faulty = true;
            else field[count++] = std::string_view(&line[begin], i - begin);
            begin = i + 1;
        }
        if (is_faulty) throw LineFault{"WORD"};
    }

    const std::string_view *begin() const { return field.data(); }
    const std::string_view *end() const { return field.data() + count; }
};

inline uint32_t digit_value(char byte) {
    if (byte >= '0' && byte <= '9') return byte - '0';
    return byte >= 'a' && byte <= 'f' ? byte - 'a' + 10 : 16;
}

// The number that the field spells, if it is in the range and the field is its only spelling.
inline uint64_t number_in(std::string_view field, uint64_t least, uint64_t most, uint32_t base = 10) {
    if (field[0] == '0' && field.size() > 1) throw LineFault{"NUMBER"};
    uint64_t number = 0;
    for (const char byte : field) {
        const uint32_t digit = digit_value(byte);
        if (digit >= base || number > (UINT64_MAX - digit) / base) throw LineFault{"NUMBER"};
        number = number * base + digit;
    }
    if (number < least || number > most) throw LineFault{"NUMBER"};
    return number;
}

inline void read_bytes(std::string_view field, size_t most) {
    const auto is_digit = [](char byte) { return digit_value(byte) < 16; };
    if (field.size() % 2 != 0 || field.size() > 2 * most || !std::all_of(field.begin(), field.end(), is_digit))
        throw LineFault{"HEX"};
}

// ---- Entries

// The spelling of a command or an answer: its word, and a letter for each field after it.
struct Form {
    std::string_view word;
    std::string_view fields;
};

// n: a number of 32 bits, s: a length or an offset of up to 2^47, w: a number of 64 bits, c: 1 to 4,096, a: ADDR, h: HEX,
// b: BYTE, @: the word `at`, r: the number of a refusal, whose name is the next field, .: that name.
constexpr Form COMMANDS[] = {{"new", "nsw"}, {"free", "n"}, {"alias", "nn"}, {"put", "nsh"},   {"get", "nsc"},
                             {"addr", "n"},  {"peek", "a"}, {"poke", "ab"},  {"copy", "nsnsc"}};
constexpr Form ANSWERS[] = {{"done", ""},   {"object", "n@a"}, {"bytes", "h"},
                            {"byte", "b"}, {"at", "a"},       {"refused", "r."}};
constexpr std::string_view REFUSALS[] = {"ZERO",    "TOO_LARGE", "NO_PAGES", "NO_ADDRESSES", "EMPTY",    "FREED",
                                         "OUTSIDE", "STRAY",     "NO_GROUP", "SAME",         "CLASS",    "BUSY",
                                         "OVERLAP", "MEMBERS",   "NO_MESH",  "TOO_LATE",     "NOT_EMPTY"};

// Reads fields as one of these forms, and stores their numbers, lengths and offsets.
template <size_t N>
const Form &read_form(const Form (&forms)[N], const std::string_view *begin, const std::string_view *end,
                      uint64_t *numbers) {
    constexpr uint64_t MOST_NUMBER = 4294967295, MOST_SIZE = uint64_t{1} << 47, MOST_ADDRESS = 281474976710655,
                       MOST_BYTES = 4096;
    if (begin == end) throw LineFault{"WORD"};
    const std::string_view word = *begin++;
    const Form *form = std::find_if(forms, forms + N, [&](const Form &f) { return f.word == word; });
    if (form == forms + N || form->fields.size() != static_cast<size_t>(end - begin)) throw LineFault{"WORD"};
    for (const char kind : form->fields) {
        const std::string_view field = *begin++;
        switch (kind) {
        case 'n': *numbers++ = number_in(field, 0, MOST_NUMBER); break;
        case 's': *numbers++ = number_in(field, 0, MOST_SIZE); break;
        case 'w': number_in(field, 0, UINT64_MAX); break;
        case 'c': number_in(field, 1, MOST_BYTES); break;
        case 'a': number_in(field, 0, MOST_ADDRESS, 16); break;
        case 'h': read_bytes(field, MOST_BYTES); break;
        case 'b': read_bytes(field, 1); break;
        case '@':
            if (field != "at") throw LineFault{"WORD"};
            break;
        case 'r':
            if (REFUSALS[number_in(field, 1, std::size(REFUSALS)) - 1] != *begin) throw LineFault{"WORD"};
            break;
        }
    }
    return *form;
}

class History {
public:
    explicit History(const char *path) : lines(path) {}

    // Reads the next call and skips all other entries. Returns false at the end of the text.
    bool next(Call &call) {
        try {
            std::string_view line;
            while (lines.next(line)) {
                fields.cut(line);
                if (!has_begun) read_head();
                else if (read_entry(call)) return true;
            }
            return false;
        } catch (const LineFault &fault) {
            throw lines.stop(2, fault.kind);
        }
    }

    // A message about the line of the last call.
    Stop stop(int status, const std::string &message) const { return lines.stop(status, message); }

private:
    void read_head() {
        if (*fields.begin() != "history" || fields.count != 2) throw LineFault{"WORD"};
        number_in(fields.field[1], 1, 1);
        has_begun = true;
    }

    static uint32_t cell_in(uint64_t number) { return static_cast<uint32_t>(number); }

    // Reads an entry, `W COMMAND -> ANSWER`. Returns whether it is a call.
    bool read_entry(Call &call) {
        const std::string_view *arrow = std::find(fields.begin(), fields.end(), "->");
        if (arrow == fields.end() || arrow - fields.begin() < 2) throw LineFault{"WORD"};
        number_in(*fields.begin(), 0, 65535);
        uint64_t asked[4], told[1];
        const Form &command = read_form(COMMANDS, fields.begin() + 1, arrow, asked);
        const Form &answer = read_form(ANSWERS, arrow + 1, fields.end(), told);
        if (command.word == "new" && answer.word == "object") call = {Call::New, cell_in(asked[0]), 0, asked[1]};
        else if (command.word == "free" && answer.word == "done") call = {Call::Free, cell_in(asked[0]), 0, 0};
        else if (command.word == "alias" && answer.word == "done")
            call = {Call::Alias, cell_in(asked[0]), cell_in(asked[1]), 0};
        else return false;
        return true;
    }

    Lines lines;
    Fields fields;
    bool has_begun = false;
};
