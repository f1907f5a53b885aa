// Reference engine for `meshrun savings`: replays a recorded history on two heaps, one of which meshes, and compares
// their physical pages.
//
//     g++ -O2 -std=c++17 -o reference reference.cpp
//     ./reference FILE [--every F | --share K] [--members M] [--probe T] [--seed S | --first-fit] [--from CALL]
//                 [--to CALL] [--csv] [--addresses N]
//
// It is plain C++ and shares no code with the program. tools/gen/savings_golden.sh writes the golden files in
// histories/savings with it, and tools/bench/savings.sh compares the program's speed with its. It needs a C++17
// compiler.
//
// FILE is a recorded history (docs/FORMAT.md); `-` is standard input. A call is a `new` that was answered by an object,
// or a `free` or `alias` that was answered by `done`; all other entries are skipped. Both heaps make each call. They
// follow the rules of this heap, with unlimited physical pages. Objects above 2,048 bytes are in neither of them; an
// object of 0 bytes is made as one of 1 byte. A small object is one of up to 2,048 bytes.
//
//     --every F        a round follows every F-th `free` of a small object; 1 to 4294967295
//     --share K        a round follows a `free` of a small object if the frees of small objects since the last round
//                      are at least 64 and, times K, at least the live small objects; 1 to 1000; the default, with 8.
//                      A usage error with --every
//     --members M      a mesh is refused if its groups have more than M members together; 1 to 64, default 8
//     --probe T        a search makes at most T rounds of tries; 0 to 64, default 64
//     --seed S         seed of the words of `new`: one for each small object, the same in both heaps. The words of the
//                      shuffles have the seed S + 1 (modulo 2^64): in each round and class, as many as there are
//                      candidates. 0 to 18446744073709551615, default 1
//     --first-fit      the words of `new` are all 0; those of the shuffles have the seed 2
//     --from, --to     the calls from --from to --to are measured, counted from 1; 1 to 4294967295, default all calls;
//                      a usage error if --from is above --to
//     --csv            print intervals of the measured calls instead of the table
//     --addresses N    for tests: the number of virtual pages; 1 to 65535, default 65535
//
// In a round both heaps sweep every group without an object. Then the meshing heap searches each class, smallest first,
// and meshes the pairs found, in order. The heaps are measured once per call, after its round if it has one. Of each
// measured call there are these numbers:
//
//     without, with    physical pages of the groups that hold an object, in the heap that doesn't mesh and in the other
//     perfect          the sum over the classes of ceil(live objects / slots) times the pages of a span
//     live             ceil(bytes of the live small objects / 4096)
//     large            the sum over the live objects above 2,048 bytes of ceil(length / 4096)
//     empty_without, empty_with    physical pages of the groups that hold no object
//
// The table, as printf formats (%u and %d of 64 bits):
//
//     "calls %u  objects at most %u  above 2048: %u, not meshed\n"
//     "pages              without     with  saved  perfect  live bytes  above 2048  of all\n"
//     "%-17s%9u%9u %6s%9u%12u%12u %7s\n"        for `peak`, `mean of calls`, `most live` and `end`
//     "most saved  %d of %u pages (%s) at call %u, live bytes %u"      or "most saved  -"
//     "  most live at call %u\n"                 or "  most live  -\n"
//     "empty spans  peak %u -> %u  mean %u -> %u  end %u -> %u\n"
//     "meshes %u  refused %u  copied %u.%u MB  rounds %u  tries %u  virtual pages %u\n"
//     "class %-6umean %5u -> %5u  perfect %5u  end %5u -> %5u  perfect %5u\n"
//
// - The first line and the line `meshes` cover all calls. `objects` are live small objects. `above 2048` is the number
//   of larger objects made.
// - `peak` is the maximum of each number on its own. `mean of calls` is its sum divided by the number of measured
//   calls, rounded half up. `most live` has the numbers after the first measured call at which the bytes of the live
//   small objects were greatest, `end` those after the last measured call. All are 0 if no call was measured.
// - A percentage is 100 * (without - with) / without, with one decimal and `%`. The magnitude is rounded half up. The
//   sign is `-` if `with` is above `without` and the magnitude isn't 0.0. It is `-` alone if `without` is 0.
// - `saved` is the percentage of the two numbers printed on the line. `of all` is that of without + large and with +
//   large; in `peak` and `mean of calls` the maximum and the mean of these sums.
// - `most saved` is the maximum of (without - with), and `without` and `live` after the first call that has it. It is
//   `-` if the maximum isn't above 0.
// - `refused` counts pairs with too many members together, `tries` comparisons of two groups in searches. `copied` is
//   the bytes of the objects that meshes moved, divided by 10^6, with one decimal, rounded half up.
// - Each class that ever held an object has a line, even if it held none from --from to --to. `a -> b  perfect c` is
//   without, with and perfect.
//
// With --csv, a line of names, and then a line for each interval of the measured calls: its last call, the seven
// numbers after this call, and the least and the greatest `without` and `with` over its calls. The intervals have one
// call each. When a call would begin the 601st, neighbours are joined, and from then on an interval has twice as many
// calls.
//
// The status is 0, or there is one line on standard error:
//
//     1    `read fault`, `write fault`, `out of memory`
//     2    `line L: KIND`: the first fault of the text
//     2    `line L: not a history`: a `free` or `alias` of a cell that holds no live object
//     4    `addresses used up at call N`: one of the heaps has too few virtual pages left for this `new`. The output is
//          that of the calls before it; the rest of the file isn't read
//     2    the usage
//     9    `bounds broken at call N`: a fault of this engine: not live <= perfect <= without, `perfect` above `with`,
//          or a group without an object behind a round
//
// With any of these except used up addresses and a write fault, nothing is printed to standard output.

#include "heap.hpp"
#include "history.hpp"

#include <cinttypes>
#include <memory>
#include <new>

namespace {

using Wide = unsigned __int128;

struct Options {
    const char *path = nullptr;
    uint64_t every = 0;  // 0: rounds by `share`
    uint64_t share = 8;
    uint64_t members = 8;
    uint64_t probe = 64;
    uint64_t seed = 1;
    bool is_first_fit = false;
    uint64_t from = 1;
    uint64_t to = 4294967295;
    bool is_csv = false;
    uint64_t addresses = MOST_ADDRESSES;
};

// ---- What is measured

// The numbers after a call.
struct Sample {
    uint64_t without = 0, with = 0, perfect = 0, live = 0, large = 0, empty_without = 0, empty_with = 0;
};

uint64_t rounded_mean(Wide sum, uint64_t count) { return count == 0 ? 0 : (2 * sum + count) / (2 * Wide{count}); }

// The sum and the maximum of a number over the measured calls.
struct Column {
    Wide sum = 0;
    uint64_t peak = 0;

    void add(uint64_t number) {
        sum += number;
        peak = std::max(peak, number);
    }
};

struct Columns {
    Column without, with, perfect, live, large, all_without, all_with, empty_without, empty_with;

    void add(const Sample &sample) {
        without.add(sample.without);
        with.add(sample.with);
        perfect.add(sample.perfect);
        live.add(sample.live);
        large.add(sample.large);
        all_without.add(sample.without + sample.large);
        all_with.add(sample.with + sample.large);
        empty_without.add(sample.empty_without);
        empty_with.add(sample.empty_with);
    }
};

// A number of pages that few calls change.
class Level {
public:
    // Sets the number after `measured` calls were measured with the one before.
    void set(uint64_t next, uint64_t measured) {
        sum += pages * (measured - begin);
        begin = measured;
        pages = next;
    }

    // The number after the last of `measured` calls.
    uint64_t end(uint64_t measured) const { return measured == 0 ? 0 : pages; }

    uint64_t mean(uint64_t measured) const { return rounded_mean(sum + pages * (measured - begin), measured); }

private:
    uint64_t pages = 0;
    uint64_t begin = 0;  // measured calls before the number had this value
    uint64_t sum = 0;    // over these calls
};

struct ClassFigures {
    bool is_used = false;  // it has held an object
    uint64_t live = 0;     // objects
    uint64_t perfect_pages = 0;
    Level without, with, perfect;
};

// The maximum of (without - with) above 0, and the first call that has it.
struct MostSaved {
    uint64_t pages = 0, without = 0, live = 0, call = 0;
};

// The greatest number of bytes of live small objects, and the first measured call that has it.
struct MostLive {
    uint64_t bytes = 0, call = 0;
    Sample sample;
};

uint64_t whole_pages(uint64_t bytes) { return (bytes + 4095) / 4096; }

// The percentage of pages saved, as printed.
std::string saved(uint64_t without, uint64_t with) {
    if (without == 0) return "-";
    const uint64_t difference = without > with ? without - with : with - without;
    const uint64_t tenths = (Wide{2000} * difference + without) / (2 * Wide{without});
    const std::string sign = with > without && tenths > 0 ? "-" : "";
    return sign + std::to_string(tenths / 10) + "." + std::to_string(tenths % 10) + "%";
}

// ---- Intervals

struct Interval {
    uint64_t call;  // the last one
    Sample last;
    uint64_t without_least, without_most, with_least, with_most;

    Interval(uint64_t call, const Sample &sample)
        : call(call), last(sample), without_least(sample.without), without_most(sample.without),
          with_least(sample.with), with_most(sample.with) {}

    void append(const Interval &next) {
        call = next.call;
        last = next.last;
        without_least = std::min(without_least, next.without_least);
        without_most = std::max(without_most, next.without_most);
        with_least = std::min(with_least, next.with_least);
        with_most = std::max(with_most, next.with_most);
    }
};

// At most 600 intervals of equally many calls. The last may have fewer.
class Intervals {
public:
    void add(uint64_t call, const Sample &sample) {
        if (in_last < width && !list.empty()) {
            list.back().append({call, sample});
            in_last++;
            return;
        }
        if (list.size() == MOST) join();
        list.emplace_back(call, sample);
        in_last = 1;
    }

    void print() const {
        printf("call,without,with,perfect,live,large,empty_without,empty_with,without_least,without_most,with_least,"
               "with_most\n");
        for (const Interval &interval : list) {
            const Sample &last = interval.last;
            const uint64_t numbers[] = {interval.call,         last.without,         last.with,
                                        last.perfect,          last.live,            last.large,
                                        last.empty_without,    last.empty_with,      interval.without_least,
                                        interval.without_most, interval.with_least, interval.with_most};
            const char *separator = "";
            for (const uint64_t number : numbers) {
                printf("%s%" PRIu64, separator, number);
                separator = ",";
            }
            printf("\n");
        }
    }

private:
    static constexpr size_t MOST = 600;

    void join() {
        for (size_t i = 0; i < MOST / 2; i++) {
            list[i] = list[2 * i];
            list[i].append(list[2 * i + 1]);
        }
        list.erase(list.begin() + MOST / 2, list.end());
        width *= 2;
    }

    std::vector<Interval> list;
    uint64_t width = 1;    // calls of an interval
    uint64_t in_last = 0;  // calls of the last interval
};

// ---- Cells

struct Object {
    uint64_t length;
    bool is_live;
    Place without, with;
};

// The number of the object that each cell refers to. Memory is allocated for 4,096 cells at a time.
class Cells {
public:
    static constexpr uint32_t NOTHING = UINT32_MAX;

    void give(uint32_t cell, uint32_t object) {
        auto &block = blocks[cell / BLOCK];
        if (!block) {
            block.reset(new uint32_t[BLOCK]);
            std::fill_n(block.get(), BLOCK, NOTHING);
        }
        block[cell % BLOCK] = object;
    }

    uint32_t get(uint32_t cell) const {
        const auto &block = blocks[cell / BLOCK];
        return block ? block[cell % BLOCK] : NOTHING;
    }

private:
    static constexpr uint32_t BLOCK = 4096;

    std::vector<std::unique_ptr<uint32_t[]>> blocks = std::vector<std::unique_ptr<uint32_t[]>>(1 << 20);
};

// ---- The run

class Savings {
public:
    explicit Savings(const Options &options)
        : options(options), without(options.addresses, options.members), with(options.addresses, options.members),
          new_words(options.seed), shuffle_words(options.seed + 1) {}

    uint64_t calls = 0;

    enum Outcome { Made, NoObject, NoAddresses };

    // Makes a call in both heaps and measures them. Changes nothing if the call can't be made.
    Outcome make(const Call &call) {
        if (call.kind == Call::New) {
            if (!add(call.length)) return NoAddresses;
            cells.give(call.cell, objects.size() - 1);
        } else {
            const uint32_t object = cells.get(call.kind == Call::Alias ? call.from : call.cell);
            if (object == Cells::NOTHING || !objects[object].is_live) return NoObject;
            if (call.kind == Call::Alias) cells.give(call.cell, object);
            else remove(objects[object]);
        }
        calls++;
        const Sample now = sample();
        if (now.live > now.perfect || now.perfect > now.without || now.perfect > now.with) throw broken(calls);
        if (options.from <= calls && calls <= options.to) measure(now);
        return Made;
    }

    void print() const {
        if (options.is_csv) intervals.print();
        else print_table();
    }

private:
    // Makes an object of this length. Returns false, and changes nothing, if a heap has no room for it.
    bool add(uint64_t asked) {
        const uint64_t length = std::max<uint64_t>(asked, 1);
        Object object{length, true, {}, {}};
        if (length > LONGEST) {
            large_objects++;
            large_pages += whole_pages(length);
        } else {
            const uint32_t size_class = class_of(length);
            if (!without.has_room(size_class) || !with.has_room(size_class)) return false;
            const uint64_t word = options.is_first_fit ? 0 : new_words.next();
            object.without = without.make(size_class, length, word);
            object.with = with.make(size_class, length, word);
            live_bytes += length;
            most_objects = std::max(most_objects, ++live_objects);
            classes[size_class].is_used = true;
            set_live(size_class, classes[size_class].live + 1);
            set_levels(size_class);
        }
        objects.push_back(object);
        return true;
    }

    void remove(Object &object) {
        object.is_live = false;
        if (object.length > LONGEST) {
            large_pages -= whole_pages(object.length);
            return;
        }
        const uint32_t size_class = class_of(object.length);
        without.free(object.without, object.length);
        with.free(object.with, object.length);
        live_bytes -= object.length;
        live_objects--;
        set_live(size_class, classes[size_class].live - 1);
        set_levels(size_class);
        since++;
        if (is_due()) make_round();
    }

    void set_live(uint32_t size_class, uint64_t live) {
        const SizeClass &row = CLASSES[size_class];
        ClassFigures &figures = classes[size_class];
        perfect_pages -= figures.perfect_pages;
        figures.live = live;
        figures.perfect_pages = (live + row.slots - 1) / row.slots * row.pages;
        perfect_pages += figures.perfect_pages;
    }

    // Sets the levels of a class to its pages, unless the calls that are measured are over.
    void set_levels(uint32_t size_class) {
        if (calls >= options.to) return;
        ClassFigures &figures = classes[size_class];
        figures.without.set(without.class_pages[size_class], measured);
        figures.with.set(with.class_pages[size_class], measured);
        figures.perfect.set(figures.perfect_pages, measured);
    }

    // Whether a round follows the `free` of a small object.
    bool is_due() const {
        if (options.every > 0) return since == options.every;
        return since >= LEAST_FREES && since * options.share >= live_objects;
    }

    void make_round() {
        since = 0;
        rounds++;
        without.sweep();
        with.sweep();
        with.mesh(options.probe, shuffle_words);
        if (without.empty_pages != 0 || with.empty_pages != 0) throw broken(calls + 1);
        for (uint32_t i = 0; i < CLASSES.size(); i++) set_levels(i);
    }

    static Stop broken(uint64_t call) { return {9, "bounds broken at call " + std::to_string(call)}; }

    Sample sample() const {
        return {without.pages, with.pages,          perfect_pages,   whole_pages(live_bytes),
                large_pages,   without.empty_pages, with.empty_pages};
    }

    void measure(const Sample &now) {
        measured++;
        columns.add(now);
        end = now;
        if (now.without > now.with + most_saved.pages)
            most_saved = {now.without - now.with, now.without, now.live, calls};
        if (measured == 1 || live_bytes > most_live.bytes) most_live = {live_bytes, calls, now};
        if (options.is_csv) intervals.add(calls, now);
    }

    uint64_t mean(const Column &column) const { return rounded_mean(column.sum, measured); }

    void print_table() const {
        printf("calls %" PRIu64 "  objects at most %" PRIu64 "  above 2048: %" PRIu64 ", not meshed\n", calls,
               most_objects, large_objects);
        printf("pages              without     with  saved  perfect  live bytes  above 2048  of all\n");
        const Columns &c = columns;
        print_row("peak", {c.without.peak, c.with.peak, c.perfect.peak, c.live.peak, c.large.peak},
                  c.all_without.peak, c.all_with.peak);
        print_row("mean of calls", {mean(c.without), mean(c.with), mean(c.perfect), mean(c.live), mean(c.large)},
                  mean(c.all_without), mean(c.all_with));
        print_row("most live", most_live.sample);
        print_row("end", end);
        print_most();
        printf("empty spans  peak %" PRIu64 " -> %" PRIu64 "  mean %" PRIu64 " -> %" PRIu64 "  end %" PRIu64
               " -> %" PRIu64 "\n",
               c.empty_without.peak, c.empty_with.peak, mean(c.empty_without), mean(c.empty_with), end.empty_without,
               end.empty_with);
        const uint64_t tenths = (with.copied + 50000) / 100000;
        printf("meshes %" PRIu64 "  refused %" PRIu64 "  copied %" PRIu64 ".%" PRIu64 " MB  rounds %" PRIu64
               "  tries %" PRIu64 "  virtual pages %" PRIu32 "\n",
               with.meshes, with.refused, tenths / 10, tenths % 10, rounds, with.tries, with.addresses_used);
        for (size_t i = 0; i < CLASSES.size(); i++)
            if (classes[i].is_used) print_class(CLASSES[i].size, classes[i]);
    }

    static void print_row(const char *name, const Sample &row, uint64_t all_without, uint64_t all_with) {
        printf("%-17s%9" PRIu64 "%9" PRIu64 " %6s%9" PRIu64 "%12" PRIu64 "%12" PRIu64 " %7s\n", name, row.without,
               row.with, saved(row.without, row.with).c_str(), row.perfect, row.live, row.large,
               saved(all_without, all_with).c_str());
    }

    static void print_row(const char *name, const Sample &row) {
        print_row(name, row, row.without + row.large, row.with + row.large);
    }

    void print_most() const {
        if (most_saved.pages == 0)
            printf("most saved  -");
        else
            printf("most saved  %" PRIu64 " of %" PRIu64 " pages (%s) at call %" PRIu64 ", live bytes %" PRIu64,
                   most_saved.pages, most_saved.without,
                   saved(most_saved.without, most_saved.without - most_saved.pages).c_str(), most_saved.call,
                   most_saved.live);
        if (measured == 0)
            printf("  most live  -\n");
        else
            printf("  most live at call %" PRIu64 "\n", most_live.call);
    }

    void print_class(uint32_t size, const ClassFigures &figures) const {
        printf("class %-6" PRIu32 "mean %5" PRIu64 " -> %5" PRIu64 "  perfect %5" PRIu64 "  end %5" PRIu64
               " -> %5" PRIu64 "  perfect %5" PRIu64 "\n",
               size, figures.without.mean(measured), figures.with.mean(measured), figures.perfect.mean(measured),
               figures.without.end(measured), figures.with.end(measured), figures.perfect.end(measured));
    }

    static constexpr uint64_t LEAST_FREES = 64;  // between two rounds with --share

    const Options &options;
    Heap without, with;
    Words new_words, shuffle_words;
    Cells cells;
    std::vector<Object> objects;  // in order of creation
    uint64_t live_objects = 0, most_objects = 0, live_bytes = 0, perfect_pages = 0;
    uint64_t large_objects = 0, large_pages = 0;
    uint64_t since = 0;  // frees of small objects since the last round
    uint64_t rounds = 0;
    uint64_t measured = 0;  // calls from --from to --to
    Columns columns;
    Sample end;
    MostSaved most_saved;
    MostLive most_live;
    Intervals intervals;
    std::array<ClassFigures, CLASSES.size()> classes;
};

// ---- The program

Options options_of(int count, char **words) {
    const Stop usage{2, "usage: reference FILE [--every F | --share K] [--members M] [--probe T] "
                        "[--seed S | --first-fit] [--from CALL] [--to CALL] [--csv]"};
    struct Number {
        std::string_view name;
        uint64_t least, most;
        uint64_t Options::*value;
    };
    static constexpr Number NUMBERS[] = {{"--every", 1, UINT32_MAX, &Options::every},
                                         {"--share", 1, 1000, &Options::share},
                                         {"--members", 1, MOST_MEMBERS, &Options::members},
                                         {"--probe", 0, 64, &Options::probe},
                                         {"--seed", 0, UINT64_MAX, &Options::seed},
                                         {"--from", 1, UINT32_MAX, &Options::from},
                                         {"--to", 1, UINT32_MAX, &Options::to},
                                         {"--addresses", 1, MOST_ADDRESSES, &Options::addresses}};
    Options options;
    std::vector<std::string_view> given;
    const auto is_given = [&](std::string_view word) {
        return std::find(given.begin(), given.end(), word) != given.end();
    };
    for (int i = 1; i < count; i++) {
        const std::string_view word = words[i];
        const auto has_word = [&](const Number &number) { return number.name == word; };
        const Number *number = std::find_if(std::begin(NUMBERS), std::end(NUMBERS), has_word);
        if (is_given(word)) throw usage;
        if (number != std::end(NUMBERS)) {
            if (++i == count || *words[i] == '\0') throw usage;
            try {
                options.*number->value = number_in(words[i], number->least, number->most);
            } catch (const LineFault &) {
                throw usage;
            }
        } else if (word == "--first-fit") {
            options.is_first_fit = true;
        } else if (word == "--csv") {
            options.is_csv = true;
        } else if (options.path == nullptr && (word == "-" || word.substr(0, 1) != "-")) {
            options.path = words[i];
        } else {
            throw usage;
        }
        given.push_back(word);
    }
    if (options.path == nullptr || (is_given("--seed") && options.is_first_fit) ||
        (is_given("--every") && is_given("--share")) || options.from > options.to)
        throw usage;
    return options;
}

void run(const Options &options) {
    History history(options.path);
    Savings savings(options);
    Savings::Outcome outcome = Savings::Made;
    Call call;
    while (outcome == Savings::Made && history.next(call)) outcome = savings.make(call);
    if (outcome == Savings::NoObject) throw history.stop(2, "not a history");
    savings.print();
    if (fflush(stdout) != 0) throw Stop{1, "write fault"};
    if (outcome == Savings::NoAddresses)
        throw Stop{4, "addresses used up at call " + std::to_string(savings.calls + 1)};
}

}  // namespace

int main(int count, char **words) {
    try {
        run(options_of(count, words));
        return 0;
    } catch (const Stop &stop) {
        fprintf(stderr, "%s\n", stop.line.c_str());
        return stop.status;
    } catch (const std::bad_alloc &) {
        fprintf(stderr, "out of memory\n");
        return 1;
    }
}
