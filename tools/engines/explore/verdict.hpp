// A verdict of the reference engine on the listing of an exploration: conditions on its outcomes, and a comparison with
// the lines of another listing. docs/EXPLORE.md describes both.

#pragma once
#include <algorithm>
#include <fstream>
#include <map>
#include <regex>
#include <set>
#include <string>
#include <utility>
#include <vector>

typedef std::vector<std::string> Lines;

// The names of the refusals, by number.
static const char *NM[] = {"",      "ZERO",    "TOO_LARGE", "NO_PAGES", "NO_ADDRESSES", "EMPTY",
                           "FREED", "OUTSIDE", "STRAY",     "NO_GROUP", "SAME",         "CLASS",
                           "BUSY",  "OVERLAP", "MEMBERS",   "NO_MESH",  "TOO_LATE",     "NOT_EMPTY"};

// A fault: its line on standard error, and the status.
struct Fault {
    std::string line;
    int status;
};

// An outcome of a listing. A worker without an answer has no line, and isn't in `answers`.
struct Outcome {
    std::map<unsigned, Lines> answers;
    Lines workers; // its lines `  worker W: ..`
    std::string end;
    Lines lines; // all of its lines, as the listing has them
};

// A listing. An entry of the table is a command's line and the line of one of its answers, or the command's line alone.
struct Listing {
    std::string counts;
    std::vector<std::pair<std::string, Lines>> table; // each command's line, and the lines of its answers
    std::vector<Outcome> outcomes;

    std::vector<Lines> entries() const {
        std::vector<Lines> found;
        for (auto &command : table) {
            for (auto &answer : command.second)
                found.push_back({command.first, answer});
            if (command.second.empty())
                found.push_back({command.first});
        }
        return found;
    }
};

bool begins(const std::string &text, const std::string &with) {
    return text.compare(0, with.size(), with) == 0;
}

// The parts of a text between separators, one or more.
Lines parts(const std::string &text, const std::string &separator) {
    Lines found;
    size_t from = 0, to;
    while ((to = text.find(separator, from)) != std::string::npos) {
        found.push_back(text.substr(from, to - from));
        from = to + separator.size();
    }
    found.push_back(text.substr(from));
    return found;
}

std::string text_of(const Lines &lines) {
    std::string text;
    for (auto &line : lines)
        text += line + "\n";
    return text;
}

// Conditions.

struct Clause {
    unsigned worker;
    Lines answers;
};

struct Condition {
    std::string name; // `never 1`: its option without the dashes, and its number within this option
    std::vector<Clause> clauses;

    bool is(const std::string &option) const { return begins(name, option + " "); }
};

// Reads `worker W: ANSWER | ANSWER ..` or `W: ANSWER | ANSWER ..`. Returns whether the text has this form. An ANSWER is
// any text without `|`, `&` and colon, which needn't be spelt as an answer.
bool read_clause(std::string text, Clause &clause) {
    if (begins(text, "worker "))
        text.erase(0, 7);
    static const std::regex FORM("(0|[1-9][0-9]?): ([^:&]+)");
    std::smatch found;
    if (!std::regex_match(text, found, FORM))
        return false;
    clause.worker = std::stoul(found[1]);
    clause.answers = parts(found[2], " | ");
    for (auto &answer : clause.answers)
        if (answer.empty() || answer.find('|') != std::string::npos)
            return false;
    return clause.worker < 64;
}

// The condition of this name. Throws a fault if the text is no condition.
Condition condition(const std::string &name, const std::string &text) {
    Condition read{name, {}};
    for (auto &part : parts(text, " & ")) {
        read.clauses.emplace_back();
        if (!read_clause(part, read.clauses.back()))
            throw Fault{"--" + name + ": no condition 'W: ANSWER | ..'", 2};
    }
    return read;
}

// Whether a text is spelt as an answer.
bool is_spelt(const std::string &text) {
    static const std::regex FORM("done|bytes ([0-9a-f]{2}){1,32}|byte [0-9a-f]{2}|"
                                 "(object (0|[1-9][0-9]{0,9}) )?at (0|[1-9a-f][0-9a-f]{0,6})");
    for (int number = 1; number <= 17; number++)
        if (text == "refused " + std::to_string(number) + " " + NM[number])
            return true;
    return std::regex_match(text, FORM);
}

// Whether some answer begins with a text.
bool begins_answer(const std::string &text) {
    static const std::regex FORM("(d(o(ne?)?)?)?|b(y(t(e(s( [0-9a-f]{0,64})?| [0-9a-f]{0,2})?)?)?)?|"
                                 "o(b(j(e(ct?)?)?)?)?|object ((0|[1-9][0-9]{0,9})( a?)?)?|"
                                 "(object (0|[1-9][0-9]{0,9}) )?(a|at|at (0|[1-9a-f][0-9a-f]{0,6})?)");
    for (int number = 1; number <= 17; number++)
        if (begins("refused " + std::to_string(number) + " " + NM[number], text))
            return true;
    return std::regex_match(text, FORM);
}

// Whether a text is spelt as an answer, or is the beginning of one and a star.
bool is_answer(const std::string &text) {
    return is_spelt(text) || (text.back() == '*' && begins_answer(text.substr(0, text.size() - 1)));
}

// Throws the first fault of a condition in a job whose workers have so many commands left.
void check(const Condition &condition, const std::vector<size_t> &commands_left) {
    for (auto &clause : condition.clauses) {
        std::string fault;
        if (clause.worker >= commands_left.size())
            fault = "the job has no such worker";
        else if (!std::all_of(clause.answers.begin(), clause.answers.end(), is_answer))
            fault = "no command has such an answer";
        else if (clause.answers.size() > commands_left[clause.worker])
            fault = "more answers than commands";
        if (!fault.empty())
            throw Fault{"--" + condition.name + ": " + fault, 2};
    }
}

// Whether an answer is the same, or begins as the pattern does before its star.
bool answer_matches(const std::string &pattern, const std::string &answer) {
    if (pattern == "*" || pattern == answer)
        return true;
    return pattern.back() == '*' && begins(answer, pattern.substr(0, pattern.size() - 1));
}

// The worker's answers in an outcome.
Lines answers_of(const Outcome &outcome, unsigned worker) {
    auto found = outcome.answers.find(worker);
    return found == outcome.answers.end() ? Lines{} : found->second;
}

bool holds(const Clause &clause, const Outcome &outcome) {
    Lines answers = answers_of(outcome, clause.worker);
    return std::equal(clause.answers.begin(), clause.answers.end(), answers.begin(), answers.end(), answer_matches);
}

bool matches(const Condition &condition, const Outcome &outcome) {
    return std::all_of(condition.clauses.begin(), condition.clauses.end(),
                       [&](const Clause &clause) { return holds(clause, outcome); });
}

// The end of a condition's line: the first of its answers that matches in no outcome at its place.
std::string answer_of_none(const Condition &condition, const Listing &listing) {
    for (auto &clause : condition.clauses)
        for (size_t place = 0; place < clause.answers.size(); place++) {
            bool found = false;
            for (auto &outcome : listing.outcomes) {
                Lines answers = answers_of(outcome, clause.worker);
                found |= place < answers.size() && answer_matches(clause.answers[place], answers[place]);
            }
            if (!found)
                return "; no outcome has answer " + std::to_string(place + 1) + " of worker " +
                       std::to_string(clause.worker);
        }
    return "";
}

// The expected listing.

// The lines of an expected outcome. `read` is set by its line `end:` or `plan:`, behind which no worker belongs to it.
struct Block {
    Lines workers, ends;
    bool read;

    // The lines that are compared and printed, in the order of the workers' numbers.
    Lines lines() const {
        auto number = [](const std::string &line) { return std::strtoul(line.c_str() + 9, nullptr, 10); };
        Lines sorted = workers;
        std::stable_sort(sorted.begin(), sorted.end(), [&](auto &a, auto &b) { return number(a) < number(b); });
        sorted.insert(sorted.end(), ends.begin(), ends.end());
        return sorted;
    }
    bool is(const Outcome &outcome) const {
        return std::is_permutation(workers.begin(), workers.end(), outcome.workers.begin(), outcome.workers.end()) &&
               std::all_of(ends.begin(), ends.end(), [&](auto &end) { return end == outcome.end; });
    }
};

struct Expected {
    bool table = false; // whether there is a command's line
    std::vector<Lines> entries;
    std::vector<Block> blocks;
};

Expected read_expected(std::istream &file) {
    Expected read;
    bool in_block = false, in_command = false, answered = false;
    std::string command, line;
    auto close = [&] {
        if (in_command && !answered)
            read.entries.push_back({command});
        in_block = in_command = answered = false;
    };
    auto open_block = [&] {
        close();
        in_block = true;
        read.blocks.emplace_back(Block{});
    };
    for (int number = 1; std::getline(file, line); number++) {
        std::string name = "--expect: line " + std::to_string(number) + ": ";
        if (line.find('\r') != std::string::npos)
            throw Fault{name + "a carriage return", 2};
        if (line.empty() || begins(line, "interleavings "))
            close();
        else if (begins(line, "worker ")) {
            close();
            read.table = in_command = true;
            command = line;
        } else if (begins(line, "outcome"))
            open_block();
        else if (begins(line, "  worker ")) {
            if (!in_block || read.blocks.back().read)
                open_block();
            read.blocks.back().workers.push_back(line);
        } else if (in_block && begins(line, "  end:")) {
            read.blocks.back().ends.push_back(line);
            read.blocks.back().read = true;
        } else if (in_block && begins(line, "  plan:"))
            read.blocks.back().read = true;
        else if (in_command && begins(line, "  ") && !begins(line, "  end:") && !begins(line, "  plan:")) {
            read.entries.push_back({command, line});
            answered = true;
        } else
            throw Fault{name + "no line of a listing", 2};
    }
    close();
    if (!read.table && read.blocks.empty())
        throw Fault{"--expect: no outcome is listed", 2};
    return read;
}

// A heading and its lines, unless they are there already.
void add_once(Lines &texts, const std::string &heading, const Lines &lines) {
    std::string text = heading + "\n" + text_of(lines);
    if (std::find(texts.begin(), texts.end(), text) == texts.end())
        texts.push_back(text);
}

// What is missing and what is unexpected: each a heading with its lines.
Lines differences(const Expected &expected, const Listing &listing) {
    Lines found;
    if (expected.table) {
        auto listed = listing.entries();
        std::set<Lines> ours(listed.begin(), listed.end());
        std::set<Lines> theirs(expected.entries.begin(), expected.entries.end());
        for (auto &entry : expected.entries)
            if (!ours.count(entry))
                add_once(found, "missing:", entry);
        for (auto &entry : listed)
            if (!theirs.count(entry))
                add_once(found, "unexpected:", entry);
    }
    Lines of_outcomes; // apart, since a table's entry may be the same text as a block
    for (auto &block : expected.blocks)
        if (std::none_of(listing.outcomes.begin(), listing.outcomes.end(), [&](auto &o) { return block.is(o); }))
            add_once(of_outcomes, "missing:", block.lines());
    for (auto &outcome : listing.outcomes)
        if (!expected.blocks.empty() && std::none_of(expected.blocks.begin(), expected.blocks.end(),
                                                     [&](auto &block) { return block.is(outcome); }))
            add_once(of_outcomes, "unexpected:", outcome.lines);
    found.insert(found.end(), of_outcomes.begin(), of_outcomes.end());
    return found;
}

// The verdict.

struct Verdict {
    std::string text;
    bool positive = true;
};

// Adds the part of `--expect`.
void compare(Verdict &verdict, const Expected &expected, const Listing &listing) {
    Lines found = differences(expected, listing);
    if (found.empty()) {
        bool only_table = expected.blocks.empty();
        verdict.text += "as expected: " +
                        (only_table ? std::to_string(listing.entries().size()) + " answers"
                                    : std::to_string(listing.outcomes.size()) + " outcomes") +
                        "\n";
        return;
    }
    verdict.positive = false;
    for (auto &text : found)
        verdict.text += text;
}

// Adds the part of a condition: its line, and the first outcome that violates it.
void judge(Verdict &verdict, const Condition &condition, const Listing &listing) {
    size_t count = 0;
    const Outcome *violating = nullptr;
    for (auto &outcome : listing.outcomes) {
        bool match = matches(condition, outcome);
        count += match;
        if (!violating && (condition.is("never") ? match : condition.is("always") && !match))
            violating = &outcome;
    }
    verdict.text += condition.name + ": " + std::to_string(count) + " of " + std::to_string(listing.outcomes.size()) +
                    " outcomes" + answer_of_none(condition, listing) + "\n";
    if (violating)
        verdict.text += text_of(violating->lines);
    if (violating || (condition.is("exists") && !count))
        verdict.positive = false;
}
