/*
 * Lists the places of a log, and says of each how many cases fit it, and where the first token is
 * missing, if one is.
 *
 *     places FILE
 *
 * FILE has a settings line and a log, as the program placelist reads them. The status is that of
 * placelist: 0 complete, 1 a file failed, 2 usage, 3 refused, which is told in words on standard
 * error, 4 the list is only a beginning.
 */
#include <cstddef>
#include <cstdint>
#include <fstream>
#include <iostream>
#include <stdexcept>
#include <string>
#include <vector>

#include <placelist.h>

namespace {

using Bytes = std::vector<uint8_t>;
using Words = std::vector<uint32_t>;

enum Status { COMPLETE = 0, FILE_FAILED = 1, USAGE = 2, REFUSED = 3, STOPPED = 4 };

// The settings line: two digits each of activities, inputs and outputs, four of threshold.
const size_t SETTINGS_DIGITS = 10;

struct Input {
    uint8_t activities;
    uint8_t most_inputs;
    uint8_t most_outputs;
    uint16_t threshold;
    Bytes log;
};

// The file was refused; the words say why.
struct Refused : std::runtime_error {
    explicit Refused(const std::string &words) : std::runtime_error(words) {}
};

// Throws if a call was refused.
void expect(const char *call, uint8_t number, uint64_t value)
{
    if (number == PLACELIST_NOT_REFUSED) {
        return;
    }
    char text[PLACELIST_EXPLAIN_BYTES];
    placelist_explain(number, value, text, sizeof text);
    throw Refused(std::string(call) + " was refused: " + text + " (number "
                  + std::to_string(number) + ")");
}

// Reads a whole file, and answers whether that went well.
bool read_file(const char *path, Bytes &bytes)
{
    std::ifstream file(path, std::ios::binary);
    char part[4096];
    do {
        file.read(part, sizeof part);
        bytes.insert(bytes.end(), part, part + file.gcount());
    } while (file);
    return file.is_open() && !file.bad();
}

// The number of so many digits 0-9 and A-F.
unsigned read_number(const uint8_t *digits, size_t count)
{
    unsigned number = 0;
    for (size_t i = 0; i < count; i++) {
        const uint8_t digit = digits[i];
        if (digit >= '0' && digit <= '9') {
            number = 16 * number + digit - '0';
        } else if (digit >= 'A' && digit <= 'F') {
            number = 16 * number + digit - 'A' + 10;
        } else {
            throw Refused("the first line is no settings line");
        }
    }
    return number;
}

// The settings and the log. Whether the settings are in range is for the library to say.
Input split_file(const Bytes &file)
{
    if (file.size() <= SETTINGS_DIGITS || file[SETTINGS_DIGITS] != '\n') {
        throw Refused("the first line is no settings line");
    }
    const uint8_t *line = file.data();
    Input input;
    input.activities = static_cast<uint8_t>(read_number(line, 2));
    input.most_inputs = static_cast<uint8_t>(read_number(line + 2, 2));
    input.most_outputs = static_cast<uint8_t>(read_number(line + 4, 2));
    input.threshold = static_cast<uint16_t>(read_number(line + 6, 4));
    input.log.assign(file.begin() + SETTINGS_DIGITS + 1, file.end());
    return input;
}

// Checks the log, says how large it is, and answers the number of its cases.
uint64_t check(const Input &input)
{
    uint64_t value, counts[PLACELIST_SIZE_LENGTH];
    const uint8_t number = placelist_check(input.activities, input.log.data(), input.log.size(),
                                           &value, counts);
    expect("the check", number, value);
    std::cout << "log: " << counts[PLACELIST_SIZE_FRAMES] << " frames, "
              << counts[PLACELIST_SIZE_CASES] << " cases\n";
    return counts[PLACELIST_SIZE_CASES];
}

// Says why places were rejected, of those that the cache had room for.
void tell_rejected(const std::vector<uint64_t> &rejected)
{
    uint64_t marks[PLACELIST_BOTH + 1] = {};
    for (const uint64_t word : rejected) {
        marks[placelist_mark(word)]++;
    }
    std::cout << "rejected: " << marks[PLACELIST_UNDERFED] << " underfed, "
              << marks[PLACELIST_OVERFED] << " overfed, " << marks[PLACELIST_BOTH] << " both\n";
}

// Searches the places that fit, and answers whether these are all.
bool search(const Input &input, Words &found)
{
    static const char *const ends[] = { "complete", "stopped, the budget was spent",
                                        "stopped, the list was full" };
    std::vector<uint64_t> rejected(PLACELIST_PROGRAM_REJECTED);
    found.resize(PLACELIST_PROGRAM_FOUND);
    uint64_t value, run[PLACELIST_RUN_LENGTH];
    const uint8_t number = placelist_search(
        input.activities, input.most_inputs, input.most_outputs, input.threshold, input.log.data(),
        input.log.size(), PLACELIST_PROGRAM_BUDGET, rejected.data(), rejected.size(), found.data(),
        found.size(), &value, run);
    expect("the search", number, value);
    found.resize(run[PLACELIST_RUN_FOUND]);
    rejected.resize(run[PLACELIST_RUN_REJECTED]);
    std::cout << "search: " << ends[run[PLACELIST_RUN_END]] << "; " << found.size()
              << " places found, " << run[PLACELIST_RUN_REPLAYS] << " replays, "
              << run[PLACELIST_RUN_VISITS] << " visits\n";
    tell_rejected(rejected);
    return run[PLACELIST_RUN_END] == PLACELIST_COMPLETE;
}

// The list without the places that are unions of others.
Words reduce(const Words &words)
{
    Words kept(words.size());
    uint64_t value, count;
    const uint8_t number = placelist_reduce(words.data(), words.size(), kept.data(), kept.size(),
                                            &value, &count);
    expect("the reduction", number, value);
    kept.resize(count);
    std::cout << "reduced: " << kept.size() << " places\n";
    return kept;
}

// Judges a place of the list, and writes its line.
void write_place(const Input &input, uint64_t cases, uint32_t word, const std::string &digits)
{
    uint64_t value, counts[PLACELIST_CASES_LENGTH];
    int32_t line, event;
    uint8_t verdict;
    const uint8_t number = placelist_judge(
        input.activities, input.threshold, input.log.data(), input.log.size(),
        placelist_inputs(word), placelist_outputs(word), &value, counts, &verdict, &line, &event);
    expect("the judgement", number, value);
    std::cout << digits << ": " << counts[PLACELIST_CASES_FITTING] << " of " << cases
              << " cases fit";
    if (line != PLACELIST_NONE) {
        std::cout << "; first missing token: line " << line << ", event " << event;
    }
    std::cout << "\n";
}

// Writes the list, a line for each place.
void write_list(const Input &input, uint64_t cases, const Words &words)
{
    Bytes text(words.size() * PLACELIST_LINE_BYTES);
    uint64_t value, bytes;
    const uint8_t number = placelist_write(words.data(), words.size(), text.data(), text.size(),
                                           &value, &bytes);
    expect("the writing", number, value);
    auto line = text.begin();
    for (const uint32_t word : words) {
        write_place(input, cases, word, std::string(line, line + PLACELIST_LINE_BYTES - 1));
        line += PLACELIST_LINE_BYTES;
    }
}

// The whole job on a file that was read. Answers whether the list is complete.
bool list_places(const Bytes &file)
{
    const Input input = split_file(file);
    const uint64_t cases = check(input);
    Words words;
    const bool complete = search(input, words);
    // a list that is not complete is left as found
    write_list(input, cases, complete ? reduce(words) : words);
    return complete;
}

// The job, with a refusal told in words.
Status list_file(const Bytes &file)
{
    try {
        return list_places(file) ? COMPLETE : STOPPED;
    } catch (const Refused &refused) {
        std::cout.flush();
        std::cerr << "places: " << refused.what() << "\n";
        return REFUSED;
    }
}

} // namespace

int main(int count, char **arguments)
{
    if (count != 2) {
        std::cerr << "usage: places FILE\n";
        return USAGE;
    }
    Bytes file;
    if (!read_file(arguments[1], file)) {
        std::cerr << "places: cannot read " << arguments[1] << "\n";
        return FILE_FAILED;
    }
    const Status status = list_file(file);
    return std::cout.flush() ? status : FILE_FAILED;
}
