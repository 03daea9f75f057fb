// A plain simulator of stuck-at faults, 64 at a time in a word, that walks the rows of each table. It is what the program is compared
// with: it reads the same netlist, workload and points, and prints how many faults are dangerous and how many are noticed.
//
//     lanes NETLIST WORKLOAD POINTS FTTI [EVERY]
//
// Of all batches of a word's faults each EVERY-th is simulated, from the first on (1); `seconds` is the processor time that these took.
// Each takes as long as another, since all tables are evaluated in all cycles. The netlist is flat: .inputs, .outputs, .names, .latch.
// Nothing is checked.
//
// With -DLANES=256 or 512 a word has so many lanes, a table of one input or two is one operation instead of its rows, tables stand by level
// and operation, and only nets that are stuck in some lane are looked up in the masks: the quickest that evaluates every table.
#include <algorithm>
#include <cstdint>
#include <cstdio>
#include <cstdlib>
#include <ctime>
#include <fstream>
#include <iostream>
#include <sstream>
#include <string>
#include <tuple>
#include <unordered_map>
#include <vector>

#ifndef LANES
#define LANES 64
#endif

#if LANES == 64
using Word = uint64_t;
#else
// A word as registers of 128 bits, which each x86-64 has.
typedef uint64_t Register __attribute__((vector_size(16)));

struct Word {
    Register registers[LANES / 128];
};

template <typename Operation>
static inline Word each(const Word& a, const Word& b, Operation operation) {
    Word to;
#pragma GCC unroll 4
    for (int i = 0; i < LANES / 128; ++i) to.registers[i] = operation(a.registers[i], b.registers[i]);
    return to;
}

static inline Word operator&(const Word& a, const Word& b) { return each(a, b, [](Register x, Register y) { return x & y; }); }
static inline Word operator|(const Word& a, const Word& b) { return each(a, b, [](Register x, Register y) { return x | y; }); }
static inline Word operator^(const Word& a, const Word& b) { return each(a, b, [](Register x, Register y) { return x ^ y; }); }
static inline Word operator~(const Word& a) { return each(a, a, [](Register x, Register) { return ~x; }); }
static inline Word& operator&=(Word& a, const Word& b) { return a = a & b; }
static inline Word& operator|=(Word& a, const Word& b) { return a = a | b; }
#endif

typedef uint64_t Part __attribute__((may_alias));

static const Word none = Word{}, all = ~none;

static Part& part(Word& word, size_t lane) { return reinterpret_cast<Part*>(&word)[lane / 64]; }
static void put(Word& word, size_t lane) { part(word, lane) |= Part(1) << lane % 64; }

static uint64_t ones(Word word) {
    uint64_t count = 0;
    for (size_t lane = 0; lane < LANES; lane += 64) count += __builtin_popcountll(part(word, lane));
    return count;
}

// `operation` has the values of a table of up to two inputs where these are 00, 10, 01 and 11, the lowest bit first; of others it is BY_ROWS.
struct Table {
    uint32_t out, first_in, ins, first_row, rows;
    bool on;
    uint32_t operation = 16, level = 0;
};

const uint32_t BY_ROWS = 16;

struct Latch {
    uint32_t from, to;
    bool start;
};

static std::unordered_map<std::string, uint32_t> numbers;
static std::vector<uint32_t> reads;
static std::vector<char> cells;

static Word by_rows(const Table& table, const Word* words) {
    Word some = none;
    const char* cell = cells.data() + table.first_row;
    const uint32_t* in = reads.data() + table.first_in;
    for (uint32_t r = 0; r < table.rows; ++r) {
        Word match = all;
        for (uint32_t k = 0; k < table.ins; ++k, ++cell) {
            if (*cell == '1') match &= words[in[k]];
            else if (*cell == '0') match &= ~words[in[k]];
        }
        some |= match;
    }
    return table.on ? some : ~some;
}

// The operation of a table, by its rows with all lanes alike.
static uint32_t operation_of(const Table& table) {
    if (table.ins > 2) return BY_ROWS;
    static std::vector<Word> words(numbers.size());
    uint32_t values = 0;
    for (uint32_t at = 0; at < 4; ++at) {
        for (uint32_t k = 0; k < table.ins; ++k) words[reads[table.first_in + k]] = at >> k & 1 ? all : none;
        Word value = by_rows(table, words.data());
        if (part(value, 0)) values |= 1 << at;
    }
    return values;
}

static inline Word by_operation(uint32_t operation, const Word& a, const Word& b) {
    switch (operation) {
        case 0: return none;
        case 1: return ~(a | b);
        case 2: return a & ~b;
        case 3: return ~b;
        case 4: return ~a & b;
        case 5: return ~a;
        case 6: return a ^ b;
        case 7: return ~(a & b);
        case 8: return a & b;
        case 9: return ~(a ^ b);
        case 10: return a;
        case 11: return a | ~b;
        case 12: return b;
        case 13: return ~a | b;
        case 14: return a | b;
        default: return all;
    }
}

static std::vector<std::string> split(const std::string& line, char by) {
    std::vector<std::string> words;
    std::string word;
    std::stringstream in(line);
    while (std::getline(in, word, by))
        if (by == ',' || !word.empty()) words.push_back(word);
    return words;
}

int main(int argc, char** argv) {
    if (argc != 5 && argc != 6) return 2;
    const uint32_t ftti = std::atoi(argv[4]), every = argc == 6 ? std::atoi(argv[5]) : 1;
    std::ifstream netlist(argv[1]);
    std::string line, clock;
    std::vector<std::vector<std::string>> lines;
    while (std::getline(netlist, line)) {
        std::string whole = line.substr(0, line.find('#'));
        while (!whole.empty() && whole.back() == '\\' && std::getline(netlist, line)) whole = whole.substr(0, whole.size() - 1) + " " + line;
        auto words = split(whole, ' ');
        if (words.empty()) continue;
        if (words[0] == ".latch" && words.size() >= 5 && words[4] != "NIL") clock = words[4];
        lines.push_back(words);
    }
    auto number = [&](const std::string& name) { return numbers.emplace(name, uint32_t(numbers.size())).first->second; };
    std::vector<uint32_t> inputs;
    std::vector<Table> tables;
    std::vector<Latch> latches;
    for (auto& words : lines) {
        if (words[0] == ".inputs") {
            for (size_t i = 1; i < words.size(); ++i)
                if (words[i] != clock) inputs.push_back(number(words[i]));
        } else if (words[0] == ".outputs") {
            for (size_t i = 1; i < words.size(); ++i) number(words[i]);
        } else if (words[0] == ".names") {
            Table table{0, uint32_t(reads.size()), uint32_t(words.size() - 2), uint32_t(cells.size()), 0, true};
            for (size_t i = 1; i + 1 < words.size(); ++i) reads.push_back(number(words[i]));
            table.out = number(words.back());
            tables.push_back(table);
        } else if (words[0] == ".latch") {
            latches.push_back({number(words[1]), number(words[2]), words.size() > 3 && words.back() == "1"});
        } else if (words[0][0] != '.') {
            Table& table = tables.back();
            if (table.ins) cells.insert(cells.end(), words[0].begin(), words[0].end());
            table.on = words.back() == "1";
            table.rows += 1;
        }
    }
    const uint32_t nets = numbers.size();

    // The tables in an order in which each comes after those that it reads.
    std::vector<int> driver(nets, -1), open(tables.size(), 0);
    std::vector<std::vector<uint32_t>> readers(nets);
    for (size_t i = 0; i < tables.size(); ++i) driver[tables[i].out] = int(i);
    std::vector<uint32_t> ready;
    for (size_t i = 0; i < tables.size(); ++i) {
        for (uint32_t k = 0; k < tables[i].ins; ++k) {
            uint32_t n = reads[tables[i].first_in + k];
            if (driver[n] >= 0) {
                readers[n].push_back(uint32_t(i));
                open[i] += 1;
            }
        }
        if (!open[i]) ready.push_back(uint32_t(i));
    }
    for (size_t at = 0; at < ready.size(); ++at)
        for (uint32_t reader : readers[tables[ready[at]].out]) {
            tables[reader].level = std::max(tables[reader].level, tables[ready[at]].level + 1);
            if (!--open[reader]) ready.push_back(reader);
        }
    std::vector<Table> order;
    for (uint32_t i : ready) order.push_back(tables[i]);
    if (LANES > 64) {
        for (Table& table : order) table.operation = operation_of(table);
        std::stable_sort(order.begin(), order.end(), [](const Table& a, const Table& b) { return std::tie(a.level, a.operation) < std::tie(b.level, b.operation); });
    }

    std::ifstream work(argv[2]);
    std::getline(work, line);
    auto columns = split(line, ',');
    std::vector<std::vector<Word>> vectors;
    std::vector<size_t> run_of;
    std::vector<bool> is_mission;
    std::string last;
    while (std::getline(work, line)) {
        auto fields = split(line, ',');
        if (vectors.empty() || fields[0] != last) is_mission.push_back(fields[1] == "mission");
        last = fields[0];
        run_of.push_back(is_mission.size() - 1);
        std::vector<Word> vector(nets, none);
        for (size_t i = 2; i < columns.size(); ++i) vector[numbers.at(columns[i])] = fields[i] == "1" ? all : none;
        std::vector<Word> bits;
        for (uint32_t n : inputs) bits.push_back(vector[n]);
        vectors.push_back(bits);
    }
    std::ifstream points(argv[3]);
    std::getline(points, line);
    std::vector<uint32_t> observe, alarm;
    while (std::getline(points, line)) {
        auto fields = split(line, ',');
        (fields[0] == "observe" ? observe : alarm).push_back(numbers.at(fields[1]));
    }

    std::vector<Word> words(nets), low(nets, none), high(nets, none), state(latches.size());
    std::vector<char> is_stuck(nets, 0);
    auto force = [&](uint32_t n, Word own) -> Word { return (own & ~low[n]) | high[n]; };
    auto simulate = [&](auto see) {
        for (size_t t = 0; t < vectors.size(); ++t) {
            if (t == 0 || run_of[t] != run_of[t - 1])
                for (size_t l = 0; l < latches.size(); ++l) state[l] = latches[l].start ? all : none;
            for (size_t i = 0; i < inputs.size(); ++i) words[inputs[i]] = force(inputs[i], vectors[t][i]);
            for (size_t l = 0; l < latches.size(); ++l) words[latches[l].to] = force(latches[l].to, state[l]);
            for (const Table& table : order) {
                if (LANES == 64 || table.operation == BY_ROWS) {
                    words[table.out] = force(table.out, by_rows(table, words.data()));
                } else {
                    const uint32_t* in = reads.data() + table.first_in;
                    const Word &a = words[table.ins ? in[0] : 0], &b = words[table.ins > 1 ? in[1] : 0];
                    words[table.out] = by_operation(table.operation, a, b);
                    if (is_stuck[table.out]) words[table.out] = force(table.out, words[table.out]);
                }
            }
            for (size_t l = 0; l < latches.size(); ++l) state[l] = words[latches[l].from];
            see(t);
        }
    };

    std::vector<Word> golden;
    simulate([&](size_t) {
        for (uint32_t n : observe) golden.push_back(words[n]);
        for (uint32_t n : alarm) golden.push_back(words[n]);
    });
    const size_t seen = observe.size() + alarm.size();
    uint64_t dangerous = 0, noticed = 0, batches = 0;
    std::vector<Word> differed(vectors.size());
    const std::clock_t start = std::clock();
    for (uint64_t batch = 0; batch * LANES < 2ull * nets; batch += every, ++batches) {
        const uint64_t first = batch * LANES, count = std::min<uint64_t>(LANES, 2ull * nets - first);
        for (uint64_t k = 0; k < count; ++k) {
            put(((first + k) % 2 ? high : low)[(first + k) / 2], k);
            is_stuck[(first + k) / 2] = 1;
        }
        Word danger = none, notice = none, raised_yet = none, used = none;
        size_t begin = 0;
        simulate([&](size_t t) {
            const Word* good = golden.data() + t * seen;
            Word differs = none, raised = none, lost = none;
            for (size_t i = 0; i < observe.size(); ++i) differs |= words[observe[i]] ^ good[i];
            for (size_t i = 0; i < alarm.size(); ++i) {
                raised |= words[alarm[i]] & ~good[observe.size() + i];
                lost |= ~words[alarm[i]] & good[observe.size() + i];
            }
            const bool mission = is_mission[run_of[t]], ends = t + 1 == vectors.size() || run_of[t + 1] != run_of[t];
            if (t == 0 || run_of[t] != run_of[t - 1]) begin = t, raised_yet = none;
            raised_yet |= raised;
            notice |= raised | (mission ? none : lost);
            differed[t] = mission ? differs : none;
            if (t >= begin + ftti) danger |= differed[t - ftti] & ~raised_yet;
            if (ends)
                for (size_t u = t + 1 > ftti && t + 1 - ftti > begin ? t + 1 - ftti : begin; u <= t; ++u) danger |= differed[u] & ~raised_yet;
        });
        for (uint64_t k = 0; k < count; ++k) put(used, k);
        dangerous += ones(danger & used);
        noticed += ones(notice & used);
        for (uint64_t k = 0; k < count; ++k) {
            low[(first + k) / 2] = high[(first + k) / 2] = none;
            is_stuck[(first + k) / 2] = 0;
        }
    }
    std::printf("nets %u faults %llu dangerous %llu noticed %llu batches %llu seconds %.3f\n", nets, 2ull * nets, (unsigned long long)dangerous,
                (unsigned long long)noticed, (unsigned long long)batches, double(std::clock() - start) / CLOCKS_PER_SEC);
}
