// The same as library_trips.c by mte_tool.hpp.
#include <mte_tool.hpp>

#include <iostream>

using namespace mte_tool;

enum Kind { PROFILE, HISTORY, TIMELINE };

static std::uint64_t number() {
    std::uint64_t read = 0;
    if (!(std::cin >> read)) throw std::runtime_error("a number is missing");
    return read;
}

template <class Number> static void print(const char *word, const std::vector<Number> &numbers) {
    std::cout << word;
    for (const Number &each : numbers) std::cout << ' ' << each;
}

template <class Data>
static void trip(const Data &data, const Options &options, Table (*tune)(const Data &, const Options &),
                 Verdict (*check)(const Table &, const Data &, const Options &)) {
    Table table = tune(data, options);
    std::cout << (table.is_least ? MTE_TOOL_DONE : MTE_TOOL_NO) << ' ' << table.bytes << ' ' << table.bound;
    print(" classes", table.classes);
    if (table.is_least) {
        print(" rows", table.rows);
        print(" moments", table.moments);
        std::cout << " checks";
        for (int i = 0; i < 2; i++, table.bytes++) {
            const Verdict verdict = check(table, data, options);
            const auto code = static_cast<std::uint32_t>(verdict.code);
            std::cout << ' ' << (verdict ? MTE_TOOL_DONE : MTE_TOOL_NO) << ' ' << code;
        }
    }
    std::cout << '\n';
}

int main() {
    std::uint64_t kind;
    while (std::cin >> kind) {
        Options options(number());
        options.step = number();
        options.largest_class = number();
        const std::size_t snapshots = number(), length = number();
        std::vector<std::uint32_t> sizes(length), counts(length * (kind == HISTORY ? snapshots : 1));
        for (std::uint32_t &size : sizes) size = static_cast<std::uint32_t>(number());
        for (std::uint32_t &count : counts) count = static_cast<std::uint32_t>(number());
        const std::vector<std::uint8_t> frees(counts.begin(), counts.end());
        const mte_tool_profile_arrays profile{sizes.data(), counts.data(), length};
        const mte_tool_history_arrays history{sizes.data(), counts.data(), length, snapshots};
        const mte_tool_timeline_arrays timeline{sizes.data(), frees.data(), length};
        if (kind == PROFILE)
            trip(profile, options, tune_profile, check_profile);
        else if (kind == HISTORY)
            trip(history, options, fit_history, check_fit_history);
        else
            trip(timeline, options, fit_timeline, check_fit_timeline);
    }
}
