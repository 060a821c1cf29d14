// Uses each function of mte_tool.hpp, and each way in which one ends. The first thing that goes wrong ends the run with status 1, and its
// line.
#include <mte_tool.hpp>

#include <cstdlib>
#include <cstring>
#include <iostream>
#include <type_traits>

#define WANT(condition)                                       \
    do {                                                      \
        if (!(condition)) {                                   \
            std::cerr << "line " << __LINE__ << "\n";         \
            std::exit(1);                                     \
        }                                                     \
    } while (0)

using namespace mte_tool;

// what a call throws: the end, the code, and the line or the index
template <class Call> bool throws(mte_tool_end end, std::uint32_t code, std::uint64_t place, Call call) {
    try {
        call();
    } catch (const Error &error) {
        return error.end() == end && error.code() == Code(code) && error.line() + error.at() == place && *error.what();
    }
    return false;
}

static void texts() {
    const std::string_view profile_text = "16 1\n32 1\n48 1\n", history = "snapshots 2\n16 3 0\n40 0 1\n";
    const std::string_view trace = "malloc 1 16\nload 1 0 1\n", timeline = "timeline\n16\n40\n-16\n";
    Text sheet = tune(profile_text, Options(2));
    WANT(check(sheet.view(), profile_text));
    const CheckAnswer checked = check_claim(sheet.view(), profile_text), wrong = check_claim(sheet.view(), "16 9\n");
    WANT(checked && checked.claim.kind == MTE_TOOL_CLAIM_PROFILE && checked.claim.cost == 16 && checked.claim.requests == 3);
    WANT(!wrong && wrong.claim.kind == MTE_TOOL_CLAIM_NONE && wrong.code == Code::WasteWrong);
    WANT(throws(MTE_TOOL_REFUSED, 48, 1, [] { check_claim("x", "16 1\n"); }));
    WANT(check(sheet.view(), "16 9\n").code == Code::WasteWrong && *check(sheet.view(), "16 9\n").sentence());
    WANT(score("classes 2 4\n", profile_text).bytes == 16 && score("classes 2\n", profile_text).least_size == 32);
    WANT(!score("classes 2\n", profile_text).serves && score("classes 2 8", "9 1000\n24 70\n").bytes == 13160);
    WANT(throws(MTE_TOOL_REFUSED, 23, 1, [] { score("classes 2 8\n9 1000\n", "24 70\n"); }));
    /* the sheets of scripts/tests/library_cases.py: what the first text lacks or has too much moves no border */
    WANT(!check("classes 64 1001\nlimit 2\nwaste 10009790\nrow 10234670 10075000 10000000\nrow 10009790 1",
                "16 1000000\n33 10\n1000 5\n15990 1000000\n"));
    WANT(throws(MTE_TOOL_REFUSED, 48, 6, [] {
        check("classes 2 64\nlimit 2\nwaste 18000\nrow 1029000 18000 0 0\nrow 18000 0 0 0\n0 1000000000\n", "33 1000\n1000 1000\n");
    }));
    Fit fitted = fit(history, Options(2));
    WANT(fitted.is_least && check_fit(fitted.text.view(), history) && footprint("classes 2 4\n", history).bytes == 160);
    WANT(check_fit_claim(fitted.text.view(), history).claim.snapshots == 2);
    WANT(fit(timeline, Options(2)).is_least && footprint("classes 4\n", timeline).bytes == 128);
    WANT(profile(trace).view() == "16 1\n" && replay("classes 4\n", trace).view().substr(0, 7) == "2 data ");
    WANT(run(trace, Options(1)).view().substr(0, 10) == "classes 2\n");
    WANT(throws(MTE_TOOL_REFUSED, 30, 2, [] { tune("16 1\nx\n", Options(2)); }));
    WANT(throws(MTE_TOOL_BAD_OPTION, 0, 0, [] { tune("16 1\n", Options(264)); }));
    WANT(throws(MTE_TOOL_BAD_OPTION, 0, 0, [] { tune("16 1\n", Options(2, 3)); }));
    Text moved = std::move(sheet);
    WANT(sheet.view().empty() && !moved.view().empty());
    sheet = std::move(moved);
    WANT(sheet.append("16 1\n").view().size() > 5 && Text().view().empty());
    WANT(Text().append_event(40, false).append_event(20000, true).view() == "timeline\n40\n-large\n");
    static_assert(!std::is_copy_constructible<Text>::value && !std::is_copy_constructible<Heap>::value, "one owner");
    WANT(version() == MTE_TOOL_VERSION && version_number() == MTE_TOOL_VERSION_NUMBER);
    WANT(name(Code::BadClassLine) == std::string_view("BadLine") && !*name(Code(19)) && *sentence(Code(19)) && *sentence(MTE_TOOL_NO));
}

static void arrays() {
    const std::uint32_t sizes[] = {16, 32, 48}, counts[] = {1, 1, 1, 2, 2, 2};
    const std::uint8_t frees[] = {0, 0, 0};
    const std::uint16_t classes[] = {2, 4}, none[] = {2};
    const mte_tool_profile_arrays profile{sizes, counts, 3};
    const mte_tool_history_arrays history{sizes, counts, 3, 2};
    const mte_tool_timeline_arrays timeline{sizes, frees, 3};
    WANT(score_profile(classes, 2, profile).bytes == 16 && score_profile(none, 1, profile).least_size == 32);
    WANT(footprint_history(classes, 2, history).serves && footprint_timeline(classes, 2, timeline).bytes == 160);
    Table tuned = tune_profile(profile, Options(2));
    WANT(tuned.classes.size() == 2 && tuned.bytes == 16 && tuned.places == 3 && tuned.rows.size() == 6 && tuned.is_least);
    WANT(check_profile(tuned, profile, Options(2)));
    tuned.bytes++;
    WANT(check_profile(tuned, profile, Options(2)).code == Code::WasteWrong);
    tuned.rows.pop_back();
    WANT(throws(MTE_TOOL_MISUSE, 0, 0, [&] { check_profile(tuned, profile, Options(2)); }));
    const Table fitted = fit_history(history, Options(32)), over = fit_timeline(timeline, Options(2));
    WANT(check_fit_history(fitted, history, Options(32)) && check_fit_timeline(over, timeline, Options(2)) && !over.moments.empty());
    const std::uint32_t wrong[] = {16, 16, 48};
    WANT(throws(MTE_TOOL_REFUSED, 31, 1, [&] { tune_profile({wrong, counts, 3}, Options(2)); }));
    WANT(throws(MTE_TOOL_REFUSED, 31, 1, [&] { fit_history({wrong, counts, 3, 2}, Options(2)); }));
    WANT(throws(MTE_TOOL_BAD_OPTION, 0, 0, [&] { fit_history(history, Options(33)); }));
    WANT(throws(MTE_TOOL_BAD_OPTION, 0, 0, [&] { tune_profile(profile, Options(0)); }));
#ifdef __cpp_lib_span
    const std::vector<std::uint32_t> more(6, 1);
    WANT(score_profile(classes, profile_of(sizes, std::span(counts).first(3))).bytes == 16);
    WANT(footprint_history(classes, history_of(sizes, more, 2)).serves && footprint_timeline(classes, timeline_of(sizes, frees)).serves);
    int thrown = 0;
    try { profile_of(sizes, counts); } catch (const std::invalid_argument &) { thrown++; }
    try { history_of(sizes, counts, 3); } catch (const std::invalid_argument &) { thrown++; }
    try { timeline_of(counts, frees); } catch (const std::invalid_argument &) { thrown++; }
    WANT(thrown == 3);
#endif
}

static void heaps() {
    const std::uint16_t classes[] = {4, 8}, wrong[] = {8, 4};
    Options options;
    options.quarantine = 0;
    Heap first(classes, 2, options), heap(std::move(first));
    char bytes[8];
    const Outcome p = heap.malloc(40);
    WANT(p && heap.store(p.value + 32, "the last", 8) && heap.load(p.value + 32, bytes, 8) && !std::memcmp(bytes, "the last", 8));
    WANT(heap.granule((p.value & 0xffffffffffffff) / 16 - MTE_TOOL_REGION_START / 16).granule_kind == Granule::Live);
    WANT(heap.granule(0).granule_kind == Granule::Header && heap.granule(0).sentence() == std::string_view("done"));
    WANT(heap.addg(p.value, 1, 0).value == p.value + 16 && heap.realloc(p.value, 20).value == p.value);
    WANT(heap.calloc(20000).code == Code::Large && heap.free(p.value) && heap.free(p.value).code == Code::ChunkNotLive);
    const Outcome read = heap.load(p.value, bytes, 8);
    WANT(!read && read.code == Code::TagCheck && read.memory_tag != read.pointer_tag && *read.sentence());
    WANT(throws(MTE_TOOL_BAD_OPTION, 0, 0, [&] { heap.load(p.value, bytes, 65); }));
    WANT(throws(MTE_TOOL_MISUSE, 0, 0, [&] { first.malloc(1); }));
    WANT(throws(MTE_TOOL_REFUSED, 22, 0, [&] { Heap(wrong, 2); }));
    WANT(class_of(classes, 2, 49) == 1 && !class_of(classes, 2, 113));
    options.seed = 0;
    WANT(throws(MTE_TOOL_BAD_OPTION, 0, 0, [&] { Heap(classes, 2, options); }));
#ifdef __cpp_lib_span
    WANT(Heap(classes).malloc(100) && class_of(classes, 48) == 0);
#endif
}

int main() {
    texts();
    arrays();
    heaps();
}
