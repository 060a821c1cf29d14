/* mte_tool.h for C++17 and later, in this header alone: memory that frees itself, and exceptions. With C++20 arrays are taken as std::span
   too. docs/LIBRARY.md says what is proved, and what of the interface stays.

   A verdict of no is an answer, and is returned. All else is thrown: mte_tool::Error where the input is refused, an option is out of its
   range or the call is not as it has to be, std::bad_alloc where memory runs out. After that all arguments are as they were.

       #include <mte_tool.hpp>
       #include <iostream>

       int main() {
           const std::string_view profile = "16 500\n24 70\n100 3\n";
           const mte_tool::Text sheet = mte_tool::tune(profile, mte_tool::Options(2));
           std::cout << sheet.view() << (mte_tool::check(sheet.view(), profile) ? "checked\n" : "refused\n");
       }
*/
#ifndef MTE_TOOL_HPP
#define MTE_TOOL_HPP

#include "mte_tool.h"

#include <cstddef>
#include <cstdint>
#include <new>
#include <optional>
#include <stdexcept>
#include <string>
#include <string_view>
#include <utility>
#include <vector>
#if __cplusplus >= 202002L && __has_include(<span>)
#include <span>
#endif

namespace mte_tool {

/* The options, which begin as the program's own defaults. A call reads those that are its own, and each has 64 bits: a number out of its
   range is an Error with the end MTE_TOOL_BAD_OPTION. The members are those of mte_tool_options. */
struct Options : mte_tool_options {
    Options() : mte_tool_options MTE_TOOL_OPTIONS(0) {}

    /* At most so many classes (1 to 32), each a multiple of so many granules (1, 2, 4 or 8). */
    explicit Options(std::uint64_t most_classes, std::uint64_t step_granules = 1) : Options() {
        limit = most_classes;
        step = step_granules;
    }
};

/* Why an input is refused, why a verdict is no, or why the heap or the machine refuses a call. A later library may give a code that has no
   name here. */
enum class Code : std::uint32_t {
    NoCode = 0,
    TooManyClasses = 20,
    ClassOutOfRange = 21,
    ClassesNotAscending = 22,
    BadClassLine = 23,
    BadCountLine = 30,
    SizesNotAscending = 31,
    CountOutOfRange = 32,
    CountFull = 33,
    BadSnapshots = 34,
    WrongLength = 35,
    BadFit = 36,
    BadTimeline = 37,
    SizeNotLive = 38,
    OffStep = 39,
    OverLimit = 40,
    NotServing = 41,
    WasteWrong = 42,
    Shape = 43,
    LastClass = 44,
    StageDrop = 45,
    Edge = 46,
    NotTight = 47,
    BadSheet = 48,
    FootprintWrong = 49,
    Unmapped = 50,
    Alignment = 51,
    TagCheck = 52,
    NotMoments = 53,
    Large = 60,
    NoClass = 61,
    Exhausted = 62,
    Misplaced = 63,
    ChunkNotLive = 64,
    WrongTag = 65,
    BadWord = 70,
    BadNumber = 71,
    NumberOutOfRange = 72,
    LineTooLong = 73,
    TooManyEvents = 74,
    InputTooLong = 80,
    ReadFault = 81,
    WriteFault = 82,
    BadOption = 83
};

/* The word after the code's number in the text of a refusal, as BadLine; "" of a number that is no code. */
inline const char *name(Code code) noexcept { return mte_tool_code_name(static_cast<std::uint32_t>(code)); }

inline const char *sentence(Code code) noexcept { return mte_tool_code_sentence(static_cast<std::uint32_t>(code)); }

inline const char *sentence(mte_tool_end end) noexcept { return mte_tool_end_sentence(end); }

/* Why a call gave no answer. what() is the first fault of the input, as "30 BadLine line 2", or a sentence. */
class Error : public std::runtime_error {
  public:
    Error(mte_tool_end end, const mte_tool_result &result, const std::string &what)
        : std::runtime_error(what), end_(end), result_(result) {}

    /* MTE_TOOL_REFUSED, MTE_TOOL_BAD_OPTION or MTE_TOOL_MISUSE */
    mte_tool_end end() const noexcept { return end_; }

    /* that of the input's fault */
    Code code() const noexcept { return static_cast<Code>(result_.code); }

    /* the line of a text's fault, from 1 on; 0 without one */
    std::uint64_t line() const noexcept { return result_.line; }

    /* the index of the first faulty entry of arrays, from 0 on */
    std::uint64_t at() const noexcept { return result_.at; }

  private:
    mte_tool_end end_;
    mte_tool_result result_;
};

/* A text of the library's memory, which is freed with it. */
class Text {
  public:
    Text() = default;
    Text(Text &&other) noexcept : held_(std::exchange(other.held_, mte_tool_text MTE_TOOL_TEXT)) {}
    Text &operator=(Text &&other) noexcept {
        std::swap(held_, other.held_);
        return *this;
    }
    Text(const Text &) = delete;
    Text &operator=(const Text &) = delete;
    ~Text() { mte_tool_text_free(&held_); }

    /* its bytes, as long as the text is there and not appended to */
    std::string_view view() const noexcept { return {held_.bytes, held_.length}; }

    /* Appends bytes that are no part of it. Throws std::bad_alloc, and then it is as it was. */
    Text &append(std::string_view piece) {
        if (mte_tool_text_append(&held_, piece.data(), piece.size()) != MTE_TOOL_DONE) throw std::bad_alloc();
        return *this;
    }

    /* Appends an event to a timeline: the request of a block of `size` bytes, or its free. Throws as append does. */
    Text &append_event(std::size_t size, bool is_free) {
        if (mte_tool_timeline_append(&held_, size, is_free) != MTE_TOOL_DONE) throw std::bad_alloc();
        return *this;
    }

    /* the structure of C, for its calls */
    mte_tool_text *c() noexcept { return &held_; }

  private:
    mte_tool_text held_ = MTE_TOOL_TEXT;
};

/* the verdict of `check` and `check_fit` */
struct Verdict {
    bool is_optimal; /* no table within the sheet's limit and step, and with the class that it forces, costs less */
    Code code;       /* of the condition that the sheet breaks */
    explicit operator bool() const noexcept { return is_optimal; }
    const char *sentence() const noexcept { return is_optimal ? "optimal" : mte_tool::sentence(code); }
};

/* what a check showed: the members are those of mte_tool_claim */
struct Claim : mte_tool_claim {
    Claim() : mte_tool_claim MTE_TOOL_CLAIM {}
};

/* a verdict with what it showed */
struct CheckAnswer : Verdict {
    Claim claim; /* of the kind MTE_TOOL_CLAIM_NONE unless it is optimal */
    Text text;   /* both in words, as the program's `check --claim` has them */
};

/* what a table costs */
struct Cost {
    bool serves;              /* each counted size has a class */
    std::uint64_t bytes;      /* what the table wastes, or takes of memory, if it serves */
    std::uint64_t least_size; /* else the least size without a class, in bytes */
};

/* a fit as a text */
struct Fit {
    Text text;
    bool is_least; /* always of a history; of a timeline the text says if it is not shown */
};

/* a table in numbers */
struct Table {
    std::vector<std::uint16_t> classes; /* in granules of 16 bytes, ascending */
    std::uint64_t bytes = 0;            /* what it wastes, or takes of memory */
    std::vector<std::uint64_t> rows;    /* its certificate: `limit` rows of `places` numbers, row after row */
    std::size_t places = 0;
    std::vector<std::uint32_t> moments; /* of a timeline: the moments that the certificate names, by the events before each */
    bool is_least = true;               /* false only of a timeline, and then there is no certificate */
    std::uint64_t bound = 0;            /* if it is not shown to be least: no table takes less than these bytes */
};

/* The version of the library that runs; MTE_TOOL_VERSION and MTE_TOOL_VERSION_NUMBER are those of the header. */
inline std::string_view version() noexcept { return mte_tool_version(); }

inline std::uint32_t version_number() noexcept { return mte_tool_version_number(); }

namespace detail {

/* Throws unless there is an answer; whether it is a yes. */
inline bool answered(mte_tool_end end, const mte_tool_result &result, std::string_view said = {}) {
    if (end == MTE_TOOL_OUT_OF_MEMORY) throw std::bad_alloc();
    if (end == MTE_TOOL_DONE || end == MTE_TOOL_NO) return end == MTE_TOOL_DONE;
    if (!said.empty()) throw Error(end, result, std::string(said));
    throw Error(end, result, result.code ? mte_tool_code_sentence(result.code) : mte_tool_end_sentence(end));
}

using Command = mte_tool_end(const mte_tool_options *, const void *, std::size_t, mte_tool_text *, mte_tool_result *);
using CommandOn = mte_tool_end(const mte_tool_options *, const void *, std::size_t, const void *, std::size_t, mte_tool_text *,
                               mte_tool_result *);

inline Cost cost(bool serves, const mte_tool_result &result) { return {serves, result.bytes, result.at}; }

inline Verdict verdict(bool is_optimal, const mte_tool_result &result) { return {is_optimal, static_cast<Code>(result.code)}; }

/* a call over a text or two, and what it gave */
class Called {
  public:
    Called(Command *command, std::string_view input, const mte_tool_options *options) {
        const mte_tool_end end = command(options, input.data(), input.size(), text_.c(), &result_);
        is_yes_ = answered(end, result_, text_.view());
    }
    Called(CommandOn *command, std::string_view first, std::string_view input, const mte_tool_options *options) {
        const mte_tool_end end = command(options, first.data(), first.size(), input.data(), input.size(), text_.c(), &result_);
        is_yes_ = answered(end, result_, text_.view());
    }
    Text text() { return std::move(text_); }
    Fit fit() { return {std::move(text_), is_yes_}; }
    Cost cost() const { return detail::cost(is_yes_, result_); }
    Verdict verdict() const { return detail::verdict(is_yes_, result_); }

  private:
    Text text_;
    mte_tool_result result_ = MTE_TOOL_RESULT;
    bool is_yes_;
};

/* a check with what it showed */
template <class Check>
CheckAnswer check_with_claim(Check *check, std::string_view first, std::string_view input) {
    Claim claim;
    Text text;
    mte_tool_result result = MTE_TOOL_RESULT;
    const mte_tool_end end =
        check(nullptr, first.data(), first.size(), input.data(), input.size(), text.c(), &claim, &result);
    const bool is_optimal = answered(end, result, text.view());
    return {verdict(is_optimal, result), claim, std::move(text)};
}

inline std::size_t rooms(const Options &options) {
    return options.limit <= MTE_TOOL_MOST_CLASSES ? static_cast<std::size_t>(options.limit) : 1;
}

/* A tuner's call, with room for all that it can give. `call` takes the table's arrays and a result. */
template <class Call> Table tuned(const Options &options, std::size_t length, std::size_t most_moments, Call call) {
    Table table;
    mte_tool_result result = MTE_TOOL_RESULT;
    const bool is_forced = options.largest_class != 0;
    const std::size_t most_places = length < MTE_TOOL_LARGEST_CLASS ? length + is_forced : MTE_TOOL_LARGEST_CLASS;
    table.classes.resize(MTE_TOOL_MOST_CLASSES);
    table.rows.resize(rooms(options) * most_places);
    table.moments.resize(most_moments);
    table.is_least = answered(call(table, result), result);
    table.classes.resize(result.classes);
    table.places = table.is_least ? result.places : 0;
    table.rows.resize(rooms(options) * table.places);
    table.moments.resize(table.is_least ? result.moments : 0);
    table.bytes = result.bytes;
    table.bound = result.bound;
    return table;
}

inline void need(bool is_so, const char *what) {
    if (!is_so) throw std::invalid_argument(what);
}

} // namespace detail

/* ---- the commands over texts (docs/FORMATS.md), each at most MTE_TOOL_MOST_INPUT bytes. An Error has the first fault's code and
   line. */

/* What the table of a class line, such as "classes 2 8", wastes on a profile. */
inline Cost score(std::string_view classes, std::string_view profile) {
    return detail::Called(mte_tool_score, classes, profile, nullptr).cost();
}

/* The sheet of the table of least waste on a profile, by options.limit, options.step and options.largest_class. */
inline Text tune(std::string_view profile, const Options &options) {
    return detail::Called(mte_tool_tune, profile, &options).text();
}

/* Whether a sheet shows that no table of its limit, step and forced class wastes less on a profile. */
inline Verdict check(std::string_view sheet, std::string_view profile) {
    return detail::Called(mte_tool_check, sheet, profile, nullptr).verdict();
}

/* What the table of a class line takes of memory over a history or a timeline. */
inline Cost footprint(std::string_view classes, std::string_view history) {
    return detail::Called(mte_tool_footprint, classes, history, nullptr).cost();
}

/* The fit of the table of least footprint over a history or a timeline, by options.limit, options.step and options.largest_class. */
inline Fit fit(std::string_view history, const Options &options) {
    return detail::Called(mte_tool_fit, history, &options).fit();
}

/* Whether a fit shows that no table of its limit, step and forced class takes less over a history or a timeline. */
inline Verdict check_fit(std::string_view fit, std::string_view history) {
    return detail::Called(mte_tool_check_fit, fit, history, nullptr).verdict();
}

/* The profile of a trace. */
inline Text profile(std::string_view trace) {
    return detail::Called(mte_tool_profile, trace, nullptr).text();
}

/* The report of the tagged heap over the table of a class line on a trace, by options.granules, options.quarantine and options.seed. */
inline Text replay(std::string_view classes, std::string_view trace, const Options &options = Options()) {
    return detail::Called(mte_tool_replay, classes, trace, &options).text();
}

/* The sheet of a trace's profile, and then the report with its table, by options.limit, options.step, options.granules, options.quarantine
    and options.seed. */
inline Text run(std::string_view trace, const Options &options) {
    return detail::Called(mte_tool_run, trace, &options).text();
}

/* The most live blocks of each class of a class line over a timeline, and when. */
inline Text peaks(std::string_view classes, std::string_view timeline) {
    return detail::Called(mte_tool_peaks, classes, timeline, nullptr).text();
}

/* ---- what a check showed, as numbers */

/* The same as check, with the table's waste, of which tables none wastes less, and what the profile counts. */
inline CheckAnswer check_claim(std::string_view sheet, std::string_view profile) {
    return detail::check_with_claim(mte_tool_check_claim, sheet, profile);
}

/* The same as check_fit, with the table's footprint, of which tables none takes less, and what was counted. */
inline CheckAnswer check_fit_claim(std::string_view fit, std::string_view history) {
    return detail::check_with_claim(mte_tool_check_fit_claim, fit, history);
}

/* ---- the same over arrays: sizes in bytes, ascending, from 0 to MTE_TOOL_LARGEST_SIZE; classes in granules of 16 bytes, ascending, from 2
   to 1024. An Error has the code, and in at() the index of the first faulty entry. */

/* What a table wastes on a profile: each size with its count, 1 to MTE_TOOL_MOST_COUNT. */
inline Cost score_profile(const std::uint16_t *classes, std::size_t class_count, const mte_tool_profile_arrays &profile) {
    mte_tool_result result = MTE_TOOL_RESULT;
    const mte_tool_end end = mte_tool_score_profile(nullptr, classes, class_count, &profile, &result);
    return detail::cost(detail::answered(end, result), result);
}

/* What a table takes over a history: for each size its live blocks at each of 1 to 1024 snapshots. */
inline Cost footprint_history(const std::uint16_t *classes, std::size_t class_count, const mte_tool_history_arrays &history) {
    mte_tool_result result = MTE_TOOL_RESULT;
    const mte_tool_end end = mte_tool_footprint_history(nullptr, classes, class_count, &history, &result);
    return detail::cost(detail::answered(end, result), result);
}

/* What a table takes over a timeline: requests, and frees where `frees` is not 0. */
inline Cost footprint_timeline(const std::uint16_t *classes, std::size_t class_count, const mte_tool_timeline_arrays &timeline) {
    mte_tool_result result = MTE_TOOL_RESULT;
    const mte_tool_end end = mte_tool_footprint_timeline(nullptr, classes, class_count, &timeline, &result);
    return detail::cost(detail::answered(end, result), result);
}

/* The table of least waste, with its certificate. */
inline Table tune_profile(const mte_tool_profile_arrays &profile, const Options &options) {
    return detail::tuned(options, profile.length, 0, [&](Table &to, mte_tool_result &result) {
        return mte_tool_tune_profile(&options, &profile, to.classes.data(), to.classes.size(), to.rows.data(), to.rows.size(), &result);
    });
}

/* The table of least footprint over a history, with its certificate. */
inline Table fit_history(const mte_tool_history_arrays &history, const Options &options) {
    return detail::tuned(options, history.length, 0, [&](Table &to, mte_tool_result &result) {
        return mte_tool_fit_history(&options, &history, to.classes.data(), to.classes.size(), to.rows.data(), to.rows.size(), &result);
    });
}

/* The table of least footprint over a timeline; is_least says whether that is shown. */
inline Table fit_timeline(const mte_tool_timeline_arrays &timeline, const Options &options) {
    return detail::tuned(options, timeline.length, 1024, [&](Table &to, mte_tool_result &result) {
        return mte_tool_fit_timeline(&options, &timeline, to.classes.data(), to.classes.size(), to.rows.data(), to.rows.size(),
                                     to.moments.data(), to.moments.size(), &result);
    });
}

/* Whether a table's rows show that no table within the options (limit, step, largest_class) wastes less. The rows have
   options.limit times as many numbers as one. */
inline Verdict check_profile(const Table &table, const mte_tool_profile_arrays &profile, const Options &options) {
    mte_tool_result result = MTE_TOOL_RESULT;
    const mte_tool_end end = mte_tool_check_profile(&options, table.classes.data(), table.classes.size(), table.bytes, table.rows.data(),
                                                    table.rows.size(), &profile, &result);
    return detail::verdict(detail::answered(end, result), result);
}

/* The same of a footprint over a history. */
inline Verdict check_fit_history(const Table &table, const mte_tool_history_arrays &history, const Options &options) {
    mte_tool_result result = MTE_TOOL_RESULT;
    const mte_tool_end end = mte_tool_check_fit_history(&options, table.classes.data(), table.classes.size(), table.bytes,
                                                        table.rows.data(), table.rows.size(), &history, &result);
    return detail::verdict(detail::answered(end, result), result);
}

/* The same over a timeline, by the moments that the table names. */
inline Verdict check_fit_timeline(const Table &table, const mte_tool_timeline_arrays &timeline, const Options &options) {
    mte_tool_result result = MTE_TOOL_RESULT;
    const mte_tool_end end = mte_tool_check_fit_timeline(&options, table.classes.data(), table.classes.size(), table.bytes,
                                                         table.rows.data(), table.rows.size(), table.moments.data(), table.moments.size(),
                                                         &timeline, &result);
    return detail::verdict(detail::answered(end, result), result);
}

#ifdef __cpp_lib_span
/* The arrays of the calls above. Spans of lengths that don't fit together are std::invalid_argument. */
inline mte_tool_profile_arrays profile_of(std::span<const std::uint32_t> sizes, std::span<const std::uint32_t> counts) {
    detail::need(sizes.size() == counts.size(), "a profile has a count for each size");
    return {sizes.data(), counts.data(), sizes.size()};
}

inline mte_tool_history_arrays history_of(std::span<const std::uint32_t> sizes, std::span<const std::uint32_t> counts,
                                          std::size_t snapshots) {
    detail::need(counts.size() == sizes.size() * snapshots, "a history has a count for each size at each snapshot");
    return {sizes.data(), counts.data(), sizes.size(), snapshots};
}

inline mte_tool_timeline_arrays timeline_of(std::span<const std::uint32_t> sizes, std::span<const std::uint8_t> frees) {
    detail::need(sizes.size() == frees.size(), "a timeline says of each size whether it is freed");
    return {sizes.data(), frees.data(), sizes.size()};
}

inline Cost score_profile(std::span<const std::uint16_t> classes, const mte_tool_profile_arrays &profile) {
    return score_profile(classes.data(), classes.size(), profile);
}

inline Cost footprint_history(std::span<const std::uint16_t> classes, const mte_tool_history_arrays &history) {
    return footprint_history(classes.data(), classes.size(), history);
}

inline Cost footprint_timeline(std::span<const std::uint16_t> classes, const mte_tool_timeline_arrays &timeline) {
    return footprint_timeline(classes.data(), classes.size(), timeline);
}
#endif

/* The number of the class that serves a request of so many bytes: its place in the table, from 0 on. */
inline std::optional<std::size_t> class_of(const std::uint16_t *classes, std::size_t class_count, std::size_t size) noexcept {
    const int number = mte_tool_class_of(classes, class_count, size);
    if (number < 0) return std::nullopt;
    return static_cast<std::size_t>(number);
}

#ifdef __cpp_lib_span
inline std::optional<std::size_t> class_of(std::span<const std::uint16_t> classes, std::size_t size) noexcept {
    return class_of(classes.data(), classes.size(), size);
}
#endif

/* ---- the heap */

/* What a granule is (docs/HEAP.md). A later library may know more kinds. */
enum class Granule : std::uint32_t {
    Slack = MTE_TOOL_GRANULE_SLACK,
    Header = MTE_TOOL_GRANULE_HEADER,
    Tail = MTE_TOOL_GRANULE_TAIL,
    Dead = MTE_TOOL_GRANULE_DEAD,
    Live = MTE_TOOL_GRANULE_LIVE
};

/* What a call on a heap gave. What it did not give is 0. */
struct Outcome {
    bool is_done;              /* else the heap or the machine refused it, and nothing changed */
    Code code;                 /* why it was refused */
    std::uint64_t value;       /* of malloc, calloc, realloc and addg the address; of granule a slot's number */
    std::uint32_t granule;     /* of a tag fault the lowest granule whose tag differs, from the region's start on; of granule the first of
                                  its slot */
    std::uint32_t memory_tag;  /* its tag */
    std::uint32_t pointer_tag; /* the address's tag */
    Granule granule_kind;      /* what that granule is */
    explicit operator bool() const noexcept { return is_done; }
    const char *sentence() const noexcept { return is_done ? "done" : mte_tool::sentence(code); }
};

/* One modelled heap with its tagged memory (docs/HEAP.md), closed with it. An address is a number of 64 bits with its tag in bits 56 to 59,
   and no pointer of the program. A call that can't be made is an Error, such as a load of 65 bytes. */
class Heap {
  public:
    /* A heap over a table of classes in granules, with options.granules, .quarantine and .seed. Throws Error for these and the classes, and
       std::bad_alloc. */
    Heap(const std::uint16_t *classes, std::size_t class_count, const Options &options = Options()) {
        made([&](mte_tool_outcome &to) { return mte_tool_heap_new(&held_, &options, classes, class_count, &to); });
    }
#ifdef __cpp_lib_span
    explicit Heap(std::span<const std::uint16_t> classes, const Options &options = Options())
        : Heap(classes.data(), classes.size(), options) {}
#endif
    Heap(Heap &&other) noexcept : held_(std::exchange(other.held_, nullptr)) {}
    Heap &operator=(Heap &&other) noexcept {
        std::swap(held_, other.held_);
        return *this;
    }
    Heap(const Heap &) = delete;
    Heap &operator=(const Heap &) = delete;
    ~Heap() { mte_tool_heap_close(held_); }

    /* A chunk of so many bytes: its address is in `value`. */
    Outcome malloc(std::size_t size) {
        return made([&](mte_tool_outcome &to) { return mte_tool_heap_malloc(held_, size, &to); });
    }
    /* The same, of zeros. */
    Outcome calloc(std::size_t size) {
        return made([&](mte_tool_outcome &to) { return mte_tool_heap_calloc(held_, size, &to); });
    }
    /* Another size for the chunk at an address; of 0 it is malloc. */
    Outcome realloc(std::uint64_t address, std::size_t size) {
        return made([&](mte_tool_outcome &to) { return mte_tool_heap_realloc(held_, address, size, &to); });
    }
    /* Frees the chunk at an address; 0 is let pass. */
    Outcome free(std::uint64_t address) {
        return made([&](mte_tool_outcome &to) { return mte_tool_heap_free(held_, address, &to); });
    }
    /* Reads 1 to 64 bytes from an address on. */
    Outcome load(std::uint64_t address, void *room, std::size_t length) {
        return made([&](mte_tool_outcome &to) { return mte_tool_heap_load(held_, address, room, length, &to); });
    }
    /* Writes 1 to 64 bytes from an address on. */
    Outcome store(std::uint64_t address, const void *bytes, std::size_t length) {
        return made([&](mte_tool_outcome &to) { return mte_tool_heap_store(held_, address, bytes, length, &to); });
    }
    /* What a granule is, by its number from the region's start on: granule_kind and memory_tag; of a slot its number is in `value`, and its
       first granule in `granule`. */
    Outcome granule(std::uint64_t number) {
        return made([&](mte_tool_outcome &to) { return mte_tool_heap_granule(held_, number, &to); });
    }
    /* The address so many granules (0 to 63) further up, its tag counted up by `step` (0 to 15). */
    Outcome addg(std::uint64_t address, std::uint64_t granules, std::uint64_t step) {
        return made([&](mte_tool_outcome &to) { return mte_tool_heap_addg(held_, address, granules, step, &to); });
    }

  private:
    template <class Call> static Outcome made(Call call) {
        mte_tool_outcome outcome = MTE_TOOL_OUTCOME;
        mte_tool_result result = MTE_TOOL_RESULT;
        const mte_tool_end end = call(outcome);
        result.code = outcome.code;
        const bool is_done = detail::answered(end, result);
        return {is_done, static_cast<Code>(outcome.code), outcome.value, outcome.granule, outcome.memory_tag, outcome.pointer_tag,
                static_cast<Granule>(outcome.granule_kind)};
    }

    mte_tool_heap *held_ = nullptr;
};

} // namespace mte_tool

#endif
