// What checks show by mte_tool.hpp: scripts/tests/library_claims.py has the cases, in lines of a command and two texts in
// hexadecimal digits, each with a point after it.
#include <mte_tool.hpp>

#include <iostream>

using namespace mte_tool;

static std::string text_of(const std::string &digits) {
    std::string text;
    for (std::size_t at = 0; at + 1 < digits.size(); at += 2)
        text += static_cast<char>(std::stoi(digits.substr(at, 2), nullptr, 16));
    return text;
}

static void print(const CheckAnswer &found) {
    const Claim &it = found.claim;
    if (!found) {
        std::cout << (it.kind == MTE_TOOL_CLAIM_NONE ? "refused " : "a claim and ") << static_cast<int>(found.code) << '\n';
        return;
    }
    for (std::uint64_t number : {it.kind, it.cost, it.limit, it.step, it.forced, it.sizes, it.requests, it.bytes, it.large,
                                 it.snapshots, it.events})
        std::cout << number << ' ';
    std::string_view text = found.text.view();
    text.remove_prefix(text.find('\n') + 1);
    std::cout << '|' << text.substr(0, text.find('\n')) << '\n';
}

int main() {
    std::string command, first, counts;
    while (std::cin >> command >> first >> counts) {
        try {
            print((command == "check" ? check_claim : check_fit_claim)(text_of(first), text_of(counts)));
        } catch (const Error &error) {
            std::cout << "error " << static_cast<int>(error.code());
            if (error.line()) std::cout << ' ' << error.line();
            std::cout << '\n';
        }
    }
}
