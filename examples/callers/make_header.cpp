// make_header LIMIT < PROFILE > table.h: the best table of at most LIMIT classes, as an array for C++.
// c++ -std=c++17 -IDIR/include make_header.cpp DIR/lib/libmte_tool.a -o make_header, where DIR is that of scripts/library
#include <mte_tool.hpp>

#include <cstdlib>
#include <iostream>
#include <iterator>
#include <sstream>
#include <string>

int main(int argc, char **argv) {
    const std::uint64_t limit = argc == 2 ? std::strtoull(argv[1], nullptr, 10) : 0;
    const std::string profile((std::istreambuf_iterator<char>(std::cin)), {});
    try {
        const mte_tool::Text sheet = mte_tool::tune(profile, mte_tool::Options(limit));
        if (!mte_tool::check(sheet.view(), profile)) return 1;
        std::istringstream classes(std::string(sheet.view().substr(0, sheet.view().find('\n'))));
        std::string word;
        std::cout << "#pragma once\n// sizes of blocks in bytes\nconstexpr unsigned class_bytes[] = {";
        for (classes >> word; classes >> word;) std::cout << 16 * std::stoi(word) << ", ";
        std::cout << "};\n";
    } catch (const mte_tool::Error &error) {
        std::cerr << "make_header: " << error.what() << "\n";
        return 2;
    }
}
