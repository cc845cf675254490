// grouping: songs of some years, sorted by a number and grouped by decade, all at one commit, while another thread writes on.
#include "attr.hpp"
#include <algorithm>
#include <iostream>
#include <map>
#include <thread>

namespace {

std::string put(unsigned document, int year, int plays) {
    return "{\"put\":\"id:music:song::" + std::to_string(document) + "\",\"fields\":{\"year\":" + std::to_string(year) + ",\"plays\":" + std::to_string(plays) + "}}\n";
}

std::map<std::int64_t, std::vector<std::uint32_t>> by_decade(attr::reader &reader) {
    attr::guard guard = reader.hold();
    std::map<std::int64_t, std::vector<std::uint32_t>> groups;
    for (std::uint32_t document : reader.hits("year:[1950;1989]")) groups[reader.number(document, 0, 0) / 10 * 10].push_back(document);
    for (auto &group : groups)
        std::stable_sort(group.second.begin(), group.second.end(), [&](std::uint32_t a, std::uint32_t b) { return reader.number(a, 1, 0) > reader.number(b, 1, 0); });
    return groups;
}

}

int main() {
    attr::engine engine("year:single:long,plays:single:long", attr_sizes{128, 8192, 2, 0, 0});
    for (unsigned document = 1; document <= 40; document++) engine.feed(put(document, 1949 + (int)document, (int)(document * 7 % 40)));
    engine.commit();

    attr::reader reader = engine.open_reader();
    std::thread writer([&engine] {
        for (int i = 0; i < 200; i++) {
            engine.feed(put(1000 + (unsigned)i, 1950 + i % 40, i));
            engine.commit();
        }
    });
    std::uint64_t before = 0;
    while (before < 240) {
        std::uint64_t count = reader.count("[;]");
        if (count < before) return 1;
        before = count;
    }
    writer.join();

    std::size_t all = 0;
    for (const auto &group : by_decade(reader)) {
        std::cout << group.first << ':';
        for (std::size_t i = 0; i < 5 && i < group.second.size(); i++) std::cout << ' ' << group.second[i];
        std::cout << " (" << group.second.size() << " songs)\n";
        all += group.second.size();
    }
    if (all != 240) return 1;

    attr_told told;
    if (engine.feed("{\"put\":1}\n", told) != ATTR_BAD_ID || told.line != 1) return 1;
    try {
        reader.hits("or(1");
        return 1;
    } catch (const attr::error &e) {
        if (e.code != ATTR_SYNTAX) return 1;
    }
    engine.take_back(std::move(reader));
    std::cout << "grouping: " << all << " songs\n";
    return 0;
}
