// catalogue: a page of products by price, facets by tag, totals, the best for a customer and suggestions by a prefix, all of one commit, while
// another thread changes products. Each answer is compared with std's containers.
#include "attr.hpp"
#include <iostream>
#include <map>
#include <random>
#include <thread>

namespace {

constexpr std::uint32_t price = 0, tags = 1;
const std::vector<std::string> names{"blue", "cotton", "garden", "glass", "gold", "green", "kitchen", "steel", "wood"};

struct product {
    std::optional<std::int64_t> price;
    std::vector<std::string> tags;
    std::int32_t young, old;
};
using table = std::map<std::uint32_t, product>;

void expect(bool holds, const char *what) {
    if (!holds) throw std::runtime_error(std::string("catalogue: a wrong answer: ") + what);
}

product made(std::mt19937 &dice) {
    product p{std::nullopt, {}, static_cast<std::int32_t>(dice() % 100), static_cast<std::int32_t>(dice() % 100)};
    if (dice() % 20) p.price = dice() % 500 * 10;
    for (const auto &name : names)
        if (dice() % 4 == 0) p.tags.push_back(name);
    return p;
}

std::string line(std::uint32_t document, const product &p) {
    std::string text = "{\"put\":\"id:shop:product::" + std::to_string(document) + "\",\"fields\":{\"tags\":[";
    for (std::size_t i = 0; i < p.tags.size(); i++) text += (i ? ",\"" : "\"") + p.tags[i] + "\"";
    text += "],\"liked\":{\"young\":" + std::to_string(p.young) + ",\"old\":" + std::to_string(p.old) + "}";
    if (p.price) text += ",\"price\":" + std::to_string(*p.price);
    return text + "}}\n";
}

bool has(const product &p, const std::string &tag) { return std::find(p.tags.begin(), p.tags.end(), tag) != p.tags.end(); }

// Everything that a page of the shop shows, of the commit that the reader holds.
void shop(attr::reader &reader, const table &products, const std::string &tag) {
    std::vector<std::uint32_t> hits;
    for (const auto &[document, p] : products)
        if (has(p, tag)) hits.push_back(document);
    expect(reader.ask("tags:" + attr::quoted(tag)).count == hits.size(), "hits");

    auto is_cheaper = [&](std::uint32_t a, std::uint32_t b) {
        const auto &x = products.at(a).price, &y = products.at(b).price;
        return x && y ? *x < *y : x && !y;
    };
    std::stable_sort(hits.begin(), hits.end(), is_cheaper);
    std::vector<std::uint32_t> page = reader.sort(price, attr::order::ascending, 10, 10), all = reader.sort(price);
    expect(all == hits, "products by price");
    expect(page == std::vector<std::uint32_t>(hits.begin() + std::min<std::size_t>(10, hits.size()), hits.begin() + std::min<std::size_t>(20, hits.size())), "the second page");
    attr::bulk prices = reader.longs(price, page);
    for (std::size_t i = 0; i < page.size(); i++) {
        const auto &wanted = products.at(page[i]).price;
        expect(prices.present[i] == wanted.has_value() && prices.numbers[i] == wanted.value_or(0), "a price");
    }

    attr::totals totals = reader.totals(price);
    attr::wide sum = 0;
    for (auto document : hits) sum += products.at(document).price.value_or(0);
    expect(totals.sum == sum, "the sum");
    expect(!totals.count || (totals.least == *products.at(hits[0]).price && totals.greatest == *products.at(hits[totals.count - 1]).price), "the bounds");

    std::map<std::string, std::uint64_t> counts, of_all;
    for (const auto &[document, p] : products)
        for (const auto &name : p.tags) of_all[name]++, counts[name] += has(p, tag);
    std::vector<attr::group> facets = reader.groups(tags), frequent = reader.groups(tags, attr::grouping::by_count, 3), wanted;
    for (const auto &[name, count] : counts)
        if (count) wanted.push_back({name, count});
    expect(facets == wanted, "facets");
    std::stable_sort(wanted.begin(), wanted.end(), [](const attr::group &a, const attr::group &b) { return a.documents > b.documents; });
    wanted.resize(std::min<std::size_t>(3, wanted.size()));
    expect(frequent == wanted, "the most frequent tags");

    wanted.clear();
    for (auto it = of_all.lower_bound("g"); it != of_all.end() && it->first[0] == 'g'; ++it) wanted.push_back({it->first, it->second});
    expect(reader.terms("tags:\"g\"*") == wanted, "suggestions");

    std::vector<std::pair<std::int64_t, std::uint32_t>> best;
    for (const auto &[document, p] : products) best.push_back({p.old - 3 * std::int64_t{p.young}, document});
    std::sort(best.begin(), best.end());
    std::vector<attr_score> liked = reader.best("liked:dot(\"young\":3,\"old\":-1)", 10);
    expect(liked.size() == std::min<std::size_t>(10, best.size()), "as many of the best");
    for (std::size_t i = 0; i < liked.size(); i++) expect(liked[i].score == -best[i].first && liked[i].document == best[i].second, "one of the best");

    std::vector<std::uint32_t> every;
    for (const auto &[document, p] : products)
        if (document >= 100) every.push_back(document);
    expect(reader.documents(100) == every, "the documents from 100 on");
}

}

int main() {
    attr::engine engine("price:single:long,tags:array:string,liked:weightedset:string", attr_sizes{256, 8192, 1, 0, 0});
    attr::reader reader = engine.open_reader();
    std::mt19937 dice(1);
    std::vector<table> commits(1);
    for (std::uint32_t document = 1; document <= 1500; document++) {
        product p = commits[0][document * 2] = made(dice);
        engine.feed(line(document * 2, p));
    }
    engine.commit();
    // (what the writer makes of the table is made before, so that the two threads share nothing but the library)
    std::vector<std::string> lines;
    for (int i = 0; i < 20; i++) {
        table next = commits.back();
        std::string text;
        for (int k = 0; k < 50; k++) {
            std::uint32_t document = 1 + static_cast<std::uint32_t>(dice() % 3000);
            product p = next[document] = made(dice);
            text += line(document, p);
        }
        commits.push_back(std::move(next));
        lines.push_back(std::move(text));
    }
    std::thread writer([&] {
        for (const auto &text : lines) {
            engine.feed(text);
            engine.commit();
        }
    });
    int rounds = 0;
    try {
        for (std::uint32_t last = 0; last < commits.size(); rounds++) {
            attr::guard held = reader.hold();
            last = held.at.commit;
            shop(reader, commits[last - 1], names[static_cast<std::size_t>(rounds) % names.size()]);
        }
        shop(reader, commits.back(), "no such tag");
    } catch (const std::exception &fault) {
        std::cerr << fault.what() << '\n';
        std::_Exit(1);
    }
    writer.join();
    std::cout << "catalogue: every answer right, beside a writer of " << lines.size() << " commits\n";
    std::cerr << "catalogue: " << rounds << " rounds\n";
    return 0;
}
