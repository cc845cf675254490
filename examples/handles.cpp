// handles: what attr.hpp promises of its handles: guards nest and outlive moves, each handle can be moved, closed and destroyed in each
// state, a handle that is gone is refused by an exception, and every call of attr.h is there.
#include "attr.hpp"
#include <iostream>
#include <type_traits>

namespace {

int lost = 0;

void expect(bool holds, const char *what) {
    if (holds) return;
    lost++;
    std::cout << "handles: wrong: " << what << '\n';
}

template <class F> bool is_misuse(F call) {
    try { call(); } catch (const attr::misuse &) { return true; }
    return false;
}

template <class F> std::string refusal(F call, std::int32_t code) {
    try { call(); } catch (const attr::error &e) { if (e.code == code) return e.what(); }
    return "no such refusal";
}

void put(attr::engine &engine, int document, const std::string &fields) {
    engine.feed("{\"put\":\"id:a:b::" + std::to_string(document) + "\",\"fields\":{" + fields + "}}\n");
    engine.commit();
}

std::size_t inner(attr::reader &reader) {
    attr::guard guard = reader.hold();
    return reader.hits("[;]").size();
}

void guards() {
    attr::engine engine("year:single:long", {64, 8192, 2, 0, 0});
    put(engine, 1, "\"year\":1");
    attr::reader reader = engine.open_reader();
    {
        attr::guard outer = reader.hold();
        put(engine, 2, "\"year\":2");
        expect(inner(reader) == 1 && reader.ask("[;]").commit == 1, "an inner guard keeps the outer one");
        attr::reader moved = std::move(reader);
        expect(moved.hits("[;]").size() == 1, "a guard stays with a reader that is moved");
        attr::guard other = std::move(outer);
        attr::guard third = moved.hold();
        other = std::move(third);
        expect(moved.hits("[;]").size() == 1 && other.at.commit == 1, "a guard is moved over another of the same reader");
        outer.release();
        third.release();
        reader = std::move(moved);
        expect(reader.hits("[;]").size() == 1, "a guard stays with a reader that is moved back");
    }
    expect(reader.hits("[;]").size() == 2, "the last guard gives the commit back");
    attr::guard late = reader.hold();
    reader.close();
    expect(!reader.is_open() && is_misuse([&] { reader.hold(); }), "a closed reader");
    late.release();
    attr::reader second = engine.open_reader();
    attr::guard left = second.hold();
    engine.take_back(std::move(second));
    left.release();
    attr::reader again = engine.open_reader();
    expect(again.hits("[;]").size() == 2, "a reader that was taken back under a guard is handed out without it");
    engine.close();
    put(engine = attr::engine("year:single:long", {64, 8192, 1, 0, 0}), 1, "\"year\":1");
    expect(again.hits("[;]").size() == 2, "a reader goes on after its engine");
}

void gone() {
    attr::engine one("a:single:long", {64, 8192, 2, 0, 0}), two("a:single:long", {64, 8192, 2, 0, 0}), none;
    attr::reader reader = one.open_reader(), empty;
    expect(is_misuse([&] { two.take_back(std::move(reader)); }) && reader.is_open(), "a reader of another engine is refused and stays");
    expect(is_misuse([&] { none.commit(); }) && is_misuse([&] { empty.ask("1"); }), "handles that were never opened");
    expect(is_misuse([&] { empty.sort(0); }) && is_misuse([&] { empty.documents(); }) && is_misuse([&] { empty.terms("1"); }), "a reader that was never opened");
    attr::engine moved = std::move(one);
    expect(is_misuse([&] { one.commit(); }) && moved.commit().commit == 1, "an engine that was moved from");
    moved.take_back(std::move(reader));
    expect(is_misuse([&] { moved.take_back(std::move(reader)); }), "a reader is taken back once");
    moved = std::move(moved);
    expect(moved.is_open() && moved.commit().commit == 2, "an engine moved to itself");
    attr::reader self = moved.open_reader();
    self = std::move(self);
    expect(self.is_open() && self.count("[;]") == 0, "a reader moved to itself");
    attr::guard held = self.hold();
    held = std::move(held);
    self = attr::reader();
    moved = attr::engine();
    moved.close();
    expect(is_misuse([&] { moved.open_reader(); }) && is_misuse([&] { moved.counts(); }), "a closed engine");
}

void calls() {
    attr::engine engine("tags:weightedset:string,year:single:long", {64, 8192, 1, 0, 0});
    put(engine, 7, "\"tags\":{\"a \\\"quoted\\\" \\\\ name\":3,\"\":-1},\"year\":1969");
    attr::reader reader = engine.open_reader();
    expect(reader.hits(attr::quoted("a \"quoted\" \\ name")) == std::vector<std::uint32_t>{7}, "a quoted text");
    expect(reader.count(attr::quoted("x\",\"")) == 0, "a text with quotes is no other query");
    auto scores = reader.scores("dot(\"\":5)");
    expect(scores.size() == 1 && scores[0].document == 7 && scores[0].score == -5 && scores[0].exact == 1, "scores");
    auto items = reader.items(7, 0);
    expect(items && *items == std::vector<attr::item>{{std::string(), -1}, {std::string("a \"quoted\" \\ name"), 3}}, "items");
    expect(reader.number(7, 1, 0) == 1969 && reader.number(8, 1, -3) == -3 && !reader.items(8, 1), "numbers");
    expect(reader.number(7, 0, -3) == -3, "a string is no number");
    expect(refusal([&] { reader.hits("or(1"); }, ATTR_SYNTAX).find("at its end") != std::string::npos, "a syntax error at the end");
    expect(refusal([&] { reader.hits("year:x"); }, ATTR_SYNTAX).find("at byte") != std::string::npos, "a syntax error with its place");
    expect(refusal([&] { reader.items(7, 9); }, ATTR_BOUNDS) != "no such refusal", "items out of bounds");
    std::string said = refusal([&] { engine.feed("{\"remove\":\"id:a:b::9\"}\n\n{\"put\":1}\n"); }, ATTR_BAD_ID);
    expect(said.find("line 3") != std::string::npos, "a line's number");
    expect(refusal([&] { engine.open_reader(); }, ATTR_NO_READER) != "no such refusal", "no reader left");
    said = refusal([] { attr::engine("a:single:long,b", {64, 8192, 1, 0, 0}); }, ATTR_ATTRIBUTES);
    expect(said.find("number 1") != std::string::npos, "attributes");
    expect(engine.counts().operations == 2 && engine.compact(256).finished <= 1, "counts and a step of a compaction");
    put(engine, 8, "\"tags\":{\"a\":1},\"year\":-9223372036854775808");
    put(engine, 9, "\"year\":-9223372036854775808");
    expect(reader.ask("year:[;]").count == 3, "three documents");
    expect(reader.sort(1) == std::vector<std::uint32_t>{8, 9, 7} && reader.sort(1, attr::order::descending, 1, 9) == std::vector<std::uint32_t>{8, 9}, "sorted");
    expect(reader.sort(0) == std::vector<std::uint32_t>{7, 8, 9} && reader.sort(1, attr::order::ascending, 7, 2).empty(), "sorted by texts");
    attr::totals totals = reader.totals(1);
    expect(totals.count == 3 && totals.sum == -(attr::wide{1} << 64) + 1969 && totals.least == INT64_MIN && totals.greatest == 1969, "totals");
    expect(reader.totals(0).count == 0 && reader.totals(0).sum == 0, "no totals of texts");
    expect(reader.groups(1, attr::grouping::by_count, 1) == std::vector<attr::group>{{INT64_MIN, 2}}, "groups of numbers");
    expect(reader.groups(0) == std::vector<attr::group>{{std::string(), 1}, {std::string("a"), 1}, {std::string("a \"quoted\" \\ name"), 1}}, "groups of texts");
    expect(reader.terms("\"a\"*", 1) == std::vector<attr::group>{{std::string("a"), 1}}, "terms");
    expect(refusal([&] { reader.terms("or(\"a\",\"b\")"); }, ATTR_SYNTAX).find("not one comparison") != std::string::npos, "more than a comparison");
    auto best = reader.best("dot(\"a\":3,\"\":1)", 1);
    expect(best.size() == 1 && best[0].document == 8 && best[0].score == 3 && reader.best("dot(\"a\":3,\"\":1)", attr::all).size() == 2, "the best");
    attr::bulk found = reader.longs(1, {9, 1, 7});
    expect(found.count == 2 && found.numbers == std::vector<std::int64_t>{INT64_MIN, 0, 1969} && found.present == std::vector<std::uint8_t>{1, 0, 1}, "longs");
    expect(reader.longs(1, {}).numbers.empty() && reader.documents() == std::vector<std::uint32_t>{7, 8, 9} && reader.documents(8, 1)[0] == 8, "documents");
    expect(reader.documents(10).empty() && refusal([&] { reader.sort(2); }, ATTR_BOUNDS) != "no such refusal", "no such documents, no such attribute");
    attr::engine single("year:single:long", {64, 8192, 1, 0, 0});
    put(single, 3, "\"year\":5");
    std::vector<std::uint8_t> bytes = single.open_reader().save();
    attr::engine loaded("year:single:long", {64, 8192, 1, 0, 0});
    expect(loaded.load(bytes).operations == 1 && loaded.commit().commit == 1, "a save is loaded");
    expect(loaded.open_reader().hits("5").size() == 1, "what was loaded is found");
    bytes.pop_back();
    expect(refusal([&] { loaded.load(bytes); }, ATTR_BAD_SAVE) != "no such refusal", "half a save");
    expect(attr::version() == ATTR_VERSION && attr::message(ATTR_FULL).size() > 5, "the version and a message");
}

template <class T> constexpr bool moves_only = std::is_nothrow_move_constructible_v<T> && std::is_nothrow_move_assignable_v<T> &&
                                               !std::is_copy_constructible_v<T> && !std::is_copy_assignable_v<T>;
static_assert(moves_only<attr::engine> && moves_only<attr::reader> && moves_only<attr::guard>);

}

int main() {
    guards();
    gone();
    calls();
    std::cout << (lost ? "handles: not as said\n" : "handles: all as said\n");
    return lost != 0;
}
