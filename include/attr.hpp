// attr.hpp: the calls of attr.h for C++17, with handles that close themselves.
//
// An engine, a reader and a guard are moved and not copied. Each may be moved, destroyed or assigned to in every state. A handle that was
// closed or moved from throws attr::misuse when it is used, and so does a reader that is given back to another engine. THE RULES of attr.h
// about threads stay the caller's: one call at a time uses an engine, or a reader with its guards.
//
// A call that is refused throws attr::error, with the code and with the line and the place that the call told.
#pragma once
#include "attr.h"
#include <algorithm>
#include <atomic>
#include <cstdint>
#include <memory>
#include <optional>
#include <stdexcept>
#include <string>
#include <string_view>
#include <utility>
#include <variant>
#include <vector>

namespace attr {

// The version of the library that runs, as ATTR_VERSION is that of the header.
inline std::uint32_t version() { return attr_version(); }

inline std::string message(std::int32_t code) {
    std::uint8_t text[80];
    return std::string(reinterpret_cast<const char *>(text), attr_message(code, text, sizeof text));
}

// A call was refused. line and place are those of attr_told or attr_answer, and 0 where the call tells none.
struct error : std::runtime_error {
    std::int32_t code;
    std::uint64_t line, place;
    error(std::int32_t code_, const std::string &text, std::uint64_t line_ = 0, std::uint64_t place_ = 0)
        : std::runtime_error(text), code(code_), line(line_), place(place_) {}
};

// A handle was used that is closed or was moved from, or a reader of another engine. Nothing was called.
struct misuse : std::logic_error {
    using std::logic_error::logic_error;
};

// A text as a leaf of a query: in quotes, with its own quotes and backslashes escaped, so that no text can become another query.
inline std::string quoted(std::string_view text) {
    std::string leaf = "\"";
    for (char c : text) {
        if (c == '"' || c == '\\') leaf += '\\';
        leaf += c;
    }
    return leaf += '"';
}

// A document's item: a long or a string, and its weight, 1 but in a weighted set.
struct item {
    std::variant<std::int64_t, std::string> value;
    std::int32_t weight;
    bool is_text() const { return value.index() == 1; }
};
inline bool operator==(const item &a, const item &b) { return a.value == b.value && a.weight == b.weight; }

// Documents without a value are last in both orders; equal values stand by document, ascending.
enum class order : std::uint32_t { ascending = 0, descending = 1 };

// Groups ascend by value, or those with the most documents come first, and of equal counts the least value.
enum class grouping : std::uint32_t { by_value = 0, by_count = 1 };

// As many as there are.
inline constexpr std::size_t all = SIZE_MAX;

__extension__ typedef __int128 wide;

// The numbers of some documents: how many, their sum, the least and the greatest. Without a number all are 0.
struct totals {
    std::uint64_t count = 0;
    wide sum = 0;
    std::int64_t least = 0, greatest = 0;
};

// A value, and how many documents have it.
struct group {
    std::variant<std::int64_t, std::string> value;
    std::uint64_t documents;
    bool is_text() const { return value.index() == 1; }
};
inline bool operator==(const group &a, const group &b) { return a.value == b.value && a.documents == b.documents; }

// The numbers of given documents, in their order: present[i] is 1 and numbers[i] the number, or both are 0. `count` is how many have one.
struct bulk {
    std::vector<std::int64_t> numbers;
    std::vector<std::uint8_t> present;
    std::uint64_t count = 0;
};

namespace detail {

inline const std::uint8_t *bytes_of(std::string_view text) {
    return reinterpret_cast<const std::uint8_t *>(text.empty() ? "" : text.data());
}

inline void must(std::int32_t code) {
    if (code != ATTR_OK) throw error(code, message(code));
}

// The message of a refused text, with what it says from the place on where it breaks off.
inline void must_ask(std::int32_t code, std::string_view text, const attr_answer &answer, const char *no = "no query and no dot product") {
    if (code == ATTR_OK) return;
    bool has_place = code == ATTR_SYNTAX || code == ATTR_NO_FIELD;
    std::string said = code == ATTR_SYNTAX ? "the text is " + std::string(no) + ": it breaks off" : message(code) + ":";
    if (has_place && answer.place < text.size())
        said += " at byte " + std::to_string(answer.place) + ", before " + std::string(text.substr(answer.place, 40));
    else if (has_place) said += " at its end";
    else said.pop_back();
    throw error(code, said, 0, has_place ? answer.place : 0);
}

inline void must_write(std::int32_t code, const attr_told &told) {
    if (code == ATTR_OK) return;
    std::string said = message(code);
    if (told.line) said += ": line " + std::to_string(told.line) + ", at byte " + std::to_string(told.place);
    if (code == ATTR_FULL)
        said += ": " + std::to_string(told.active) + " buffers in use, " + std::to_string(told.held) + " held" +
                (told.is_held ? " by a reader of commit " + std::to_string(told.oldest) + " or later" : "");
    throw error(code, said, told.line, told.place);
}

// A reader's handle, which the reader and its guards own together.
struct seat {
    attr_reader handle{nullptr};
    std::uint64_t engine = 0;  // the number of the engine that handed it out
    std::uint64_t kept = 0;    // how many documents the answer has that the reader keeps
    unsigned guards = 0;
    seat() = default;
    seat(const seat &) = delete;
    seat &operator=(const seat &) = delete;
    ~seat() { close(); }
    void close() {
        if (handle.at) attr_reader_close(std::exchange(handle, attr_reader{nullptr}));
    }
    attr_reader *open() {
        if (!handle.at) throw misuse("attr: the reader was given back");
        return &handle;
    }
};

inline std::uint64_t next_engine() {
    static std::atomic<std::uint64_t> made{0};
    return ++made;
}

}

// One commit for several answers of a reader, from reader::hold until it is released or destroyed. Guards nest: the reader's commit is
// given back with its last guard. A guard may outlive its reader and a move of it.
class guard {
    std::shared_ptr<detail::seat> seat_;

public:
    attr_answer at{};  // the commit, and how many operations it has

    explicit guard(std::shared_ptr<detail::seat> seat) {
        detail::must(attr_hold(seat->open(), &at));
        seat->guards++;
        seat_ = std::move(seat);
    }
    guard(guard &&other) noexcept : seat_(std::move(other.seat_)), at(other.at) { other.seat_.reset(); }
    guard &operator=(guard &&other) noexcept {
        if (this != &other) {
            release();
            seat_ = std::move(other.seat_);
            other.seat_.reset();
            at = other.at;
        }
        return *this;
    }
    ~guard() { release(); }

    void release() noexcept {
        if (!seat_) return;
        if (--seat_->guards == 0 && seat_->handle.at) attr_release(&seat_->handle);
        seat_.reset();
    }
};

// A reader: one thread's at a time, and moved between threads as any value is.
class reader {
    std::shared_ptr<detail::seat> seat_;
    friend class engine;
    explicit reader(std::shared_ptr<detail::seat> seat) : seat_(std::move(seat)) {}

    attr_reader *open() const {
        if (!seat_) throw misuse("attr: the reader is closed or was moved from");
        return seat_->open();
    }

public:
    reader() = default;  // closed
    reader(reader &&other) noexcept : seat_(std::move(other.seat_)) { other.seat_.reset(); }
    reader &operator=(reader &&other) noexcept {
        std::shared_ptr<detail::seat> taken = std::move(other.seat_);
        other.seat_.reset();
        seat_ = std::move(taken);
        return *this;
    }

    bool is_open() const noexcept { return seat_ && seat_->handle.at; }
    // Gives the reader up for good, when its last guard is gone. It may be closed twice.
    void close() noexcept { seat_.reset(); }

    guard hold() {
        open();
        return guard(seat_);
    }

    // Answers a query or a dot product; the answer is kept until the next one.
    attr_answer ask(std::string_view text) {
        attr_answer answer{};
        detail::must_ask(attr_ask(open(), detail::bytes_of(text), text.size(), &answer), text, answer);
        seat_->kept = answer.count;
        return answer;
    }
    // How many documents answer; the answer that is kept stays.
    std::uint64_t count(std::string_view text) {
        attr_answer answer{};
        detail::must_ask(attr_count(open(), detail::bytes_of(text), text.size(), &answer), text, answer);
        return answer.count;
    }

    // The documents of the answer that is kept, from number `first` on, into room of the caller's; returns how many there were.
    std::size_t hits(std::size_t first, std::uint32_t *into, std::size_t room) {
        std::uint32_t none;
        return attr_hits(open(), first, room ? into : &none, room);
    }
    std::size_t scores(std::size_t first, attr_score *into, std::size_t room) {
        attr_score none;
        return attr_scores(open(), first, room ? into : &none, room);
    }
    // The documents that answer a text, and those that answer a dot product with their scores.
    std::vector<std::uint32_t> hits(std::string_view text) {
        std::vector<std::uint32_t> documents(ask(text).count);
        documents.resize(hits(0, documents.data(), documents.size()));
        return documents;
    }
    std::vector<attr_score> scores(std::string_view text) {
        std::vector<attr_score> documents(ask(text).count);
        documents.resize(scores(0, documents.data(), documents.size()));
        return documents;
    }

    // The items that a document has in an attribute; nothing where the document is not there.
    std::optional<std::vector<item>> items(std::uint32_t document, std::uint32_t field) {
        std::optional<std::uint64_t> count = read_items(document, field);
        if (!count) return std::nullopt;
        std::vector<item> found;
        found.reserve(*count);
        for (std::uint64_t number = 0; number < *count; number++) found.push_back(kept_item(number));
        return found;
    }
    // The first number that a document has in an attribute; `other` where it has none, as in an attribute of strings.
    std::int64_t number(std::uint32_t document, std::uint32_t field, std::int64_t other) {
        std::optional<std::uint64_t> count = read_items(document, field);
        if (!count || *count == 0) return other;
        attr_item_told told{};
        detail::must(attr_item(open(), 0, &told));
        return told.is_text ? other : told.number;
    }

    // Sorting, grouping and values in bulk are about the answer that is kept, or about given documents, by the values of the guard's commit, else
    // of the last one. The answer stays.

    // The documents of the answer by their values in an attribute, from number `first` on, into room of the caller's; returns how many there
    // were.
    std::size_t sort(std::uint32_t field, order by, std::size_t first, std::uint32_t *into, std::size_t room) {
        attr_answer answer{};
        std::uint32_t none;
        detail::must(attr_sort(open(), field, static_cast<std::uint32_t>(by), first, room ? into : &none, room, &answer));
        return answer.count;
    }
    // The same, at most `most` of them.
    std::vector<std::uint32_t> sort(std::uint32_t field, order by = order::ascending, std::size_t first = 0, std::size_t most = all) {
        open();
        std::vector<std::uint32_t> page(std::min<std::uint64_t>(most, seat_->kept - std::min<std::uint64_t>(seat_->kept, first)));
        page.resize(sort(field, by, first, page.data(), page.size()));
        return page;
    }

    // The totals of the numbers that the documents of the answer have in an attribute.
    attr::totals totals(std::uint32_t field) {
        attr_answer answer{};
        attr_totals_told told{};
        detail::must(attr_totals(open(), field, &told, &answer));
        return {told.count, static_cast<wide>(told.high) * (static_cast<wide>(1) << 64) + told.low, told.least, told.greatest};
    }

    // The best scores of a dot product, into room of the caller's; returns how many there were.
    std::size_t best(std::string_view text, attr_score *into, std::size_t room) {
        attr_answer answer{};
        attr_score none;
        detail::must_ask(attr_best(open(), detail::bytes_of(text), text.size(), room ? into : &none, room, &answer), text, answer);
        return answer.count;
    }
    // The same, at most `most` of them.
    std::vector<attr_score> best(std::string_view text, std::size_t most) {
        // (how many there are is not known before: little room is tried first)
        for (std::size_t room = std::min<std::size_t>(most, 4096);; room = std::min(most, room * 16)) {
            std::vector<attr_score> scores(room);
            scores.resize(best(text, scores.data(), room));
            if (scores.size() < room || room == most) return scores;
        }
    }

    // The groups of the documents of the answer by their values in an attribute, at most `most` of them.
    std::vector<group> groups(std::uint32_t field, grouping by = grouping::by_value, std::size_t most = all) {
        attr_answer answer{};
        detail::must(attr_group(open(), field, static_cast<std::uint32_t>(by), most, &answer));
        return kept_groups(answer.count);
    }
    // The values of an attribute that meet one comparison, ascending, each with how many documents of the commit have it.
    std::vector<group> terms(std::string_view text, std::size_t most = all) {
        attr_answer answer{};
        std::int32_t code = attr_terms(open(), detail::bytes_of(text), text.size(), most, &answer);
        detail::must_ask(code, text, answer, "not one comparison");
        return kept_groups(answer.count);
    }

    // Writes for each document the number that it has in an attribute, and whether it has one, and returns how many have one. It is fastest
    // where the documents ascend. numbers and present have room for `count`.
    std::uint64_t longs(std::uint32_t field, const std::uint32_t *documents, std::size_t count, std::int64_t *numbers, std::uint8_t *present) {
        attr_answer answer{};
        std::uint32_t none = 0;
        std::int64_t number;
        std::uint8_t is;
        detail::must(attr_longs(open(), field, count ? documents : &none, count, count ? numbers : &number, count, count ? present : &is, count, &answer));
        return answer.count;
    }
    bulk longs(std::uint32_t field, const std::vector<std::uint32_t> &documents) {
        std::size_t count = documents.size();
        bulk found{std::vector<std::int64_t>(count), std::vector<std::uint8_t>(count)};
        found.count = longs(field, documents.data(), count, found.numbers.data(), found.present.data());
        return found;
    }

    // The documents of the commit from this one on, ascending, into room of the caller's; returns how many there were.
    std::size_t documents(std::uint32_t first, std::uint32_t *into, std::size_t room) {
        attr_answer answer{};
        std::uint32_t none;
        detail::must(attr_documents(open(), first, room ? into : &none, room, &answer));
        return answer.count;
    }
    // The same, at most `most` of them, all of one commit.
    std::vector<std::uint32_t> documents(std::uint32_t first = 1, std::size_t most = all) {
        guard held = hold();
        std::vector<std::uint32_t> found;
        while (found.size() < most) {
            std::size_t had = found.size(), room = std::min(most - had, std::max<std::size_t>(had, 1024));
            found.resize(had + room);
            std::size_t came = documents(first, found.data() + had, room);
            found.resize(had + came);
            if (came < room) break;
            first = found.back() + 1;
        }
        return found;
    }

    // Saves the first attribute, as docs/FORMATS.md says.
    std::vector<std::uint8_t> save() {
        attr_answer answer{};
        detail::must(attr_save(open(), &answer));
        std::vector<std::uint8_t> bytes(answer.count);
        bytes.resize(saved(0, bytes.data(), bytes.size()));
        return bytes;
    }
    // Bytes of the last save, from number `first` on.
    std::size_t saved(std::size_t first, std::uint8_t *into, std::size_t room) {
        std::uint8_t none;
        return attr_saved(open(), first, room ? into : &none, room);
    }

private:
    std::vector<group> kept_groups(std::uint64_t count) {
        std::vector<group> found;
        found.reserve(count);
        for (std::uint64_t number = 0; number < count; number++) found.push_back(kept_group(number));
        return found;
    }
    group kept_group(std::uint64_t number) {
        attr_group_told told{};
        detail::must(attr_group_at(open(), number, &told));
        if (!told.is_text) return group{told.number, told.documents};
        std::uint8_t none;
        std::string text(told.length, '\0');
        text.resize(attr_group_text(open(), number, text.empty() ? &none : reinterpret_cast<std::uint8_t *>(&text[0]), text.size()));
        return group{std::move(text), told.documents};
    }
    std::optional<std::uint64_t> read_items(std::uint32_t document, std::uint32_t field) {
        attr_answer answer{};
        std::int32_t code = attr_items(open(), document, field, &answer);
        if (code == ATTR_NO_DOCUMENT) return std::nullopt;
        detail::must(code);
        return answer.count;
    }
    item kept_item(std::uint64_t number) {
        attr_item_told told{};
        detail::must(attr_item(open(), number, &told));
        if (!told.is_text) return item{told.number, told.weight};
        std::uint8_t none;
        std::string text(told.length, '\0');
        text.resize(attr_item_text(open(), number, text.empty() ? &none : reinterpret_cast<std::uint8_t *>(&text[0]), text.size()));
        return item{std::move(text), told.weight};
    }
};

// The engine: one thread's.
class engine {
    attr_engine handle_{nullptr};
    std::uint64_t number_ = 0;

    attr_engine *open() {
        if (!handle_.at) throw misuse("attr: the engine is closed or was moved from");
        return &handle_;
    }

public:
    engine() = default;  // closed
    engine(std::string_view attributes, const attr_sizes &sizes) : number_(detail::next_engine()) {
        if (attr_version() / 1000 != ATTR_VERSION / 1000) throw misuse("attr: the library is of another version than its header");
        std::uint64_t place = 0;
        std::int32_t code = attr_open(detail::bytes_of(attributes), attributes.size(), &sizes, &handle_.at, &place);
        if (code == ATTR_OK) return;
        handle_.at = nullptr;
        std::string which = code == ATTR_ATTRIBUTES ? ": attribute number " + std::to_string(place) + ", from 0" : "";
        throw error(code, message(code) + which, 0, place);
    }
    engine(engine &&other) noexcept : handle_(std::exchange(other.handle_, attr_engine{nullptr})), number_(other.number_) {}
    engine &operator=(engine &&other) noexcept {
        attr_engine taken = std::exchange(other.handle_, attr_engine{nullptr});
        std::uint64_t number = other.number_;
        close();
        handle_ = taken;
        number_ = number;
        return *this;
    }
    ~engine() { close(); }

    bool is_open() const noexcept { return handle_.at != nullptr; }
    // Closes the engine; its readers may go on at the last commit. It may be closed twice.
    void close() noexcept {
        if (handle_.at) attr_close(std::exchange(handle_, attr_engine{nullptr}));
    }

    // Applies lines up to one that is refused: told says which, and the code says why.
    std::int32_t feed(std::string_view lines, attr_told &told) { return attr_feed(open(), detail::bytes_of(lines), lines.size(), &told); }
    attr_told feed(std::string_view lines) {
        attr_told told{};
        detail::must_write(feed(lines, told), told);
        return told;
    }
    std::int32_t commit(attr_told &told) { return attr_commit(open(), &told); }
    attr_told commit() {
        attr_told told{};
        detail::must_write(commit(told), told);
        return told;
    }
    std::int32_t compact(std::uint32_t keys, attr_told &told) { return attr_compact(open(), keys, &told); }
    attr_told compact(std::uint32_t keys) {
        attr_told told{};
        detail::must_write(compact(keys, told), told);
        return told;
    }
    std::int32_t load(const std::uint8_t *bytes, std::size_t length, attr_told &told) {
        return attr_load(open(), length ? bytes : detail::bytes_of({}), length, &told);
    }
    attr_told load(const std::vector<std::uint8_t> &bytes) {
        attr_told told{};
        detail::must_write(load(bytes.data(), bytes.size(), told), told);
        return told;
    }
    attr_numbers counts() {
        attr_numbers numbers{};
        attr_counts(open(), &numbers);
        return numbers;
    }

    reader open_reader() {
        auto seat = std::make_shared<detail::seat>();
        std::int32_t code = attr_reader_open(open(), &seat->handle.at);
        if (code != ATTR_OK) {
            seat->handle.at = nullptr;
            throw error(code, message(code));
        }
        seat->engine = number_;
        return reader(std::move(seat));
    }
    // Takes a reader of this engine back, so that it can be handed out again. Its guards hold nothing any more. The reader of another
    // engine is refused, and stays as it is.
    void take_back(reader &&r) {
        attr_engine *engine = open();
        r.open();
        if (r.seat_->engine != number_) throw misuse("attr: the reader is of another engine");
        std::shared_ptr<detail::seat> seat = std::move(r.seat_);
        r.seat_.reset();
        detail::must(attr_reader_return(engine, std::exchange(seat->handle, attr_reader{nullptr})));
    }
};

}
