// What the C++ peers share: command line, feed, made input, query text, the
// table's step, set algebra on document lists, threads and report. An engine
// brings only storage:
//   struct Engine { Engine(Setup const&); bool items(doc, Items&); void set(doc, Items const& old,
//     bool was, Items const& now, bool is); void commit(uint32_t n); size_t store_bytes(); };
//   struct Engine::Reader { Reader(Engine&); uint32_t begin(); void leaf(Span const&, Docs&);
//     uint32_t documents(); void end(); };
#pragma once
#include <algorithm>
#include <charconv>
#include <chrono>
#include <cstdint>
#include <cstdio>
#include <cstdlib>
#include <cstring>
#include <string>
#include <thread>
#include <unistd.h>
#include <vector>
#include <rapidjson/document.h>

namespace peer {
using std::string;
using std::vector;
using Docs = vector<uint32_t>;

enum class Kind { Single, Array, WeightedSet };
struct Setup {
  Kind kind = Kind::Single; bool text = false; string field = "f";
  uint32_t batch = 100, readers = 2, rounds = 4, make = 0, seed = 1;
  bool after = false; vector<string> queries;
};
// A value as a key whose bytes sort as the values do.
struct Item { string key; int32_t weight; bool operator==(Item const& o) const { return key == o.key && weight == o.weight; } };
using Items = vector<Item>;
enum class Act { Put, Assign, Add, Take, Keep, Remove };
struct Op { Act act; uint32_t doc; Items items; };

[[noreturn]] inline void fail(char const* what, int code) { fprintf(stderr, "peer: %s\n", what); exit(code); }

inline string long_key(int64_t v) {
  uint64_t u = uint64_t(v) ^ (1ull << 63); string s(8, 0);
  for (int i = 0; i < 8; i++) s[i] = char(u >> (56 - 8 * i));
  return s;
}
inline int64_t key_long(char const* p) {
  uint64_t u = 0; for (int i = 0; i < 8; i++) u = u << 8 | uint8_t(p[i]);
  return int64_t(u ^ (1ull << 63));
}

inline Setup read_words(int argc, char** argv) {
  Setup s; bool kind = false, value = false;
  for (int i = 1; i < argc; i++) {
    string w = argv[i];
    auto next = [&]() -> string { if (++i >= argc) fail("usage", 2); return argv[i]; };
    auto num = [&] { return uint32_t(strtoul(next().c_str(), nullptr, 10)); };
    if (w == "--kind") { string k = next(); kind = true;
      s.kind = k == "single" ? Kind::Single : k == "array" ? Kind::Array : k == "weightedset" ? Kind::WeightedSet : (fail("usage: kind", 2), Kind::Single); }
    else if (w == "--value") { string v = next(); value = true; s.text = v == "string"; if (!s.text && v != "long") fail("usage: value", 2); }
    else if (w == "--field") s.field = next();
    else if (w == "--batch") s.batch = num();
    else if (w == "--readers") s.readers = num();
    else if (w == "--rounds") s.rounds = num();
    else if (w == "--make") s.make = num();
    else if (w == "--seed") s.seed = num();
    else if (w == "--buffers" || w == "--words") next();
    else if (w == "--after") s.after = true;
    else if (w == "--dense") {}
    else if (w[0] == '-') fail("usage: words", 2);
    else s.queries.push_back(w);
  }
  if (!kind || !value || !s.batch) fail("usage: words", 2);
  return s;
}

// ---- feed -----------------------------------------------------------------
// With -DREADS a line is read in the way of the JSON crate that attr uses: 16 KiB of places are set to zero, and the values and strings of the
// line are allocated one by one. Without it a line is read in its place, into a pool on the stack.
#ifdef READS
using Pool = rapidjson::CrtAllocator;
#else
using Pool = rapidjson::MemoryPoolAllocator<>;
#endif
using J = rapidjson::GenericValue<rapidjson::UTF8<>, Pool>;
using Parsed = rapidjson::GenericDocument<rapidjson::UTF8<>, Pool>;
inline string value_key(J const& v, Setup const& s) {
  if (s.text) { if (!v.IsString() || v.GetStringLength() > 1024) fail("BadValue", 3); return {v.GetString(), v.GetStringLength()}; }
  if (!v.IsInt64()) fail("BadValue", 3);
  return long_key(v.GetInt64());
}
inline string name_key(J const& n, Setup const& s) {
  if (s.text) return value_key(n, s);
  int64_t v; char const* b = n.GetString(), *e = b + n.GetStringLength();
  auto r = std::from_chars(b, e, v); if (r.ec != std::errc() || r.ptr != e) fail("BadValue", 3);
  return long_key(v);
}
inline void by_value(Items& a) { std::sort(a.begin(), a.end(), [](Item const& x, Item const& y) { return x.key < y.key; }); }
inline Items items_of(J const& v, Setup const& s) {
  Items out;
  if (v.IsNull()) return out;
  if (s.kind == Kind::Single) out.push_back({value_key(v, s), 1});
  else if (s.kind == Kind::Array) { if (!v.IsArray()) fail("BadValue", 3); out.reserve(v.Size()); for (auto& e : v.GetArray()) out.push_back({value_key(e, s), 1}); }
  else { if (!v.IsObject()) fail("BadValue", 3); for (auto& m : v.GetObject()) { if (!m.value.IsInt()) fail("BadValue", 3); out.push_back({name_key(m.name, s), m.value.GetInt()}); } by_value(out); }
  return out;
}
inline uint32_t doc_of(J const& v) {
  if (!v.IsString()) fail("BadId", 3);
  string id(v.GetString(), v.GetStringLength()); int colons = 0; size_t p = 0;
  if (id.compare(0, 3, "id:")) fail("BadId", 3);
  for (size_t i = 0; i < id.size() && colons < 4; i++) if (id[i] == ':') { colons++; p = i + 1; }
  uint32_t d = 0; auto r = std::from_chars(id.data() + p, id.data() + id.size(), d);
  if (colons != 4 || r.ec != std::errc() || r.ptr != id.data() + id.size() || d < 1 || d > 1048575 || id[p] == '0') fail("BadId", 3);
  return d;
}
inline vector<Op> read_feed(Setup const& s) {
  string in; size_t got = 0;
  for (;;) { in.resize(got + (1 << 20)); ssize_t n = read(0, &in[got], 1 << 20); if (n < 0) fail("read fault", 4); if (n == 0) break; got += n; if (got > 16777216) fail("feed: FeedTooLong", 3); }
  in.resize(got); in.push_back('\n');
  vector<Op> ops; char pool[1 << 16];
  for (size_t at = 0; at < got;) {
    size_t end = in.find('\n', at); in[end] = 0; char* line = &in[at]; at = end + 1;
    if (line[strspn(line, " \t\r")] == 0) continue;
#ifdef READS
    memset(pool, 0, 16384); asm volatile("" : : "r"(pool) : "memory");
    Parsed d; d.Parse<rapidjson::kParseValidateEncodingFlag>(line);
#else
    Pool pools(pool, sizeof pool);
    Parsed d(&pools, 256);
    d.ParseInsitu<rapidjson::kParseValidateEncodingFlag | rapidjson::kParseInsituFlag>(line);
#endif
    if (d.HasParseError()) fail("NotJson", 3);
    if (!d.IsObject()) fail("NoOperation", 3);
    auto put = d.FindMember("put"), up = d.FindMember("update"), rem = d.FindMember("remove"), no = d.MemberEnd();
    if ((put != no) + (up != no) + (rem != no) != 1) fail("NoOperation", 3);
    if (rem != no) { ops.push_back({Act::Remove, doc_of(rem->value), {}}); continue; }
    uint32_t doc = doc_of(put != no ? put->value : up->value);
    auto f = d.FindMember("fields"); if (f == no || !f->value.IsObject()) fail("BadValue", 3);
    auto v = f->value.FindMember(s.field.c_str());
    bool has = v != f->value.MemberEnd();
    if (put != no) { ops.push_back({Act::Put, doc, has ? items_of(v->value, s) : Items{}}); continue; }
    if (!has) { ops.push_back({Act::Keep, doc, {}}); continue; }
    if (!v->value.IsObject() || v->value.MemberCount() != 1) fail("BadValue", 3);
    auto m = v->value.MemberBegin(); string name = m->name.GetString();
    if (name == "assign") ops.push_back({Act::Assign, doc, items_of(m->value, s)});
    else if (name == "add" && s.kind != Kind::Single) ops.push_back({Act::Add, doc, items_of(m->value, s)});
    else if (name == "remove" && s.kind == Kind::WeightedSet) {
      Items t;
      if (m->value.IsArray()) for (auto& e : m->value.GetArray()) t.push_back({value_key(e, s), 1});
      else if (m->value.IsObject()) for (auto& e : m->value.GetObject()) t.push_back({name_key(e.name, s), 1});
      else fail("BadValue", 3);
      by_value(t); ops.push_back({Act::Take, doc, std::move(t)});
    } else fail("Unsupported", 3);
  }
  return ops;
}
inline vector<Op> made(Setup const& s) {  // the made operations
  vector<Op> ops; uint32_t x = s.seed;
  auto draw = [&] { return x = (x * 25173 + 13849) % 65536; };
  for (uint32_t i = 0; i < s.make; i++) {
    uint32_t a = draw(), b = draw(), c = draw() / 8192;
    auto val = [&](uint32_t q) { return s.text ? "t" + std::to_string(q) : long_key(int64_t(q) - 512); };
    Items it; it.push_back({val(b / 64), s.kind == Kind::WeightedSet ? int32_t(a / 64) : 1});
    if (s.kind == Kind::Array) it.push_back({val(b / 64 + 1), 1});
    if (c == 0) ops.push_back({Act::Remove, a / 16 + 1, {}});
    else ops.push_back({c == 1 ? (s.kind == Kind::Single ? Act::Assign : Act::Add) : Act::Put, a / 16 + 1, it});
  }
  return ops;
}
// One operation on one document: false where it is skipped.
inline bool step(Kind kind, bool& there, Items& items, Op const& op) {
  if (op.act == Act::Put) { there = true; items = op.items; return true; }
  if (!there) return false;
  switch (op.act) {
    case Act::Remove: there = false; items.clear(); return true;
    case Act::Keep: return true;
    case Act::Assign: items = op.items; return true;
    case Act::Add: {
      Items all = items;
      if (kind == Kind::Array) all.insert(all.end(), op.items.begin(), op.items.end());
      else for (auto& n : op.items) {
        auto at = std::lower_bound(all.begin(), all.end(), n, [](Item const& x, Item const& y) { return x.key < y.key; });
        if (at != all.end() && at->key == n.key) at->weight = n.weight; else all.insert(at, n);
      }
      if (all.size() > 1023) return false;
      items.swap(all); return true;
    }
    default:
      items.erase(std::remove_if(items.begin(), items.end(), [&](Item const& x) {
        return std::any_of(op.items.begin(), op.items.end(), [&](Item const& t) { return t.key == x.key; }); }), items.end());
      return true;
  }
}
inline vector<string> keys_of(Items const& a) {
  vector<string> k; for (auto& i : a) k.push_back(i.key);
  std::sort(k.begin(), k.end()); k.erase(std::unique(k.begin(), k.end()), k.end()); return k;
}
inline void pack(Items const& items, string& out) {
  out.clear();
  for (auto& i : items) { uint16_t n = i.key.size(); out.append((char*)&n, 2).append(i.key).append((char*)&i.weight, 4); }
}
inline void unpack(char const* p, size_t n, Items& out) {
  out.clear();
  for (char const* e = p + n; p < e;) { uint16_t k; int32_t w; memcpy(&k, p, 2); memcpy(&w, p + 2 + k, 4); out.push_back({string(p + 2, k), w}); p += 6 + k; }
}

// ---- queries --------------------------------------------------------------
// Every leaf is a span of keys.
struct Span { bool has_lo = false, has_hi = false, lo_open = false, hi_open = false; string lo, hi; bool point() const { return has_lo && has_hi && !lo_open && !hi_open && lo == hi; } };
struct Query { char form = 'L'; Span span; vector<Query> kids; };
struct Parser {
  string const& t; bool text; size_t at = 0;
  char peek() { return at < t.size() ? t[at] : 0; }
  void eat(char c) { if (peek() != c) fail("usage: query: Syntax", 2); at++; }
  string value() {
    string s;
    if (peek() == '"') { if (!text) fail("WrongType", 2); at++; while (peek() != '"') { if (peek() == '\\') at++; if (at >= t.size()) fail("Syntax", 2); s += t[at++]; } at++; return s; }
    if (text) fail("WrongType", 2);
    int64_t v; auto r = std::from_chars(t.data() + at, t.data() + t.size(), v); if (r.ec != std::errc()) fail("Syntax", 2);
    at = r.ptr - t.data(); return long_key(v);
  }
  Query query() {
    Query q; Span& s = q.span;
    if (!t.compare(at, 4, "and(") || !t.compare(at, 3, "or(")) {
      q.form = peek() == 'a' ? 'A' : 'O'; at += q.form == 'A' ? 4 : 3;
      for (;;) { q.kids.push_back(query()); if (peek() != ',') break; at++; }
      eat(')'); return q;
    }
    if (peek() == '[') { at++;
      if (peek() != ';') { s.has_lo = true; s.lo = value(); } eat(';');
      if (peek() != ']') { s.has_hi = true; s.hi = value(); } eat(']'); return q; }
    if (peek() == '<') { at++; s.has_hi = s.hi_open = true; s.hi = value(); return q; }
    if (peek() == '>') { at++; s.has_lo = s.lo_open = true; s.lo = value(); return q; }
    bool was_text = peek() == '"'; s.lo = s.hi = value(); s.has_lo = s.has_hi = true;
    if (was_text && peek() == '*') { at++; while (!s.hi.empty() && uint8_t(s.hi.back()) == 255) s.hi.pop_back(); s.has_hi = s.hi_open = !s.hi.empty(); if (s.has_hi) s.hi.back()++; }
    return q;
  }
};
inline Query parse_query(string const& t, bool text) { Parser p{t, text}; Query q = p.query(); if (p.at != t.size()) fail("usage: query: Syntax", 2); return q; }

inline void ascending(Docs& d) {  // sort and drop doubles; a bitmap where that is cheaper
  if (d.size() < 2048) { std::sort(d.begin(), d.end()); d.erase(std::unique(d.begin(), d.end()), d.end()); return; }
  thread_local vector<uint64_t> bits; bits.assign(1 << 14, 0);
  for (uint32_t x : d) bits[x >> 6] |= 1ull << (x & 63);
  d.clear();
  for (uint32_t w = 0; w < bits.size(); w++) for (uint64_t b = bits[w]; b; b &= b - 1) d.push_back(w << 6 | __builtin_ctzll(b));
}
template <class R> void hits(R& reader, Query const& q, Docs& out) {
  out.clear();
  if (q.form == 'L') { reader.leaf(q.span, out); if (!q.span.point()) ascending(out); return; }
#ifdef MARKS
  if (q.form == 'A' && q.kids.size() == 2 && q.kids[0].span.point() && q.kids[1].span.point() && reader.both(q.kids[0].span, q.kids[1].span, out)) return;
#endif
  vector<Docs> parts(q.kids.size());
  for (size_t i = 0; i < parts.size(); i++) hits(reader, q.kids[i], parts[i]);
  if (q.form == 'O') { if (parts.size() == 1) { out.swap(parts[0]); return; } for (auto& p : parts) out.insert(out.end(), p.begin(), p.end()); ascending(out); return; }
  std::sort(parts.begin(), parts.end(), [](Docs const& a, Docs const& b) { return a.size() < b.size(); });
  out.swap(parts[0]);
  for (size_t i = 1; i < parts.size(); i++) {
    Docs& b = parts[i]; Docs both;
    if (b.size() / 32 > out.size()) { auto at = b.begin(); for (uint32_t x : out) { at = std::lower_bound(at, b.end(), x); if (at != b.end() && *at == x) both.push_back(x); } }
    else std::set_intersection(out.begin(), out.end(), b.begin(), b.end(), std::back_inserter(both));
    out.swap(both);
  }
}

// ---- run and report -------------------------------------------------------
inline void put_num(string& o, uint64_t v) { char b[20]; auto r = std::to_chars(b, b + 20, v); o.append(b, r.ptr); }
inline uint64_t now_ns() { return std::chrono::duration_cast<std::chrono::nanoseconds>(std::chrono::steady_clock::now().time_since_epoch()).count(); }

template <class E> int run(int argc, char** argv) {
  uint64_t t0 = now_ns();
  Setup s = read_words(argc, argv);
  vector<Query> queries; for (auto& q : s.queries) queries.push_back(parse_query(q, s.text));
  vector<Op> ops = s.make ? made(s) : read_feed(s);
  uint64_t t1 = now_ns();
  E engine(s);
  using R = typename E::Reader;
  vector<string> rounds(s.readers);
  auto answer = [&](R& r, string& out) {
    Docs d;
    for (size_t q = 0; q < queries.size(); q++) {
      hits(r, queries[q], d); put_num(out, q + 1); out += ':';
      if (s.make) { out += ' '; put_num(out, d.size()); } else for (uint32_t x : d) { out += ' '; put_num(out, x); }
      out += '\n';
    }
  };
  auto reader = [&](uint32_t i) {
    R r(engine); string& out = rounds[i];
    for (uint32_t k = 1; k <= s.rounds; k++) {
      uint32_t n = r.begin();
      out += "reader "; put_num(out, i + 1); out += " round "; put_num(out, k); out += " at "; put_num(out, n); out += '\n';
      answer(r, out); r.end();
    }
  };
  vector<std::thread> threads;
  auto start = [&] { for (uint32_t i = 0; i < s.readers; i++) threads.emplace_back(reader, i); };
  if (!s.after) start();
  uint32_t skipped = 0, n = 0; Items old, now; 
  for (auto& op : ops) {
    bool was = engine.items(op.doc, old), is = was; now = old;
    if (!step(s.kind, is, now, op)) skipped++;
    else if (was != is || !(old == now)) engine.set(op.doc, old, was, now, is);
    if (++n % s.batch == 0) engine.commit(n);
  }
  if (n % s.batch) engine.commit(n);
  uint64_t t2 = now_ns();
  if (s.after) start();
  for (auto& t : threads) t.join();
  uint64_t t3 = now_ns();
  string out;
  { R r(engine); r.begin();
    if (s.make) { out += "made "; put_num(out, s.make); out += " seed "; put_num(out, s.seed); out += "\nfinal at "; put_num(out, n); out += " documents "; put_num(out, r.documents()); out += '\n'; }
    else { for (auto& t : rounds) out += t; out += "final at "; put_num(out, n); out += '\n'; }
    answer(r, out); r.end(); }
  out += "done "; put_num(out, n); out += " operations "; put_num(out, skipped); out += " skipped\n";
  for (size_t at = 0; at < out.size();) { ssize_t w = write(1, out.data() + at, out.size() - at); if (w <= 0) return 5; at += w; }
  if (getenv("PEER_TIMES")) fprintf(stderr, "times parse_ns %lu load_ns %lu rounds_ns %lu store_bytes %zu\n", t1 - t0, t2 - t1, t3 - t2, engine.store_bytes());
  return 0;
}
}  // namespace peer
