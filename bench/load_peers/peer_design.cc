// The job over the engine's own structures, without proofs: words in one array of
// atomics, entries by width, copy-on-write trees of 16 slots in 34 words, postings
// short up to 8, the document tree, dropped entries freed below the oldest reader.
// It says what the design can do. The stores of words are sequentially consistent,
// as attr's are; -DORDER=std::memory_order_release makes them release stores, so
// the two builds show what the order costs. All loads are sequentially consistent.
// With -DLOOKS a word is loaded first, and stored only where it differs. With
// -DBUFFERS entries lie in buffers of one width each, which the first word of the
// buffer holds, and a reference names the buffer and the offset in it, as the
// engine's do. With -DUNITS an operation can be undone: an entry that was made
// before it stays until it is done, and what it made is listed. With -DNEAR a node
// takes, where it is free, the place that the node which it replaces had replaced
// itself, which most often holds nearly the same words; other entries take the place
// that has been free for longest. With PEER_TIMES set it tells how many words of how
// many entries it had to store, and how many of these it left since they were there.
// With -DMARKS a reader computes the place of a node once, reads of a leaf its keys
// alone, and answers an And of two values by the bits of the shorter list, as the
// engine does: what these trees allow a plain program.
// Left out: compaction, holds (readers have a slot each), counts for a monitor.
#include "peer_common.h"
#include <atomic>
#include <array>
#include <deque>
#include <memory>

using namespace peer;
#ifndef ORDER
#define ORDER std::memory_order_seq_cst
#endif
using Ref = uint32_t;  // place of the entry in steps of two words; with BUFFERS the offset in its buffer, and 10 bits for the buffer
struct Dropped { Ref ref; uint32_t width; };

struct Design {
  static constexpr size_t LIMIT = size_t(1) << 27;
  std::unique_ptr<std::atomic<uint64_t>[], void (*)(std::atomic<uint64_t>*)> words{static_cast<std::atomic<uint64_t>*>(calloc(LIMIT, 8)), [](std::atomic<uint64_t>* p) { free(p); }};
  size_t used = 2; bool text;
  // What was made since the last commit: the list, and by entry the operation that made it; what earlier ones made and this one drops.
  vector<Ref> free_by[1025], made; vector<uint32_t> made_in; uint32_t unit = 1; vector<Dropped> late;
  vector<Dropped> dropping; vector<std::pair<uint32_t, vector<Dropped>>> held; uint32_t generation = 0;
  std::atomic<uint64_t> root{0}; std::array<std::atomic<uint64_t>, 16> slots{}; std::atomic<uint32_t> seats{0};
  Ref docs = 0, dict = 0; uint64_t stored = 0, entries = 0, left = 0;
  explicit Design(Setup const& s) : text(s.text) { made_in.resize(1 << 16); }
  ~Design() { if (getenv("PEER_TIMES")) fprintf(stderr, "stored words %lu entries %lu left %lu\n", stored, entries, left); }
#ifdef BUFFERS
  static constexpr size_t BUFFER = 16384; uint32_t buffers = 0; struct Filling { uint32_t buffer, next, most; }; Filling filling[1025] = {};
  size_t place(Ref r) const { size_t first = (r & 1023) * BUFFER; return first + 1 + (r >> 10) * words[first].load(); }
  static size_t mark(Ref r) { return (r & 1023) * BUFFER + (r >> 10); }
  Ref fresh_entry(uint32_t width) {
    Filling& f = filling[width];
    if (f.next == f.most) {
      if (buffers == 1023) fail("full", 6);
      f = {buffers++, 0, uint32_t((BUFFER - 1) / width)}; words[f.buffer * BUFFER].store(width, ORDER); used = buffers * BUFFER;
      if (f.buffer == 0) f.next = 1;  // reference 0 is no entry
      if (made_in.size() < used) made_in.resize(used);
    }
    return f.next++ << 10 | f.buffer;
  }
#else
  size_t place(Ref r) const { return size_t(r) * 2; }
  static size_t mark(Ref r) { return r; }
  Ref fresh_entry(uint32_t width) { Ref r = used / 2; used += width; if (used > LIMIT) fail("full", 6); if (r >= made_in.size()) made_in.resize(made_in.size() * 2 + r); return r; }
#endif
  uint64_t get(Ref r, uint32_t i) const { return words[place(r) + i].load(); }
#ifdef LOOKS
  void put(size_t at, uint64_t w) { auto& word = words[at]; if (word.load() == w) left++; else word.store(w, ORDER); }
#else
  void put(size_t at, uint64_t w) { words[at].store(w, ORDER); }
#endif
  static uint32_t width_of(uint32_t n) { uint32_t w = 2; while (w < n) w *= 2; return w; }
#ifdef NEAR
  // By entry: the place that it replaced, and how often it was freed, 0 while it is in use. A queue may have an entry that was taken since.
  vector<Ref> replaced; vector<uint32_t> freed; std::deque<std::pair<Ref, uint32_t>> waiting[1025]; uint32_t frees = 0;
  void set_free(Ref r, uint32_t width) {
    if (freed.size() <= mark(r)) { freed.resize(mark(r) + (1 << 16)); replaced.resize(freed.size()); }
    freed[mark(r)] = ++frees; waiting[width].push_back({r, frees});
  }
  Ref take(uint32_t width, Ref near) {
    Ref aim = near && mark(near) < replaced.size() ? replaced[mark(near)] : 0, r = 0;
    if (aim && freed[mark(aim)]) r = aim;
    while (!r && !waiting[width].empty()) {
      auto [first, when] = waiting[width].front(); waiting[width].pop_front();
      if (freed[mark(first)] == when) r = first;
    }
    if (!r) r = fresh_entry(width);
    if (replaced.size() <= mark(r)) { replaced.resize(mark(r) + (1 << 16)); freed.resize(replaced.size()); }
    freed[mark(r)] = 0; replaced[mark(r)] = near; return r;
  }
#else
  void set_free(Ref r, uint32_t width) { free_by[width].push_back(r); }
  Ref take(uint32_t width, Ref) {
    if (free_by[width].empty()) return fresh_entry(width);
    Ref r = free_by[width].back(); free_by[width].pop_back(); return r;
  }
#endif
  Ref make(uint32_t width, uint64_t const* w, uint32_t n, Ref near = 0) {
    Ref r = take(width, near);
    size_t at = place(r);
    for (uint32_t i = 0; i < width; i++) put(at + i, i < n ? w[i] : 0);
    stored += width; entries++; made_in[mark(r)] = unit; made.push_back(r); return r;
  }
  // An entry made since the last commit is free at once, or, with UNITS, after the operation if an earlier one made it.
  void drop(Ref r, uint32_t width) {
    uint32_t& made = made_in[mark(r)];
#ifdef UNITS
    if (made && made != unit) { late.push_back({r, width}); return; }
#endif
    if (made) { made = 0; set_free(r, width); } else dropping.push_back({r, width});
  }
  void end_unit() {
#ifdef UNITS
    for (auto& d : late) { made_in[mark(d.ref)] = 0; set_free(d.ref, d.width); }
    late.clear(); unit++;
#endif
  }

  // -- values: word 0 the length in bytes, then the bytes
  Ref make_value(string const& k) {
    vector<uint64_t> w(1 + (k.size() + 7) / 8, 0); w[0] = k.size();
    for (size_t i = 0; i < k.size(); i++) w[1 + i / 8] |= uint64_t(uint8_t(k[i])) << (56 - 8 * (i % 8));
    return make(width_of(w.size()), w.data(), w.size());
  }
  uint32_t value_width(Ref r) const { return width_of(1 + (get(r, 0) + 7) / 8); }
  struct Sought { vector<uint64_t> w; uint64_t n; explicit Sought(string const& k) : w((k.size() + 7) / 8), n(k.size()) { for (size_t i = 0; i < k.size(); i++) w[i / 8] |= uint64_t(uint8_t(k[i])) << (56 - 8 * (i % 8)); } };
  int compare(Ref r, Sought const& s) const {  // stored against sought
    uint64_t n = get(r, 0), m = std::min((n + 7) / 8, (s.n + 7) / 8);
    for (uint64_t i = 0; i < m; i++) { uint64_t a = get(r, 1 + i); if (a != s.w[i]) return a < s.w[i] ? -1 : 1; }
    return n < s.n ? -1 : n > s.n;
  }
  string value(Ref r) const { string k(get(r, 0), 0); for (size_t i = 0; i < k.size(); i++) k[i] = char(get(r, 1 + i / 8) >> (56 - 8 * (i % 8))); return k; }

  // -- trees
  struct Node { uint32_t level, used; uint64_t k[17], v[17]; };
  Node load(Ref r) const { Node n; uint64_t h = get(r, 0); n.level = h >> 8; n.used = h & 255; for (uint32_t i = 0; i < n.used; i++) n.k[i] = get(r, 2 + i); for (uint32_t i = 0; i < n.used; i++) n.v[i] = get(r, 18 + i); return n; }
  uint64_t total(Ref r) const { return get(r, 1); }
  Ref save(Node const& n, uint32_t from, uint32_t to, Ref near = 0) {
    uint64_t w[34] = {}; w[0] = uint64_t(n.level) << 8 | (to - from);
    for (uint32_t i = from; i < to; i++) { w[2 + i - from] = n.k[i]; w[18 + i - from] = n.v[i]; w[1] += n.level ? total(n.v[i]) : 1; }
    return make(34, w, 34, near);
  }
  template <class C> uint32_t lower(Ref r, uint32_t used, C const& c) const { uint32_t lo = 0, hi = used; while (lo < hi) { uint32_t m = (lo + hi) / 2; if (c(get(r, 2 + m)) < 0) lo = m + 1; else hi = m; } return lo; }
  // The tree with the pair in it: one node, or two where it was split. `c` says stored against sought.
  template <class C> std::pair<Ref, Ref> insert_at(Ref r, C const& c, uint64_t key, uint64_t value) {
    Node n = load(r); uint32_t i = lower(r, n.used, c);
    if (n.level == 0) {
      if (i < n.used && c(n.k[i]) == 0) { n.k[i] = key; n.v[i] = value; }
      else { for (uint32_t j = n.used; j > i; j--) { n.k[j] = n.k[j - 1]; n.v[j] = n.v[j - 1]; } n.k[i] = key; n.v[i] = value; n.used++; }
    } else {
      if (i == n.used) i--;
      auto [a, b] = insert_at(n.v[i], c, key, value);
      n.v[i] = a; n.k[i] = last(a);
      if (b) { for (uint32_t j = n.used; j > i + 1; j--) { n.k[j] = n.k[j - 1]; n.v[j] = n.v[j - 1]; } n.k[i + 1] = last(b); n.v[i + 1] = b; n.used++; }
    }
    drop(r, 34);
    if (n.used <= 16) return {save(n, 0, n.used, r), 0};
    return {save(n, 0, 8, r), save(n, 8, n.used)};
  }
  uint64_t last(Ref r) const { return get(r, 1 + (get(r, 0) & 255)); }
  template <class C> Ref insert(Ref root, C const& c, uint64_t key, uint64_t value) {
    if (!root) { Node n{0, 1, {key}, {value}}; return save(n, 0, 1); }
    auto [a, b] = insert_at(root, c, key, value);
    if (!b) return a;
    Node n; n.level = (get(a, 0) >> 8) + 1; n.used = 2; n.k[0] = last(a); n.v[0] = a; n.k[1] = last(b); n.v[1] = b; return save(n, 0, 2);
  }
  template <class C> Ref remove_at(Ref r, C const& c) {  // 0 where nothing is left
    Node n = load(r); uint32_t i = lower(r, n.used, c);
    auto cut = [&](uint32_t at) { for (uint32_t j = at; j + 1 < n.used; j++) { n.k[j] = n.k[j + 1]; n.v[j] = n.v[j + 1]; } n.used--; };
    if (n.level == 0) cut(i);
    else {
      Ref a = remove_at(n.v[i], c);
      if (!a) cut(i);
      else {
        n.v[i] = a; n.k[i] = last(a);
        if ((get(a, 0) & 255) < 8 && n.used > 1) {  // with a neighbour: one node, or two that share
          uint32_t l = i ? i - 1 : 0; Node x = load(n.v[l]), y = load(n.v[l + 1]); uint32_t sum = x.used + y.used;
          uint64_t k[34], v[34]; std::copy(x.k, x.k + x.used, k); std::copy(y.k, y.k + y.used, k + x.used); std::copy(x.v, x.v + x.used, v); std::copy(y.v, y.v + y.used, v + x.used);
          Ref one = n.v[l], two = n.v[l + 1]; drop(one, 34); drop(two, 34);
          auto part = [&](uint32_t f, uint32_t t, Ref near) { Node z; z.level = x.level; z.used = t - f; std::copy(k + f, k + t, z.k); std::copy(v + f, v + t, z.v); return save(z, 0, z.used, near); };
          if (sum <= 16) { n.v[l] = part(0, sum, one); n.k[l] = last(n.v[l]); cut(l + 1); }
          else { n.v[l] = part(0, sum / 2, one); n.v[l + 1] = part(sum / 2, sum, two); n.k[l] = last(n.v[l]); n.k[l + 1] = last(n.v[l + 1]); }
        }
      }
    }
    drop(r, 34);
    return n.used ? save(n, 0, n.used, r) : 0;
  }
  template <class C> Ref remove(Ref root, C const& c) {
    root = remove_at(root, c);
    while (root && (get(root, 0) >> 8) && (get(root, 0) & 255) == 1) { Ref below = get(root, 18); drop(root, 34); root = below; }
    return root;
  }
  template <class C> bool find(Ref r, C const& c, uint64_t& key, uint64_t& value) const {  // both 0 where it is not there
    for (key = value = 0; r;) {
      uint64_t h = get(r, 0); uint32_t used = h & 255, i = lower(r, used, c);
      if (i == used) return false;
      if (h >> 8) { r = get(r, 18 + i); continue; }
      if (c(get(r, 2 + i)) != 0) return false;
      key = get(r, 2 + i); value = get(r, 18 + i); return true;
    }
    return false;
  }
  template <class C, class F> bool walk(Ref r, C const* c, F const& f) const {  // from the first pair not below, until f says false
    uint64_t h = get(r, 0); uint32_t used = h & 255, from = c ? lower(r, used, *c) : 0;
    for (uint32_t i = from; i < used; i++)
      if (!(h >> 8 ? walk(Ref(get(r, 18 + i)), i == from ? c : nullptr, f) : f(get(r, 2 + i), get(r, 18 + i)))) return false;
    return true;
  }
#ifdef MARKS
  // The keys of a tree: the place of each node is computed once, and of a leaf no value is read.
  template <class F> void keys(Ref r, uint32_t level, F const& f) const {
    std::atomic<uint64_t> const* at = &words[place(r)]; uint32_t used = at[0].load() & 255;
    if (level) for (uint32_t i = 0; i < used; i++) keys(Ref(at[18 + i].load()), level - 1, f);
    else for (uint32_t i = 0; i < used; i++) f(uint32_t(at[2 + i].load()));
  }
#endif
  struct ByNumber { uint64_t n; int operator()(uint64_t k) const { return k < n ? -1 : k > n; } };

  // -- postings
  uint64_t post(uint64_t list, uint32_t doc, int32_t weight) {
    if (list & 1) return uint64_t(insert(list / 2, ByNumber{doc}, doc, uint32_t(weight))) * 2 + 1;
    vector<uint64_t> w(1); Ref r = list / 2; bool put = false;
    for (uint64_t i = 0, n = r ? get(r, 0) : 0; i < n; i++) { uint64_t e = get(r, 1 + i); if (!put && e >> 32 >= doc) { w.push_back(uint64_t(doc) << 32 | uint32_t(weight)); put = true; if (e >> 32 == doc) continue; } w.push_back(e); }
    if (!put) w.push_back(uint64_t(doc) << 32 | uint32_t(weight));
    if (r) drop(r, width_of(1 + get(r, 0)));
    w[0] = w.size() - 1;
    if (w[0] <= 8) return uint64_t(make(width_of(w.size()), w.data(), w.size())) * 2;
    Node n; n.level = 0; n.used = w[0]; for (uint32_t i = 0; i < n.used; i++) { n.k[i] = w[1 + i] >> 32; n.v[i] = uint32_t(w[1 + i]); }
    return uint64_t(save(n, 0, n.used)) * 2 + 1;
  }
  uint64_t unpost(uint64_t list, uint32_t doc) {
    vector<uint64_t> w(1); Ref r = list / 2;
    if (list & 1) {
      r = remove(r, ByNumber{doc});
      if (total(r) > 8) return uint64_t(r) * 2 + 1;
      walk(r, (ByNumber*)nullptr, [&](uint64_t k, uint64_t v) { w.push_back(k << 32 | v); return true; });
      drop_tree(r);
    } else {
      for (uint64_t i = 0, n = get(r, 0); i < n; i++) { uint64_t e = get(r, 1 + i); if (e >> 32 != doc) w.push_back(e); }
      drop(r, width_of(1 + get(r, 0)));
    }
    w[0] = w.size() - 1;
    return w[0] ? uint64_t(make(width_of(w.size()), w.data(), w.size())) * 2 : 0;
  }
  void drop_tree(Ref r) { Node n = load(r); if (n.level) for (uint32_t i = 0; i < n.used; i++) drop_tree(n.v[i]); drop(r, 34); }

  // -- the engine of peer_common.h; a document's record: count, then (value ref, weight)
  bool items(uint32_t doc, Items& out) {
    uint64_t k, v; out.clear();
    if (!find(docs, ByNumber{doc}, k, v)) return false;
    if (v) for (uint64_t i = 0, n = get(v, 0); i < n; i++) { uint64_t e = get(v, 1 + i); out.push_back({value(e >> 32), int32_t(e)}); }
    return true;
  }
  Ref enter(string const& key, uint32_t doc, int32_t weight) {
    Sought s(key); auto c = [&](uint64_t k) { return compare(k, s); }; uint64_t k, v; Ref r = find(dict, c, k, v) ? k : make_value(key);
    dict = insert(dict, c, r, post(v, doc, weight)); return r;
  }
  void leave(string const& key, uint32_t doc) {
    Sought s(key); auto c = [&](uint64_t k) { return compare(k, s); }; uint64_t k, v;
    find(dict, c, k, v); v = unpost(v, doc);
    if (v) dict = insert(dict, c, k, v); else { dict = remove(dict, c); drop(k, value_width(k)); }
  }
  void set(uint32_t doc, Items const& old, bool was, Items const& now, bool is) {
    uint64_t k, v = 0; if (was) find(docs, ByNumber{doc}, k, v);
    for (auto& x : keys_of(old)) if (std::none_of(now.begin(), now.end(), [&](Item const& i) { return i.key == x; })) leave(x, doc);
    vector<uint64_t> w(1);
    for (auto& i : now) {
      auto same = std::find_if(old.begin(), old.end(), [&](Item const& o) { return o.key == i.key; });
      Ref r; Sought s(i.key); uint64_t f, p;
      if (same != old.end() && same->weight == i.weight) { find(dict, [&](uint64_t q) { return compare(q, s); }, f, p); r = f; } else r = enter(i.key, doc, i.weight);
      w.push_back(uint64_t(r) << 32 | uint32_t(i.weight));
    }
    if (v) drop(v, width_of(1 + get(v, 0)));
    w[0] = w.size() - 1;
    if (is) docs = insert(docs, ByNumber{doc}, doc, w[0] ? make(width_of(w.size()), w.data(), w.size()) : 0);
    else docs = remove(docs, ByNumber{doc});
    end_unit();
  }
  void commit(uint32_t n) {
    uint64_t w[4] = {n, docs, dict, 0}; Ref r = make(4, w, 4);
    if (uint64_t old = root.load()) dropping.push_back({Ref(old), 4});
    root.store(uint64_t(++generation) << 32 | r);
    for (Ref m : made) made_in[mark(m)] = 0;
    made.clear();
    held.push_back({generation, std::move(dropping)}); dropping.clear();
    uint64_t oldest = generation; for (auto& s : slots) if (uint64_t g = s.load()) oldest = std::min(oldest, g - 1);
    size_t done = 0; for (; done < held.size() && held[done].first <= oldest; done++) for (auto& d : held[done].second) set_free(d.ref, d.width);
    held.erase(held.begin(), held.begin() + done);
  }
  size_t store_bytes() { return used * 8; }

  struct Reader {
    Design& e; std::atomic<uint64_t>& slot; Ref docs = 0, dict = 0;
    explicit Reader(Design& d) : e(d), slot(d.slots[d.seats++]) {}
    uint32_t begin() {
      uint64_t r; do { r = e.root.load(); slot.store((r >> 32) + 1); } while (e.root.load() != r);
      if (!r) { docs = dict = 0; return 0; }
      docs = e.get(Ref(r), 1); dict = e.get(Ref(r), 2); return e.get(Ref(r), 0);
    }
    void end() { slot.store(0); }
    uint32_t documents() { return docs ? e.total(docs) : 0; }
#ifdef MARKS
    template <class F> void keys(Ref r, F const& f) { e.keys(r, e.get(r, 0) >> 8, f); }
    uint64_t list_of(Span const& s) { Sought k(s.lo); uint64_t key, v = 0; if (dict) e.find(dict, [&](uint64_t q) { return e.compare(q, k); }, key, v); return v; }
    // The documents of both values: bits of the shorter list, and the longer is read along them.
    bool both(Span const& x, Span const& y, Docs& out) {
      uint64_t a = list_of(x), b = list_of(y);
      if (!(a & b & 1)) return false;
      Ref s = a / 2, l = b / 2; if (e.total(s) > e.total(l)) std::swap(s, l);
      thread_local vector<uint64_t> bits; size_t words = e.last(s) / 64 + 1; bits.assign(words, 0); uint64_t* m = bits.data();
      keys(s, [&](uint32_t d) { m[d >> 6] |= 1ull << (d & 63); });
      keys(l, [&](uint32_t d) { if (d >> 6 < words && m[d >> 6] >> (d & 63) & 1) out.push_back(d); });
      return true;
    }
    void list(uint64_t p, Docs& out) {
      if (p & 1) keys(Ref(p / 2), [&](uint32_t d) { out.push_back(d); });
#else
    void list(uint64_t p, Docs& out) {
      if (p & 1) e.walk(Ref(p / 2), (ByNumber*)nullptr, [&](uint64_t k, uint64_t) { out.push_back(k); return true; });
#endif
      else for (uint64_t i = 0, n = e.get(p / 2, 0); i < n; i++) out.push_back(e.get(p / 2, 1 + i) >> 32);
    }
    void leaf(Span const& s, Docs& out) {
      if (!dict) return;
      Sought lo(s.lo), hi(s.hi); auto c = [&](uint64_t k) { return e.compare(k, lo); };
      if (s.point()) { uint64_t k, v; if (e.find(dict, c, k, v)) list(v, out); return; }
      e.walk(dict, s.has_lo ? &c : nullptr, [&](uint64_t k, uint64_t v) {
        if (s.has_hi) { int o = e.compare(k, hi); if (s.hi_open ? o >= 0 : o > 0) return false; }
        if (!(s.lo_open && e.compare(k, lo) == 0)) list(v, out);
        return true;
      });
    }
  };
};
int main(int argc, char** argv) { return run<Design>(argc, argv); }
