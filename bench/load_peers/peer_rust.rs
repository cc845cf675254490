//! The job over Rust's std alone: words, feed, queries, threads, report. The maps are `store_std.rs`.
use std::io::{Read, Write};
use std::sync::Arc;
use std::time::Instant;

#[path = "store_std.rs"]
mod store;
use store::{Snapshot, Store, Writer};

fn fail(what: &str, code: i32) -> ! {
    eprintln!("peer: {what}");
    std::process::exit(code)
}

// ---- the table --------------------------------------------------------------
#[derive(Clone, Debug, PartialEq, Eq, PartialOrd, Ord)]
enum Value {
    Long(i64),
    Text(Arc<[u8]>),
}
type Items = Vec<(Value, i32)>;

#[derive(Clone, Copy, PartialEq)]
enum Kind {
    Single,
    Array,
    WeightedSet,
}
enum Act {
    Put(Items),
    Assign(Items),
    Add(Items),
    Take(Items),
    Keep,
    Remove,
}
struct Op {
    doc: u32,
    act: Act,
}

fn distinct(kind: Kind, items: &[(Value, i32)]) -> Items {
    let mut all = items.to_vec();
    if kind == Kind::Array {
        all.sort();
        all.dedup();
    }
    all
}

/// The items after one operation, or None where it is skipped; None inside where the document is gone.
fn step(kind: Kind, old: Option<&[(Value, i32)]>, act: &Act) -> Option<Option<Items>> {
    Some(match (act, old) {
        (Act::Put(i), _) => Some(i.clone()),
        (_, None) => return None,
        (Act::Remove, _) => None,
        (Act::Keep, Some(old)) => Some(old.to_vec()),
        (Act::Assign(i), _) => Some(i.clone()),
        (Act::Add(add), Some(old)) => {
            let mut all = old.to_vec();
            for (v, w) in add {
                match all.binary_search_by(|x| x.0.cmp(v)) {
                    _ if kind == Kind::Array => all.push((v.clone(), *w)),
                    Ok(i) => all[i].1 = *w,
                    Err(i) => all.insert(i, (v.clone(), *w)),
                }
            }
            if all.len() > 1023 {
                return None;
            }
            Some(all)
        }
        (Act::Take(take), Some(old)) => Some(old.iter().filter(|x| !take.iter().any(|t| t.0 == x.0)).cloned().collect()),
    })
}

/// Applies one operation to the writer's state: false where it is skipped.
fn apply(w: &mut Writer, kind: Kind, op: &Op) -> bool {
    let old = w.items(op.doc);
    let Some(now) = step(kind, old.as_deref(), &op.act) else { return false };
    let before = distinct(kind, old.as_deref().unwrap_or(&[]));
    let after = distinct(kind, now.as_deref().unwrap_or(&[]));
    for x in before.iter().filter(|x| after.binary_search_by(|y| y.0.cmp(&x.0)).is_err()) {
        w.unpost(&x.0, op.doc);
    }
    for x in after.iter().filter(|x| before.binary_search(x).is_err()) {
        w.post(&x.0, op.doc, x.1);
    }
    if old.as_deref() != now.as_deref() {
        w.put(op.doc, now);
    }
    true
}

// ---- the feed ---------------------------------------------------------------
enum Json {
    Null,
    Int(i64),
    Text(Vec<u8>),
    List(Vec<Json>),
    Object(Vec<(Vec<u8>, Json)>),
    Other,
}
struct Reader<'a> {
    b: &'a [u8],
    at: usize,
}
impl Reader<'_> {
    fn bad(&self) -> ! {
        fail("feed: NotJson", 3)
    }
    fn peek(&mut self) -> u8 {
        while matches!(self.b.get(self.at), Some(b' ' | b'\t' | b'\r')) {
            self.at += 1;
        }
        self.b.get(self.at).copied().unwrap_or(0)
    }
    fn eat(&mut self, c: u8) {
        if self.peek() != c {
            self.bad()
        }
        self.at += 1
    }
    fn hex(&mut self) -> u32 {
        let s = self.b.get(self.at..self.at + 4).and_then(|s| std::str::from_utf8(s).ok());
        self.at += 4;
        s.and_then(|s| u32::from_str_radix(s, 16).ok()).unwrap_or_else(|| self.bad())
    }
    fn text(&mut self) -> Vec<u8> {
        self.eat(b'"');
        let mut out = Vec::new();
        loop {
            let from = self.at;
            while !matches!(self.b.get(self.at), None | Some(b'"' | b'\\' | 0..=31)) {
                self.at += 1;
            }
            out.extend_from_slice(&self.b[from..self.at]);
            match self.b.get(self.at) {
                Some(b'"') => {
                    self.at += 1;
                    if std::str::from_utf8(&out).is_err() {
                        self.bad()
                    }
                    return out;
                }
                Some(b'\\') => {
                    let c = *self.b.get(self.at + 1).unwrap_or(&0);
                    self.at += 2;
                    let ch = match c {
                        b'n' => '\n',
                        b't' => '\t',
                        b'r' => '\r',
                        b'b' => '\u{8}',
                        b'f' => '\u{c}',
                        b'"' | b'\\' | b'/' => c as char,
                        b'u' => {
                            let mut u = self.hex();
                            if (0xd800..0xdc00).contains(&u) {
                                self.eat(b'\\');
                                self.eat(b'u');
                                u = 0x10000 + ((u - 0xd800) << 10) + self.hex().wrapping_sub(0xdc00);
                            }
                            char::from_u32(u).unwrap_or_else(|| self.bad())
                        }
                        _ => self.bad(),
                    };
                    out.extend_from_slice(ch.encode_utf8(&mut [0; 4]).as_bytes());
                }
                _ => self.bad(),
            }
        }
    }
    fn value(&mut self) -> Json {
        match self.peek() {
            b'"' => Json::Text(self.text()),
            b'{' => {
                self.at += 1;
                let mut all = Vec::new();
                while self.peek() != b'}' {
                    if !all.is_empty() {
                        self.eat(b',')
                    }
                    self.peek();
                    let name = self.text();
                    self.eat(b':');
                    all.push((name, self.value()));
                }
                self.at += 1;
                Json::Object(all)
            }
            b'[' => {
                self.at += 1;
                let mut all = Vec::new();
                while self.peek() != b']' {
                    if !all.is_empty() {
                        self.eat(b',')
                    }
                    all.push(self.value());
                }
                self.at += 1;
                Json::List(all)
            }
            _ => {
                let from = self.at;
                while matches!(self.b.get(self.at), Some(b'-' | b'+' | b'.' | b'0'..=b'9' | b'a'..=b'z' | b'E')) {
                    self.at += 1;
                }
                match &self.b[from..self.at] {
                    b"null" => Json::Null,
                    b"true" | b"false" => Json::Other,
                    w => match std::str::from_utf8(w).unwrap().parse() {
                        Ok(n) => Json::Int(n),
                        _ if w.first().is_some_and(|c| *c == b'-' || c.is_ascii_digit()) => Json::Other,
                        _ => self.bad(),
                    },
                }
            }
        }
    }
}
fn member<'a>(o: &'a [(Vec<u8>, Json)], name: &str) -> Option<&'a Json> {
    o.iter().rev().find(|m| m.0 == name.as_bytes()).map(|m| &m.1)
}

struct Setup {
    kind: Kind,
    text: bool,
    field: String,
    batch: u32,
    readers: usize,
    rounds: u32,
    after: bool,
    make: u32,
    seed: u32,
    queries: Vec<String>,
}
impl Setup {
    fn name(&self, s: &[u8]) -> Value {
        match std::str::from_utf8(s).unwrap().parse() {
            _ if self.text => Value::Text(s.into()),
            Ok(n) => Value::Long(n),
            _ => fail("feed: BadValue", 3),
        }
    }
    fn value(&self, j: &Json) -> Value {
        match j {
            Json::Int(n) if !self.text => Value::Long(*n),
            Json::Text(s) if self.text && s.len() <= 1024 => Value::Text(s.as_slice().into()),
            _ => fail("feed: BadValue", 3),
        }
    }
    fn items(&self, j: &Json) -> Items {
        match (j, self.kind) {
            (Json::Null, _) => Vec::new(),
            (j, Kind::Single) => vec![(self.value(j), 1)],
            (Json::List(l), Kind::Array) => l.iter().map(|j| (self.value(j), 1)).collect(),
            (Json::Object(o), Kind::WeightedSet) => {
                let mut all: Items = o.iter().map(|(n, w)| match w {
                    Json::Int(w) if i32::try_from(*w).is_ok() => (self.name(n), *w as i32),
                    _ => fail("feed: BadValue", 3),
                }).collect();
                all.sort();
                all
            }
            _ => fail("feed: BadValue", 3),
        }
    }
    fn op(&self, line: &[u8]) -> Op {
        let mut r = Reader { b: line, at: 0 };
        let Json::Object(o) = r.value() else { fail("feed: NoOperation", 3) };
        if r.peek() != 0 {
            r.bad()
        }
        let found: Vec<_> = ["put", "update", "remove"].iter().filter_map(|n| member(&o, n).map(|j| (*n, j))).collect();
        let [(name, Json::Text(id))] = found[..] else { fail("feed: NoOperation", 3) };
        let parts: Vec<&[u8]> = id.splitn(5, |c| *c == b':').collect();
        let user = parts.get(4).and_then(|u| std::str::from_utf8(u).ok()).and_then(|u| u.parse().ok());
        let doc = match user {
            Some(d @ 1..=1048575) if parts[0] == b"id" => d,
            _ => fail("feed: BadId", 3),
        };
        if name == "remove" {
            return Op { doc, act: Act::Remove };
        }
        let Some(Json::Object(fields)) = member(&o, "fields") else { fail("feed: BadValue", 3) };
        let act = match (name, member(fields, &self.field)) {
            ("put", f) => Act::Put(f.map_or(Vec::new(), |f| self.items(f))),
            (_, None) => Act::Keep,
            (_, Some(Json::Object(u))) if u.len() == 1 => match (&u[0].0[..], &u[0].1) {
                (b"assign", j) => Act::Assign(self.items(j)),
                (b"add", j) if self.kind != Kind::Single => Act::Add(self.items(j)),
                (b"remove", Json::List(l)) if self.kind == Kind::WeightedSet => Act::Take(l.iter().map(|j| (self.value(j), 1)).collect()),
                (b"remove", Json::Object(l)) if self.kind == Kind::WeightedSet => Act::Take(l.iter().map(|j| (self.name(&j.0), 1)).collect()),
                _ => fail("feed: Unsupported", 3),
            },
            _ => fail("feed: BadValue", 3),
        };
        Op { doc, act }
    }
    /// The made operations.
    fn made(&self) -> Vec<Op> {
        let mut x = self.seed;
        let mut draw = || {
            x = (x * 25173 + 13849) % 65536;
            x
        };
        let value = |q: u32| if self.text { Value::Text(format!("t{q}").into_bytes().into()) } else { Value::Long(q as i64 - 512) };
        (0..self.make).map(|_| {
            let (a, b, c) = (draw(), draw() / 64, draw() / 8192);
            let items = match self.kind {
                Kind::Single => vec![(value(b), 1)],
                Kind::Array => vec![(value(b), 1), (value(b + 1), 1)],
                Kind::WeightedSet => vec![(value(b), (a / 64) as i32)],
            };
            let act = match c {
                0 => Act::Remove,
                1 if self.kind == Kind::Single => Act::Assign(items),
                1 => Act::Add(items),
                _ => Act::Put(items),
            };
            Op { doc: a / 16 + 1, act }
        }).collect()
    }
}

// ---- queries ----------------------------------------------------------------
enum Query {
    Is(Value),
    /// First key, whether it is left out, and what ends the walk.
    Span(Option<Value>, bool, End),
    And(Vec<Query>),
    Or(Vec<Query>),
}
enum End {
    Never,
    Above(Value),
    From(Value),
    NoPrefix(Arc<[u8]>),
}
struct QueryText<'a> {
    b: &'a [u8],
    at: usize,
    text: bool,
}
impl QueryText<'_> {
    fn bad(&self) -> ! {
        fail("usage: query: Syntax", 2)
    }
    fn peek(&self) -> u8 {
        self.b.get(self.at).copied().unwrap_or(0)
    }
    fn eat(&mut self, c: u8) {
        if self.peek() != c {
            self.bad()
        }
        self.at += 1
    }
    fn value(&mut self) -> Value {
        if self.text {
            self.eat(b'"');
            let mut s = Vec::new();
            while self.peek() != b'"' {
                if self.peek() == b'\\' {
                    self.at += 1
                }
                s.push(*self.b.get(self.at).unwrap_or_else(|| self.bad()));
                self.at += 1;
            }
            self.at += 1;
            return Value::Text(s.into());
        }
        let from = self.at;
        while self.peek() == b'-' || self.peek().is_ascii_digit() {
            self.at += 1
        }
        Value::Long(std::str::from_utf8(&self.b[from..self.at]).unwrap().parse().unwrap_or_else(|_| self.bad()))
    }
    fn query(&mut self) -> Query {
        let rest = &self.b[self.at..];
        if rest.starts_with(b"and(") || rest.starts_with(b"or(") {
            let and = rest[0] == b'a';
            self.at += 3 + and as usize;
            let mut all = vec![self.query()];
            while self.peek() == b',' {
                self.at += 1;
                all.push(self.query())
            }
            self.eat(b')');
            return if and { Query::And(all) } else { Query::Or(all) };
        }
        match self.peek() {
            b'[' => {
                self.at += 1;
                let low = (self.peek() != b';').then(|| self.value());
                self.eat(b';');
                let end = if self.peek() == b']' { End::Never } else { End::Above(self.value()) };
                self.eat(b']');
                Query::Span(low, false, end)
            }
            b'<' => {
                self.at += 1;
                Query::Span(None, false, End::From(self.value()))
            }
            b'>' => {
                self.at += 1;
                Query::Span(Some(self.value()), true, End::Never)
            }
            _ => match self.value() {
                Value::Text(t) if self.peek() == b'*' => {
                    self.at += 1;
                    Query::Span(Some(Value::Text(t.clone())), false, End::NoPrefix(t))
                }
                v => Query::Is(v),
            },
        }
    }
}

fn ascending(docs: &mut Vec<u32>, bits: &mut Vec<u64>) {
    if docs.len() < 2048 {
        docs.sort_unstable();
        docs.dedup();
        return;
    }
    bits.clear();
    bits.resize(1 << 14, 0);
    for d in docs.iter() {
        bits[*d as usize >> 6] |= 1 << (d & 63);
    }
    docs.clear();
    for (i, w) in bits.iter().enumerate() {
        let mut w = *w;
        while w != 0 {
            docs.push((i as u32) << 6 | w.trailing_zeros());
            w &= w - 1;
        }
    }
}

/// Whether a key is before the end of a span.
fn inside(end: &End, k: &Value) -> bool {
    match (end, k) {
        (End::Never, _) => true,
        (End::Above(v), k) => k <= v,
        (End::From(v), k) => k < v,
        (End::NoPrefix(p), Value::Text(t)) => t.starts_with(p),
        _ => false,
    }
}

fn hits(t: &Snapshot, q: &Query, bits: &mut Vec<u64>) -> Vec<u32> {
    let mut out = Vec::new();
    match q {
        Query::Is(v) => t.term(v, &mut out),
        Query::Span(low, open, end) => {
            t.span(low.as_ref(), &mut |k| inside(end, k), &|k| !(*open && low.as_ref() == Some(k)), &mut out);
            ascending(&mut out, bits);
        }
        Query::Or(all) => {
            out = all.iter().flat_map(|q| hits(t, q, bits)).collect();
            ascending(&mut out, bits);
        }
        Query::And(all) => {
            let mut parts: Vec<_> = all.iter().map(|q| hits(t, q, bits)).collect();
            parts.sort_by_key(Vec::len);
            out = parts.remove(0);
            for p in parts {
                let mut at = 0;
                let far = p.len() / 32 > out.len();
                out.retain(|d| {
                    if far {
                        at += p[at..].partition_point(|x| x < d);
                    } else {
                        while at < p.len() && p[at] < *d {
                            at += 1
                        }
                    }
                    p.get(at) == Some(d)
                });
            }
        }
    }
    out
}

// ---- run and report -----------------------------------------------------------
fn words() -> Setup {
    let mut s = Setup { kind: Kind::Single, text: false, field: "f".into(), batch: 100, readers: 2, rounds: 4, after: false, make: 0, seed: 1, queries: vec![] };
    let (mut kind, mut value) = (None, None);
    let mut args = std::env::args().skip(1);
    while let Some(w) = args.next() {
        let mut next = || args.next().unwrap_or_else(|| fail("usage: words", 2));
        let num = |s: String| s.parse::<u32>().unwrap_or_else(|_| fail("usage: words", 2));
        match &w[..] {
            "--kind" => kind = Some(next()),
            "--value" => value = Some(next()),
            "--field" => s.field = next(),
            "--batch" => s.batch = num(next()),
            "--readers" => s.readers = num(next()) as usize,
            "--rounds" => s.rounds = num(next()),
            "--make" => s.make = num(next()),
            "--seed" => s.seed = num(next()),
            "--buffers" | "--words" => drop(next()),
            "--after" => s.after = true,
            "--dense" => (),
            _ if w.starts_with('-') => fail("usage: words", 2),
            _ => s.queries.push(w),
        }
    }
    s.kind = match kind.as_deref() {
        Some("single") => Kind::Single,
        Some("array") => Kind::Array,
        Some("weightedset") => Kind::WeightedSet,
        _ => fail("usage: kind", 2),
    };
    s.text = match value.as_deref() {
        Some("long") => false,
        Some("string") => true,
        _ => fail("usage: value", 2),
    };
    s
}

fn answers(s: &Setup, queries: &[Query], t: &Snapshot, out: &mut String) {
    use std::fmt::Write;
    let mut bits = Vec::new();
    for (i, q) in queries.iter().enumerate() {
        let docs = hits(t, q, &mut bits);
        write!(out, "{}:", i + 1).unwrap();
        if s.make > 0 {
            write!(out, " {}", docs.len()).unwrap();
        } else {
            for d in docs {
                write!(out, " {d}").unwrap();
            }
        }
        out.push('\n');
    }
}

fn main() {
    let begun = Instant::now();
    let s = words();
    let queries: Vec<Query> = s.queries.iter().map(|q| {
        let mut p = QueryText { b: q.as_bytes(), at: 0, text: s.text };
        let out = p.query();
        if p.at != p.b.len() {
            p.bad()
        }
        out
    }).collect();
    let ops: Vec<Op> = if s.make > 0 {
        s.made()
    } else {
        let mut feed = Vec::new();
        if std::io::stdin().take(16_777_217).read_to_end(&mut feed).is_err() {
            fail("read fault", 4)
        }
        if feed.len() > 16_777_216 {
            fail("feed: FeedTooLong", 3)
        }
        feed.split(|b| *b == b'\n').filter(|l| !l.iter().all(|b| b" \t\r".contains(b))).map(|l| s.op(l)).collect()
    };
    let parsed = Instant::now();
    let store = Store::new();
    let read = |r: usize| {
        let mut out = String::new();
        for k in 1..=s.rounds {
            let t = store.read();
            out += &format!("reader {} round {} at {}\n", r + 1, k, t.operations());
            answers(&s, &queries, &t, &mut out);
        }
        out
    };
    let mut skipped = 0;
    let mut loaded = begun;
    let rounds: Vec<String> = std::thread::scope(|scope| {
        let mut joins = Vec::new();
        let start = |joins: &mut Vec<_>| joins.extend((0..s.readers).map(|r| scope.spawn(move || read(r))));
        if !s.after {
            start(&mut joins);
        }
        let mut w = store.writer();
        let mut n = 0;
        for op in &ops {
            skipped += !apply(&mut w, s.kind, op) as u32;
            n += 1;
            if n % s.batch == 0 {
                w.commit(n);
            }
        }
        if n % s.batch != 0 {
            w.commit(n);
        }
        drop(w);
        loaded = Instant::now();
        if s.after {
            start(&mut joins);
        }
        joins.into_iter().map(|j: std::thread::ScopedJoinHandle<String>| j.join().unwrap()).collect()
    });
    let ended = Instant::now();
    let last = store.read();
    let mut out = if s.make > 0 {
        format!("made {} seed {}\nfinal at {} documents {}\n", s.make, s.seed, last.operations(), last.documents())
    } else {
        rounds.concat() + &format!("final at {}\n", last.operations())
    };
    answers(&s, &queries, &last, &mut out);
    out += &format!("done {} operations {} skipped\n", last.operations(), skipped);
    if std::io::stdout().write_all(out.as_bytes()).is_err() {
        std::process::exit(5)
    }
    if std::env::var_os("PEER_TIMES").is_some() {
        eprintln!("times parse_ns {} load_ns {} rounds_ns {} store_bytes 0", (parsed - begun).as_nanos(), (loaded - parsed).as_nanos(), (ended - loaded).as_nanos());
    }
    std::process::exit(0) // no need to take the tables down
}
