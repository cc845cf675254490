//! What `bench/feed` compares with: a plain compiled program that reads the same feed, applies it to std's ordered map
//! and counts the same. It takes good feeds only, and it proves nothing.
//! Usage: feed_peer single|array|weightedset long|string < FEED

use std::collections::BTreeMap;
use std::io::Read;

enum Json {
    Null,
    Bool(bool),
    Whole(i64),
    Float,
    Text(String),
    List(Vec<Json>),
    Object(Vec<(String, Json)>),
}

impl Json {
    fn get(&self, name: &str) -> Option<&Json> {
        match self {
            Json::Object(members) => members.iter().rev().find(|m| m.0 == name).map(|m| &m.1),
            _ => None,
        }
    }
}

struct Reader<'a> {
    bytes: &'a [u8],
    at: usize,
}

impl Reader<'_> {
    fn space(&mut self) {
        while self.at < self.bytes.len() && matches!(self.bytes[self.at], b' ' | b'\t' | b'\r') {
            self.at += 1;
        }
    }

    fn take(&mut self, byte: u8) -> bool {
        self.space();
        let found = self.bytes.get(self.at) == Some(&byte);
        self.at += usize::from(found);
        found
    }

    fn value(&mut self) -> Json {
        self.space();
        match self.bytes[self.at] {
            b'{' => self.object(),
            b'[' => self.list(),
            b'"' => Json::Text(self.text()),
            b'n' => self.word(4, Json::Null),
            b't' => self.word(4, Json::Bool(true)),
            b'f' => self.word(5, Json::Bool(false)),
            _ => self.number(),
        }
    }

    fn word(&mut self, length: usize, value: Json) -> Json {
        self.at += length;
        value
    }

    fn number(&mut self) -> Json {
        let start = self.at;
        while self.at < self.bytes.len() && !matches!(self.bytes[self.at], b',' | b'}' | b']' | b' ') {
            self.at += 1;
        }
        let text = std::str::from_utf8(&self.bytes[start..self.at]).expect("UTF-8");
        text.parse().map_or(Json::Float, Json::Whole)
    }

    fn text(&mut self) -> String {
        self.at += 1;
        let mut text = Vec::new();
        loop {
            match self.bytes[self.at] {
                b'"' => break,
                b'\\' => {
                    self.at += 1;
                    text.push(self.bytes[self.at]);
                }
                byte => text.push(byte),
            }
            self.at += 1;
        }
        self.at += 1;
        String::from_utf8(text).expect("UTF-8")
    }

    fn list(&mut self) -> Json {
        self.at += 1;
        let mut members = Vec::new();
        while !self.take(b']') {
            members.push(self.value());
            self.take(b',');
        }
        Json::List(members)
    }

    fn object(&mut self) -> Json {
        self.at += 1;
        let mut members = Vec::new();
        while !self.take(b'}') {
            self.space();
            let name = self.text();
            self.take(b':');
            members.push((name, self.value()));
            self.take(b',');
        }
        Json::Object(members)
    }
}

#[derive(Clone, PartialEq, Eq, PartialOrd, Ord)]
enum Value {
    Long(i64),
    Text(String),
}

type Items = Vec<(Value, i32)>;

struct Shape {
    kind: String,
    is_long: bool,
}

impl Shape {
    fn value(&self, json: &Json) -> Value {
        match json {
            Json::Whole(n) if self.is_long => Value::Long(*n),
            Json::Text(text) if !self.is_long => Value::Text(text.clone()),
            _ => panic!("a value of another type"),
        }
    }

    fn name(&self, name: &str) -> Value {
        if self.is_long { Value::Long(name.parse().expect("a number")) } else { Value::Text(name.to_string()) }
    }

    fn items(&self, json: &Json) -> Items {
        match json {
            Json::Null => Vec::new(),
            Json::List(members) => members.iter().map(|m| (self.value(m), 1)).collect(),
            Json::Object(members) => {
                let weight = |m: &Json| if let Json::Whole(w) = m { *w as i32 } else { panic!("no weight") };
                let mut items: Items = members.iter().map(|m| (self.name(&m.0), weight(&m.1))).collect();
                items.sort();
                items
            }
            one => vec![(self.value(one), 1)],
        }
    }

    fn change(&self, items: &mut Items, field: &Json) -> bool {
        let Json::Object(operators) = field else { panic!("no operator") };
        let (name, value) = &operators[0];
        match (name.as_str(), self.kind.as_str()) {
            ("assign", _) => *items = self.items(value),
            ("increment" | "decrement", _) => {
                let Some((Value::Long(number), _)) = items.first_mut() else { return false };
                let Some(moved) = number.checked_add(amount(name, value)) else { return false };
                *number = moved;
            }
            ("match", "array") => return self.match_place(items, value),
            ("match", _) => return self.match_value(items, value),
            ("add", "array") => {
                let more = self.items(value);
                if items.len() + more.len() > 1023 {
                    return false;
                }
                items.extend(more);
            }
            ("add", _) => {
                let mut all: BTreeMap<Value, i32> = items.iter().cloned().collect();
                all.extend(self.items(value));
                if all.len() > 1023 {
                    return false;
                }
                *items = all.into_iter().collect();
            }
            _ => {
                let gone: Vec<Value> = match value {
                    Json::Object(members) => members.iter().map(|m| self.name(&m.0)).collect(),
                    Json::List(members) => members.iter().map(|m| self.value(m)).collect(),
                    _ => panic!("nothing named"),
                };
                items.retain(|item| !gone.contains(&item.0));
            }
        }
        true
    }
}

fn amount(operator: &str, value: &Json) -> i64 {
    let Json::Whole(amount) = value else { panic!("no amount") };
    if operator == "decrement" { -amount } else { *amount }
}

/// `element` and the operator beside it.
fn match_parts(value: &Json) -> (&Json, &str, &Json) {
    let Json::Object(members) = value else { panic!("no match") };
    let element = members.iter().find(|m| m.0 == "element").expect("an element");
    let operator = members.iter().find(|m| m.0 != "element").expect("an operator");
    (&element.1, &operator.0, &operator.1)
}

impl Shape {
    fn match_place(&self, items: &mut Items, value: &Json) -> bool {
        let (Json::Whole(place), operator, value) = match_parts(value) else { panic!("no place") };
        let Some((old, _)) = items.get_mut(*place as usize) else { return false };
        if operator == "assign" {
            *old = self.value(value);
            return true;
        }
        let Value::Long(number) = old else { return false };
        let Some(moved) = number.checked_add(amount(operator, value)) else { return false };
        *number = moved;
        true
    }

    fn match_value(&self, items: &mut Items, value: &Json) -> bool {
        let (element, operator, value) = match_parts(value);
        let element = match element {
            Json::Text(name) => self.name(name),
            other => self.value(other),
        };
        let Some((_, weight)) = items.iter_mut().find(|item| item.0 == element) else { return false };
        let moved = if operator == "assign" { amount(operator, value) } else { i64::from(*weight) + amount(operator, value) };
        let Ok(moved) = i32::try_from(moved) else { return false };
        *weight = moved;
        true
    }
}

fn document(id: &Json) -> u32 {
    let Json::Text(id) = id else { panic!("no id") };
    id.rsplit(':').next().expect("a part").parse().expect("a document")
}

fn main() {
    let words: Vec<String> = std::env::args().collect();
    let shape = Shape { kind: words[1].clone(), is_long: words[2] == "long" };
    let mut bytes = Vec::new();
    std::io::stdin().lock().read_to_end(&mut bytes).expect("a feed");
    let mut table: BTreeMap<u32, Items> = BTreeMap::new();
    let (mut operations, mut skipped) = (0u32, 0u32);
    for line in bytes.split(|b| *b == b'\n').filter(|line| !line.is_empty()) {
        let json = Reader { bytes: line, at: 0 }.value();
        let field = json.get("fields").and_then(|fields| fields.get("f"));
        operations += 1;
        let done = if let Some(id) = json.get("put") {
            table.insert(document(id), field.map_or(Vec::new(), |f| shape.items(f)));
            true
        } else if let Some(id) = json.get("update") {
            let creates = matches!(json.get("create"), Some(Json::Bool(true)));
            match (table.get_mut(&document(id)), field) {
                (Some(items), Some(field)) => shape.change(items, field),
                (Some(_), None) => true,
                (None, _) if !creates => false,
                (None, field) => {
                    let mut items = Items::new();
                    let done = field.is_none_or(|field| shape.change(&mut items, field));
                    if done {
                        table.insert(document(id), items);
                    }
                    done
                }
            }
        } else {
            table.remove(&document(json.get("remove").expect("an operation"))).is_some()
        };
        skipped += u32::from(!done);
    }
    println!("final at {operations}\ndone {operations} operations {skipped} skipped");
}
