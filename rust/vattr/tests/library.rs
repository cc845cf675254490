//! What the crate promises: right answers beside a writer, guards that nest, and errors that name their place.
use std::collections::BTreeMap;
use std::thread;
use vattr::{quoted, Code, Engine, Error, Group, Grouping, Item, Order, Reader, Sizes, Totals, Value};

fn put(document: u32, year: i64) -> String {
    format!("{{\"put\":\"id:a:b::{document}\",\"fields\":{{\"year\":{year}}}}}\n")
}

fn sizes(readers: u32) -> Sizes {
    Sizes { buffers: 128, readers, ..Sizes::default() }
}

const OPERATIONS: u32 = 4000;

fn operation(number: u32) -> (u32, i64) {
    let mixed = number.wrapping_mul(2_654_435_761);
    (1 + mixed % 300, i64::from(mixed / 7 % 50))
}

/// Compares each answer with a plain map at its commit.
fn reads(reader: Reader, all: u32) -> Reader {
    let (mut table, mut done) = (BTreeMap::new(), 0);
    while done < all {
        let guard = reader.hold().unwrap();
        for number in done..guard.at().operations {
            let (document, year) = operation(number);
            table.insert(document, year);
        }
        done = guard.at().operations;
        let low = i64::from(done % 50);
        let wanted: Vec<u32> = table.iter().filter(|(_, &year)| (low..low + 10).contains(&year)).map(|(&document, _)| document).collect();
        let text = format!("[{low};{}]", low + 9);
        assert_eq!(reader.hits(&text).unwrap(), wanted, "at commit {}", guard.at().commit);
        assert_eq!(reader.count(&text).unwrap(), wanted.len() as u64);
        for (&document, &year) in table.iter().take(3) {
            assert_eq!(reader.items(document, 0).unwrap(), Some(vec![Item { value: Value::Long(year), weight: 1 }]));
        }
    }
    reader
}

#[test]
fn readers_answer_beside_a_writer() {
    let mut engine = Engine::open("year:single:long", sizes(4)).unwrap();
    let readers: Vec<_> = (0..4).map(|_| engine.reader().unwrap()).map(|it| thread::spawn(move || reads(it, OPERATIONS))).collect();
    for number in 0..OPERATIONS {
        let (document, year) = operation(number);
        engine.feed(put(document, year)).unwrap();
        if number % 40 == 39 {
            engine.commit().unwrap();
            engine.compact(256).unwrap();
        }
    }
    for it in readers {
        engine.take_back(it.join().unwrap()).unwrap().unwrap();
    }
    assert_eq!(engine.counts().readers, 4);
    assert_eq!(engine.counts().operations, OPERATIONS);
}

#[test]
fn guards_nest() {
    let mut engine = Engine::open("year:single:long", sizes(1)).unwrap();
    let reader = engine.reader().unwrap();
    engine.feed(put(1, 1)).unwrap();
    engine.commit().unwrap();
    let outer = reader.hold().unwrap();
    engine.feed(put(2, 2)).unwrap();
    engine.commit().unwrap();
    {
        let inner = reader.hold().unwrap();
        assert_eq!((inner.at().commit, reader.hits("[;]").unwrap().len()), (1, 1));
    }
    assert_eq!(reader.ask("[;]").unwrap().commit, 1);
    drop(outer);
    assert_eq!(reader.ask("[;]").unwrap().commit, 2);
    drop(engine);
    assert_eq!(reader.hits("[;]").unwrap(), [1, 2]);
}

#[test]
fn a_reader_of_another_engine_is_refused() {
    let mut one = Engine::open("a:single:long", sizes(1)).unwrap();
    let mut other = Engine::open("a:single:long", sizes(1)).unwrap();
    let refused = other.take_back(one.reader().unwrap()).unwrap_err();
    assert_eq!(refused.to_string(), "the reader is of another engine");
    one.take_back(refused.0).unwrap().unwrap();
    assert_eq!(one.counts().readers, 1);
}

#[test]
fn texts_scores_and_saves() {
    let mut engine = Engine::open("tags:weightedset:string", sizes(2)).unwrap();
    engine.feed("{\"put\":\"id:a:b::7\",\"fields\":{\"tags\":{\"a \\\"q\\\" \\\\\":3,\"\":-1}}}\n").unwrap();
    engine.commit().unwrap();
    let reader = engine.reader().unwrap();
    assert_eq!(reader.hits(&quoted("a \"q\" \\")).unwrap(), [7]);
    assert_eq!(reader.count(&quoted("x\",\"")).unwrap(), 0);
    let scores = reader.scores("dot(\"\":5)").unwrap();
    assert_eq!((scores.len(), scores[0].document, scores[0].score, scores[0].exact), (1, 7, -5, 1));
    assert!(reader.scores("\"\"").unwrap().is_empty());
    let text = |text: &str, weight| Item { value: Value::Text(text.to_string()), weight };
    assert_eq!(reader.items(7, 0).unwrap(), Some(vec![text("", -1), text("a \"q\" \\", 3)]));
    assert_eq!(reader.items(8, 0).unwrap(), None);
    let save = reader.save().unwrap();
    let mut loaded = Engine::open("tags:weightedset:string", sizes(1)).unwrap();
    assert_eq!(loaded.load(&save).unwrap().operations, 1);
    loaded.commit().unwrap();
    assert_eq!(loaded.reader().unwrap().save().unwrap(), save);
    assert_eq!(loaded.load(&save[1..]).unwrap_err().code, Code::BadSave);
}

#[test]
fn sorting_grouping_and_values_in_bulk() {
    let mut engine = Engine::open("price:single:long,tags:array:string,liked:weightedset:string", sizes(1)).unwrap();
    for (document, price, tags, liked) in
        [(1, "7", "[\"b\"]", 3), (2, "5", "[\"a\",\"a\"]", 9), (4, "null", "[\"c\",\"b\"]", 1), (6, "5", "[]", 9)]
    {
        let fields = format!("{{\"price\":{price},\"tags\":{tags},\"liked\":{{\"x\":{liked}}}}}");
        engine.feed(format!("{{\"put\":\"id:a:b::{document}\",\"fields\":{fields}}}\n")).unwrap();
    }
    engine.commit().unwrap();
    let reader = engine.reader().unwrap();
    assert_eq!(reader.ask("or([;],tags:[;])").unwrap().count, 4);
    assert_eq!(reader.sort(0, Order::Ascending, 0, 10).unwrap(), [2, 6, 1, 4]);
    assert_eq!(reader.sort(0, Order::Descending, 1, 2).unwrap(), [2, 6]);
    assert!(reader.sort(0, Order::Ascending, 9, 2).unwrap().is_empty());
    assert_eq!(reader.totals(0).unwrap(), Totals { count: 3, sum: 17, least: Some(5), greatest: Some(7) });
    assert_eq!(reader.totals(1).unwrap(), Totals::default());
    let group = |text: &str, documents| Group { value: Value::Text(text.to_string()), documents };
    assert_eq!(reader.groups(1, Grouping::ByValue, 9).unwrap(), [group("a", 1), group("b", 2), group("c", 1)]);
    assert_eq!(reader.groups(1, Grouping::ByCount, 2).unwrap(), [group("b", 2), group("a", 1)]);
    assert_eq!(reader.groups(0, Grouping::ByValue, 1).unwrap(), [Group { value: Value::Long(5), documents: 2 }]);
    assert_eq!(reader.terms("tags:[\"b\";]", 9).unwrap(), [group("b", 2), group("c", 1)]);
    assert_eq!(reader.terms("and(5,7)", 9).unwrap_err().code, Code::Syntax);
    let best: Vec<_> = reader.best("liked:dot(\"x\":2)", 3).unwrap().iter().map(|it| (it.document, it.score)).collect();
    assert_eq!(best, [(2, 18), (6, 18), (1, 6)]);
    assert_eq!(reader.longs(0, &[6, 4, 1, 99]).unwrap(), [Some(5), None, Some(7), None]);
    assert_eq!(reader.longs_into(0, &[6, 4], &mut [0; 2], &mut [0; 1]).unwrap_err().code, Code::Bounds);
    assert_eq!(reader.documents(2, 2).unwrap(), [2, 4]);
    assert_eq!(reader.sort(3, Order::Ascending, 0, 1).unwrap_err().code, Code::Bounds);
}

#[test]
fn refusals_name_their_place() {
    let mut engine = Engine::open("year:single:long", sizes(1)).unwrap();
    let refused = engine.feed(put(1, 1) + "\n{\"put\":1}\n" + &put(2, 2)).unwrap_err();
    assert_eq!((refused.code, refused.line, refused.operations), (Code::BadId, 3, 1));
    assert!(refused.to_string().ends_with(": line 3, at byte 41"), "{refused}");
    let reader = engine.reader().unwrap();
    let said = |text| reader.hits(text).unwrap_err();
    assert!(said("or(1").to_string().ends_with("it breaks off at its end"));
    assert_eq!((said("none:1").code, said("\"x\"").code), (Code::NoField, Code::WrongType));
    assert_eq!(engine.reader().unwrap_err().code, Code::NoReader);
    let code = |text, sizes| Engine::open(text, sizes).map(drop).map_err(|it: Error| it.code);
    assert_eq!(code("a:single:long,b", sizes(1)), Err(Code::Attributes));
    assert_eq!(code("a:single:long", sizes(65)), Err(Code::Bounds));
    assert_eq!(code("", sizes(1)), Err(Code::Attributes));
    assert!(engine.feed([0xff]).is_err());
    assert!(engine.feed("").is_ok());
}

#[test]
fn handles_move_between_threads() {
    fn moves<T: Send>() {}
    moves::<Engine>();
    moves::<Reader>();
}
