//! Readers, their guards, and what they answer.
use crate::error::Error;
use std::cell::{Cell, UnsafeCell};
use std::fmt;
use std::mem;
use vattr_sys as sys;

/// A document of the answer to a dot product: `struct attr_score`.
pub type Score = sys::attr_score;

/// The commit that answered, how many operations it has, and how many documents the answer has.
#[derive(Clone, Copy, Debug, PartialEq, Eq)]
pub struct Answer {
    /// The commit, 0 before the first.
    pub commit: u32,
    /// How many operations it has.
    pub operations: u32,
    /// How many documents the answer has.
    pub count: u64,
}

/// A value of a document.
#[derive(Clone, Debug, PartialEq, Eq, Hash)]
pub enum Value {
    /// Of an attribute of longs.
    Long(i64),
    /// Of an attribute of strings.
    Text(String),
}

/// A document's item: its value, and its weight, 1 but in a weighted set.
#[derive(Clone, Debug, PartialEq, Eq, Hash)]
#[allow(missing_docs)]
pub struct Item {
    pub value: Value,
    pub weight: i32,
}

/// The numbers of some documents: how many, their sum, the least and the greatest; without a number these two are `None`.
#[derive(Clone, Copy, Debug, Default, PartialEq, Eq)]
#[allow(missing_docs)]
pub struct Totals {
    pub count: u64,
    pub sum: i128,
    pub least: Option<i64>,
    pub greatest: Option<i64>,
}

/// A value, and how many documents have it.
#[derive(Clone, Debug, PartialEq, Eq, Hash)]
#[allow(missing_docs)]
pub struct Group {
    pub value: Value,
    pub documents: u64,
}

/// Which way documents stand by their values: documents without a value are last in both, and equal values stand by document.
#[derive(Clone, Copy, Debug, PartialEq, Eq, Hash)]
#[allow(missing_docs)]
pub enum Order {
    Ascending,
    Descending,
}

/// Which way groups stand.
#[derive(Clone, Copy, Debug, PartialEq, Eq, Hash)]
pub enum Grouping {
    /// Ascending by value.
    ByValue,
    /// Those with the most documents first; equal counts by value.
    ByCount,
}

/// What a call copies that tells only how much that was: with little room, and with more until not all of it is taken.
fn grown<T: Clone + Default>(most: usize, mut call: impl FnMut(&mut [T]) -> Result<usize, Error>) -> Result<Vec<T>, Error> {
    let mut room = most.min(4096);
    loop {
        let mut found = vec![T::default(); room];
        let count = call(&mut found)?;
        found.truncate(count);
        if count < room || room == most {
            return Ok(found);
        }
        room = most.min(room.saturating_mul(16));
    }
}

/// A reader: it moves between threads, and one thread at a time has it (`Send`, and not `Sync`).
pub struct Reader {
    handle: UnsafeCell<sys::attr_reader>,
    engine: u64,
    guards: Cell<u32>,
    kept: Cell<u64>,
}

// SAFETY: the library binds a handle to no thread. The reader is not `Sync`, so one thread at a time calls, and what moves it to another
// thread orders the calls.
unsafe impl Send for Reader {}

impl fmt::Debug for Reader {
    fn fmt(&self, f: &mut fmt::Formatter<'_>) -> fmt::Result {
        f.debug_struct("Reader").field("engine", &self.engine).finish_non_exhaustive()
    }
}

/// One commit for several answers of a reader, until it is dropped. Guards nest: the reader's commit is given back with its last guard.
#[derive(Debug)]
pub struct Guard<'r> {
    reader: &'r Reader,
    answer: Answer,
}

impl Guard<'_> {
    /// The commit that is held, and how many operations it has; `count` is 0.
    pub fn at(&self) -> Answer {
        self.answer
    }
}

impl Drop for Guard<'_> {
    fn drop(&mut self) {
        self.reader.guards.set(self.reader.guards.get() - 1);
        if self.reader.guards.get() == 0 {
            // SAFETY: the handle is open while its reader is borrowed.
            unsafe { sys::attr_release(self.reader.handle.get()) };
        }
    }
}

fn told(code: i32, answer: sys::attr_answer) -> Result<usize, Error> {
    if code == sys::ATTR_OK {
        Ok(answer.count as usize)
    } else {
        Err(Error::new(code))
    }
}

fn answered(code: i32, text: &str, answer: sys::attr_answer) -> Result<Answer, Error> {
    if code != sys::ATTR_OK {
        return Err(Error::of_text(code, text, answer.place, "no query and no dot product"));
    }
    Ok(Answer { commit: answer.commit, operations: answer.operations, count: answer.count })
}

impl Reader {
    pub(crate) fn new(handle: sys::attr_reader, engine: u64) -> Reader {
        Reader { handle: UnsafeCell::new(handle), engine, guards: Cell::new(0), kept: Cell::new(0) }
    }

    pub(crate) fn engine(&self) -> u64 {
        self.engine
    }

    pub(crate) fn into_handle(self) -> sys::attr_reader {
        let reader = mem::ManuallyDrop::new(self);
        // SAFETY: the reader is not dropped, so nobody else has its handle.
        unsafe { reader.handle.get().read() }
    }

    /// Takes a guard of the last commit, or of the one that the reader holds already.
    pub fn hold(&self) -> Result<Guard<'_>, Error> {
        let mut answer = sys::attr_answer::default();
        // SAFETY: the handle is open until the reader is dropped, and no other call with it is under way, as the reader is not `Sync` and
        // no call leads back here. So it is with all calls below.
        let code = unsafe { sys::attr_hold(self.handle.get(), &mut answer) };
        let answer = answered(code, "", answer)?;
        self.guards.set(self.guards.get() + 1);
        Ok(Guard { reader: self, answer })
    }

    /// Answers a query or a dot product. The reader keeps the answer for `hits_into` and `scores_into` until the next one.
    pub fn ask(&self, text: &str) -> Result<Answer, Error> {
        let mut answer = sys::attr_answer::default();
        // SAFETY: the text has that length.
        let code = unsafe { sys::attr_ask(self.handle.get(), text.as_ptr(), text.len(), &mut answer) };
        let answer = answered(code, text, answer)?;
        self.kept.set(answer.count);
        Ok(answer)
    }

    /// How many documents answer; the answer that is kept stays.
    pub fn count(&self, text: &str) -> Result<u64, Error> {
        let mut answer = sys::attr_answer::default();
        // SAFETY: the text has that length.
        let code = unsafe { sys::attr_count(self.handle.get(), text.as_ptr(), text.len(), &mut answer) };
        answered(code, text, answer).map(|it| it.count)
    }

    /// Copies documents of the kept answer, ascending, from number `first` on, and returns how many.
    pub fn hits_into(&self, first: usize, into: &mut [u32]) -> usize {
        // SAFETY: the slice has that length.
        unsafe { sys::attr_hits(self.handle.get(), first, into.as_mut_ptr(), into.len()) }
    }

    /// The same of the answer to a dot product, with scores.
    pub fn scores_into(&self, first: usize, into: &mut [Score]) -> usize {
        // SAFETY: the slice has that length.
        unsafe { sys::attr_scores(self.handle.get(), first, into.as_mut_ptr(), into.len()) }
    }

    /// The documents that answer a text, ascending.
    pub fn hits(&self, text: &str) -> Result<Vec<u32>, Error> {
        let mut hits = vec![0; self.ask(text)?.count as usize];
        let count = self.hits_into(0, &mut hits);
        hits.truncate(count);
        Ok(hits)
    }

    /// The documents that answer a dot product, with their scores; none for a query.
    pub fn scores(&self, text: &str) -> Result<Vec<Score>, Error> {
        let mut scores = vec![Score::default(); self.ask(text)?.count as usize];
        let count = self.scores_into(0, &mut scores);
        scores.truncate(count);
        Ok(scores)
    }

    /// The items that a document has in the attribute of this number; nothing where the document is not there.
    pub fn items(&self, document: u32, field: u32) -> Result<Option<Vec<Item>>, Error> {
        let mut answer = sys::attr_answer::default();
        // SAFETY: as in `hold`.
        match unsafe { sys::attr_items(self.handle.get(), document, field, &mut answer) } {
            sys::ATTR_OK => (0..answer.count as usize).map(|number| self.item(number)).collect::<Result<_, _>>().map(Some),
            sys::ATTR_NO_DOCUMENT => Ok(None),
            code => Err(Error::new(code)),
        }
    }

    fn item(&self, number: usize) -> Result<Item, Error> {
        let mut told = sys::attr_item_told::default();
        // SAFETY: as in `hold`.
        let code = unsafe { sys::attr_item(self.handle.get(), number, &mut told) };
        if code != sys::ATTR_OK {
            return Err(Error::new(code));
        }
        if told.is_text == 0 {
            return Ok(Item { value: Value::Long(told.number), weight: told.weight });
        }
        let mut text = vec![0; told.length as usize];
        // SAFETY: the vector has that length.
        let length = unsafe { sys::attr_item_text(self.handle.get(), number, text.as_mut_ptr(), text.len()) };
        text.truncate(length);
        let text = String::from_utf8(text).expect("a string of the engine is UTF-8");
        Ok(Item { value: Value::Text(text), weight: told.weight })
    }

    /// Copies documents of the kept answer by their values in an attribute, from number `first` on, and returns how many. Values are
    /// those at the guard's commit, else at the last one.
    pub fn sort_into(&self, field: u32, order: Order, first: usize, into: &mut [u32]) -> Result<usize, Error> {
        let mut answer = sys::attr_answer::default();
        let descending = u32::from(order == Order::Descending);
        // SAFETY: the slice has that length.
        let code = unsafe { sys::attr_sort(self.handle.get(), field, descending, first, into.as_mut_ptr(), into.len(), &mut answer) };
        told(code, answer)
    }

    /// The same, at most `most` of them.
    pub fn sort(&self, field: u32, order: Order, first: usize, most: usize) -> Result<Vec<u32>, Error> {
        let mut page = vec![0; most.min((self.kept.get() as usize).saturating_sub(first))];
        let count = self.sort_into(field, order, first, &mut page)?;
        page.truncate(count);
        Ok(page)
    }

    /// The totals of the numbers that the documents of the kept answer have in an attribute.
    pub fn totals(&self, field: u32) -> Result<Totals, Error> {
        let (mut answer, mut totals) = (sys::attr_answer::default(), sys::attr_totals_told::default());
        // SAFETY: as in `hold`.
        let code = unsafe { sys::attr_totals(self.handle.get(), field, &mut totals, &mut answer) };
        told(code, answer)?;
        let is_some = totals.count > 0;
        let sum = (i128::from(totals.high) << 64) + i128::from(totals.low);
        Ok(Totals { count: totals.count, sum, least: is_some.then_some(totals.least), greatest: is_some.then_some(totals.greatest) })
    }

    /// Copies the best scores of a dot product, the greatest first, equal ones by document, and returns how many. The kept answer stays.
    pub fn best_into(&self, text: &str, into: &mut [Score]) -> Result<usize, Error> {
        let mut answer = sys::attr_answer::default();
        // SAFETY: the text and the slice have that length.
        let code = unsafe { sys::attr_best(self.handle.get(), text.as_ptr(), text.len(), into.as_mut_ptr(), into.len(), &mut answer) };
        answered(code, text, answer).map(|it| it.count as usize)
    }

    /// The same, at most `most` of them.
    pub fn best(&self, text: &str, most: usize) -> Result<Vec<Score>, Error> {
        grown(most, |into| self.best_into(text, into))
    }

    /// Writes for each document the number that it has in an attribute and whether it has one (1 or 0), and returns how many have one. It
    /// is fastest where the documents ascend. An error of `Bounds` where the slices differ in length.
    pub fn longs_into(&self, field: u32, documents: &[u32], numbers: &mut [i64], present: &mut [u8]) -> Result<usize, Error> {
        let mut answer = sys::attr_answer::default();
        let (into, is) = ((numbers.as_mut_ptr(), numbers.len()), (present.as_mut_ptr(), present.len()));
        // SAFETY: the slices have these lengths.
        let code = unsafe {
            sys::attr_longs(self.handle.get(), field, documents.as_ptr(), documents.len(), into.0, into.1, is.0, is.1, &mut answer)
        };
        told(code, answer)
    }

    /// The number that each document has in an attribute.
    pub fn longs(&self, field: u32, documents: &[u32]) -> Result<Vec<Option<i64>>, Error> {
        let (mut numbers, mut present) = (vec![0; documents.len()], vec![0; documents.len()]);
        self.longs_into(field, documents, &mut numbers, &mut present)?;
        Ok(numbers.into_iter().zip(present).map(|(number, is)| (is != 0).then_some(number)).collect())
    }

    /// The distinct values that the documents of the kept answer have in an attribute, each with how many of them have it; at most `most`.
    pub fn groups(&self, field: u32, grouping: Grouping, most: usize) -> Result<Vec<Group>, Error> {
        let mut answer = sys::attr_answer::default();
        // SAFETY: as in `hold`.
        let code = unsafe { sys::attr_group(self.handle.get(), field, u32::from(grouping == Grouping::ByCount), most, &mut answer) };
        (0..told(code, answer)?).map(|number| self.group(number)).collect()
    }

    /// The values that meet a query of one comparison, ascending, each with how many documents of the commit have it; at most `most`.
    pub fn terms(&self, text: &str, most: usize) -> Result<Vec<Group>, Error> {
        let mut answer = sys::attr_answer::default();
        // SAFETY: the text has that length.
        let code = unsafe { sys::attr_terms(self.handle.get(), text.as_ptr(), text.len(), most, &mut answer) };
        if code != sys::ATTR_OK {
            return Err(Error::of_text(code, text, answer.place, "not one comparison"));
        }
        (0..answer.count as usize).map(|number| self.group(number)).collect()
    }

    fn group(&self, number: usize) -> Result<Group, Error> {
        let mut told = sys::attr_group_told::default();
        // SAFETY: as in `hold`.
        let code = unsafe { sys::attr_group_at(self.handle.get(), number, &mut told) };
        if code != sys::ATTR_OK {
            return Err(Error::new(code));
        }
        if told.is_text == 0 {
            return Ok(Group { value: Value::Long(told.number), documents: told.documents });
        }
        let mut text = vec![0; told.length as usize];
        // SAFETY: the vector has that length.
        let length = unsafe { sys::attr_group_text(self.handle.get(), number, text.as_mut_ptr(), text.len()) };
        text.truncate(length);
        let text = String::from_utf8(text).expect("a string of the engine is UTF-8");
        Ok(Group { value: Value::Text(text), documents: told.documents })
    }

    /// Copies the documents of the commit that are not below `first`, ascending, and returns how many.
    pub fn documents_into(&self, first: u32, into: &mut [u32]) -> Result<usize, Error> {
        let mut answer = sys::attr_answer::default();
        // SAFETY: the slice has that length.
        let code = unsafe { sys::attr_documents(self.handle.get(), first, into.as_mut_ptr(), into.len(), &mut answer) };
        told(code, answer)
    }

    /// The same, at most `most` of them.
    pub fn documents(&self, first: u32, most: usize) -> Result<Vec<u32>, Error> {
        grown(most, |into| self.documents_into(first, into))
    }

    /// A save of the first attribute, as docs/FORMATS.md says.
    pub fn save(&self) -> Result<Vec<u8>, Error> {
        let mut answer = sys::attr_answer::default();
        // SAFETY: as in `hold`.
        let code = unsafe { sys::attr_save(self.handle.get(), &mut answer) };
        if code != sys::ATTR_OK {
            return Err(Error::new(code));
        }
        let mut bytes = vec![0; answer.count as usize];
        // SAFETY: the vector has that length.
        let length = unsafe { sys::attr_saved(self.handle.get(), 0, bytes.as_mut_ptr(), bytes.len()) };
        bytes.truncate(length);
        Ok(bytes)
    }
}

impl Drop for Reader {
    /// Gives the reader up for good; it may outlive its engine.
    fn drop(&mut self) {
        let at = self.handle.get_mut().at;
        // SAFETY: the handle is open, and nobody has it after this.
        unsafe { sys::attr_reader_close(sys::attr_reader { at }) }
    }
}
