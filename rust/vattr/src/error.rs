//! What a refused call says.
use std::fmt;
use vattr_sys as sys;

/// Why a call was refused: the codes of `attr.h`.
#[derive(Clone, Copy, Debug, PartialEq, Eq, Hash)]
#[non_exhaustive]
#[allow(missing_docs)]
pub enum Code {
    Memory,
    Bounds,
    Attributes,
    NoText,
    NoReader,
    Lost,
    Full,
    CommitsSpent,
    OperationsSpent,
    NoDocument,
    Syntax,
    NoField,
    WrongType,
    OutOfRange,
    TooDeep,
    NotJson,
    NoOperation,
    BadId,
    BadValue,
    Unsupported,
    TooManyItems,
    LineTooLong,
    BadSave,
    OtherSave,
    /// A code that this crate does not know.
    Other(i32),
}

impl Code {
    fn of(code: i32) -> Code {
        match code {
            sys::ATTR_MEMORY => Code::Memory,
            sys::ATTR_BOUNDS => Code::Bounds,
            sys::ATTR_ATTRIBUTES => Code::Attributes,
            sys::ATTR_NO_TEXT => Code::NoText,
            sys::ATTR_NO_READER => Code::NoReader,
            sys::ATTR_LOST => Code::Lost,
            sys::ATTR_FULL => Code::Full,
            sys::ATTR_COMMITS_SPENT => Code::CommitsSpent,
            sys::ATTR_OPERATIONS_SPENT => Code::OperationsSpent,
            sys::ATTR_NO_DOCUMENT => Code::NoDocument,
            sys::ATTR_SYNTAX => Code::Syntax,
            sys::ATTR_NO_FIELD => Code::NoField,
            sys::ATTR_WRONG_TYPE => Code::WrongType,
            sys::ATTR_OUT_OF_RANGE => Code::OutOfRange,
            sys::ATTR_TOO_DEEP => Code::TooDeep,
            sys::ATTR_NOT_JSON => Code::NotJson,
            sys::ATTR_NO_OPERATION => Code::NoOperation,
            sys::ATTR_BAD_ID => Code::BadId,
            sys::ATTR_BAD_VALUE => Code::BadValue,
            sys::ATTR_UNSUPPORTED => Code::Unsupported,
            sys::ATTR_TOO_MANY_ITEMS => Code::TooManyItems,
            sys::ATTR_LINE_TOO_LONG => Code::LineTooLong,
            sys::ATTR_BAD_SAVE => Code::BadSave,
            sys::ATTR_OTHER_SAVE => Code::OtherSave,
            other => Code::Other(other),
        }
    }
}

/// A call was refused.
#[derive(Clone, Debug, PartialEq, Eq)]
pub struct Error {
    /// Why.
    pub code: Code,
    /// The line of the feed that is refused, from 1; 0 where the call has no lines.
    pub line: u64,
    /// Where that line begins, or where the text breaks off, or the first bad field of a save; otherwise 0.
    pub place: u64,
    /// Where the line behind the refused one begins; otherwise 0.
    pub next: u64,
    /// How many operations, or documents of a save, the call applied before it was refused.
    pub operations: u32,
    message: String,
}

impl Error {
    pub(crate) fn new(code: i32) -> Error {
        let mut text = [0u8; 80];
        // SAFETY: `text` has the room that is told.
        let length = unsafe { sys::attr_message(code, text.as_mut_ptr(), text.len()) };
        Error {
            code: Code::of(code),
            line: 0,
            place: 0,
            next: 0,
            operations: 0,
            message: String::from_utf8_lossy(&text[..length]).into_owned(),
        }
    }

    pub(crate) fn of_writer(code: i32, told: &sys::attr_told) -> Error {
        let mut error = Error { line: told.line, place: told.place, next: told.next, operations: told.operations, ..Error::new(code) };
        if told.line > 0 {
            error.message += &format!(": line {}, at byte {}", told.line, told.place);
        }
        if code == sys::ATTR_FULL {
            error.message += &format!(": {} buffers in use, {} held", told.active, told.held);
            if told.is_held != 0 {
                error.message += &format!(" by a reader of commit {} or later", told.oldest);
            }
        }
        error
    }

    pub(crate) fn of_text(code: i32, text: &str, place: u64, no: &str) -> Error {
        let mut error = Error::new(code);
        if matches!(code, sys::ATTR_SYNTAX | sys::ATTR_NO_FIELD) {
            error.place = place;
            let rest = text.get(place as usize..).unwrap_or("");
            error.message = match code {
                sys::ATTR_SYNTAX => format!("the text is {no}: it breaks off"),
                _ => error.message + ":",
            };
            error.message += &match rest {
                "" => " at its end".to_string(),
                rest => format!(" at byte {place}, before {}", rest.chars().take(40).collect::<String>()),
            };
        }
        error
    }

    pub(crate) fn of_attributes(code: i32, place: u64) -> Error {
        let mut error = Error { place, ..Error::new(code) };
        if code == sys::ATTR_ATTRIBUTES {
            error.message += &format!(": attribute number {place}, from 0");
        }
        error
    }
}

impl fmt::Display for Error {
    fn fmt(&self, f: &mut fmt::Formatter<'_>) -> fmt::Result {
        f.write_str(&self.message)
    }
}

impl std::error::Error for Error {}
