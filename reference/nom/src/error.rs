//! A refusal's place and kind. 01 gives refusals no meaning beyond that they
//! refuse; the kinds are those that nom names.

#[derive(Debug, PartialEq)]
pub struct Error<I> {
    pub input: I,
    pub code: ErrorKind,
}

impl<I> Error<I> {
    pub fn new(input: I, code: ErrorKind) -> Self {
        Error { input, code }
    }
}

#[derive(Debug, PartialEq)]
pub enum ErrorKind {
    Char,
    CrLf,
    Eof,
    Escaped,
    EscapedTransform,
    IsNot,
    NoneOf,
    Not,
    OneOf,
    Space,
    Tag,
    TakeTill1,
    Verify,
}
