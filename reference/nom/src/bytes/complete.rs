//! 01: "`escaped`, with stop set S and escapable set E: takes characters not in
//! S, and a backslash with a following character of E. A backslash before
//! anything else, or last, refuses. It ends before another character of S, and
//! refuses if that is its first. Empty input gives the empty part."
//!
//! S comes as the parser `normal`, which reads one character or more outside S
//! and the backslash; E as the parser `escapable`. `escaped_transform` takes the
//! same way and puts together what its two parsers give. `tag` reads the given
//! text; `is_not`, `take_till` and `take_till1` read characters up to one that
//! stops.

use crate::error::{Error, ErrorKind};
use crate::{Err, IResult, Parser, read, refuse};

pub fn tag<'a>(text: &str) -> impl Fn(&'a str) -> IResult<&'a str, &'a str> {
    move |input: &'a str| {
        if input.starts_with(text) {
            read(input, text.len())
        } else {
            refuse(input, ErrorKind::Tag)
        }
    }
}

/// The bytes in front of the first character that `stops`, or all.
fn before(input: &str, stops: impl Fn(char) -> bool) -> usize {
    input.find(stops).unwrap_or(input.len())
}

/// None or more characters up to one that `stops`.
pub fn take_till<'a>(
    stops: impl Fn(char) -> bool,
) -> impl Fn(&'a str) -> IResult<&'a str, &'a str> {
    move |input| read(input, before(input, &stops))
}

/// One or more characters up to one that `stops`.
pub fn take_till1<'a>(
    stops: impl Fn(char) -> bool,
) -> impl Fn(&'a str) -> IResult<&'a str, &'a str> {
    move |input| match before(input, &stops) {
        0 => refuse(input, ErrorKind::TakeTill1),
        n => read(input, n),
    }
}

/// One or more characters up to one of the list.
pub fn is_not<'a>(list: &str) -> impl Fn(&'a str) -> IResult<&'a str, &'a str> {
    move |input| match before(input, |c| list.contains(c)) {
        0 => refuse(input, ErrorKind::IsNot),
        n => read(input, n),
    }
}

pub fn escaped<'a, F, G>(
    mut normal: F,
    control: char,
    mut escapable: G,
) -> impl FnMut(&'a str) -> IResult<&'a str, &'a str>
where
    F: Parser<&'a str, Error = Error<&'a str>>,
    G: Parser<&'a str, Error = Error<&'a str>>,
{
    move |input| {
        let mut rest = input;
        while !rest.is_empty() {
            if let Ok((after, _)) = normal.parse(rest) {
                rest = after;
            } else if let Some(behind) = rest.strip_prefix(control) {
                if behind.is_empty() {
                    return refuse(input, ErrorKind::Escaped);
                }
                rest = escapable.parse(behind)?.0;
            } else if rest.len() == input.len() {
                return refuse(input, ErrorKind::Escaped);
            } else {
                break;
            }
        }
        read(input, input.len() - rest.len())
    }
}

/// What `escaped_transform` reads.
pub trait Input: Copy {
    /// The bytes left.
    fn left(self) -> usize;
    /// What follows `c`, if the input starts with it.
    fn behind(self, c: char) -> Option<Self>;
}

impl Input for &str {
    fn left(self) -> usize {
        self.len()
    }

    fn behind(self, c: char) -> Option<Self> {
        self.strip_prefix(c)
    }
}

/// What `escaped_transform` puts together.
pub trait ExtendInto {
    type Item;
    type Extender: Default;

    fn extend_into(&self, whole: &mut Self::Extender);
}

impl ExtendInto for &str {
    type Item = char;
    type Extender = String;

    fn extend_into(&self, whole: &mut String) {
        whole.push_str(self);
    }
}

impl ExtendInto for char {
    type Item = char;
    type Extender = String;

    fn extend_into(&self, whole: &mut String) {
        whole.push(*self);
    }
}

/// Its type parameters are nom's, since a caller names them.
pub fn escaped_transform<I, E, F, G, O1, O2, X, S>(
    mut normal: F,
    control: char,
    mut transform: G,
) -> impl FnMut(I) -> IResult<I, S, E>
where
    I: Input,
    E: From<Error<I>>,
    F: Parser<I, Output = O1, Error = E>,
    G: Parser<I, Output = O2, Error = E>,
    O1: ExtendInto<Item = X, Extender = S>,
    O2: ExtendInto<Item = X, Extender = S>,
    S: Default,
{
    move |input| {
        let refused = |at| {
            Err(Err::Error(
                Error::new(at, ErrorKind::EscapedTransform).into(),
            ))
        };
        let mut whole = S::default();
        let mut rest = input;
        while rest.left() > 0 {
            if let Ok((after, part)) = normal.parse(rest) {
                part.extend_into(&mut whole);
                rest = after;
            } else if let Some(behind) = rest.behind(control) {
                if behind.left() == 0 {
                    return refused(rest);
                }
                let (after, part) = transform.parse(behind)?;
                part.extend_into(&mut whole);
                rest = after;
            } else if rest.left() == input.left() {
                return refused(rest);
            } else {
                break;
            }
        }
        Ok((rest, whole))
    }
}
