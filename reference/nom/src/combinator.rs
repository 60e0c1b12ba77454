//! What is built from one parser. `opt` reads it or nothing. `not` reads
//! nothing, and refuses where it reads. `map` and `value` change what it gives.
//! `verify` also refuses where the test fails. `eof` is the end of the input.

use crate::error::{Error, ErrorKind};
use crate::{IResult, Parser, read, refuse};
use std::borrow::Borrow;

pub fn opt<I: Copy, F: Parser<I>>(
    mut parser: F,
) -> impl FnMut(I) -> IResult<I, Option<F::Output>, F::Error> {
    move |input| match parser.parse(input) {
        Ok((rest, found)) => Ok((rest, Some(found))),
        Err(_) => Ok((input, None)),
    }
}

pub fn not<I: Copy, F: Parser<I>>(mut parser: F) -> impl FnMut(I) -> IResult<I, ()> {
    move |input| match parser.parse(input) {
        Ok(_) => refuse(input, ErrorKind::Not),
        Err(_) => Ok((input, ())),
    }
}

pub fn map<I, O, F: Parser<I>, G: FnMut(F::Output) -> O>(
    mut parser: F,
    mut change: G,
) -> impl FnMut(I) -> IResult<I, O, F::Error> {
    move |input| {
        let (rest, found) = parser.parse(input)?;
        Ok((rest, change(found)))
    }
}

pub fn value<I, O: Clone, F: Parser<I>>(
    given: O,
    mut parser: F,
) -> impl FnMut(I) -> IResult<I, O, F::Error> {
    move |input| {
        let (rest, _) = parser.parse(input)?;
        Ok((rest, given.clone()))
    }
}

pub fn verify<I: Copy, T: ?Sized, F, G: Fn(&T) -> bool>(
    mut parser: F,
    test: G,
) -> impl FnMut(I) -> IResult<I, F::Output>
where
    F: Parser<I, Error = Error<I>>,
    F::Output: Borrow<T>,
{
    move |input| {
        let (rest, found) = parser.parse(input)?;
        if test(found.borrow()) {
            Ok((rest, found))
        } else {
            refuse(input, ErrorKind::Verify)
        }
    }
}

pub fn eof(input: &str) -> IResult<&str, &str> {
    if input.is_empty() {
        read(input, 0)
    } else {
        refuse(input, ErrorKind::Eof)
    }
}
