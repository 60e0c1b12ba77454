//! A parser repeated. `many0_count` counts how often it reads, none or more.
//! `separated_list1` reads one or more with a separator between; a separator
//! with nothing behind it stays unread.
//!
//! The parsers given here always read at least one byte a turn, so nom's
//! refusal of turns that read nothing has no counterpart.

use crate::{IResult, Parser};

pub fn many0_count<I: Copy, F: Parser<I>>(
    mut parser: F,
) -> impl FnMut(I) -> IResult<I, usize, F::Error> {
    move |input| {
        let mut rest = input;
        let mut count = 0;
        while let Ok((after, _)) = parser.parse(rest) {
            rest = after;
            count += 1;
        }
        Ok((rest, count))
    }
}

pub fn separated_list1<I: Copy, F: Parser<I>, S: Parser<I>>(
    mut separator: S,
    mut parser: F,
) -> impl FnMut(I) -> IResult<I, Vec<F::Output>, F::Error> {
    move |input| {
        let (mut rest, first) = parser.parse(input)?;
        let mut list = vec![first];
        while let Ok((behind, _)) = separator.parse(rest)
            && let Ok((after, next)) = parser.parse(behind)
        {
            list.push(next);
            rest = after;
        }
        Ok((rest, list))
    }
}
