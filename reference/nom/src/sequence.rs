//! One parser after another: `pair` gives what both read, `delimited` what the
//! middle one of three reads.

use crate::{IResult, Parser};

pub fn pair<I, A, B, E, F, G>(mut first: F, mut second: G) -> impl FnMut(I) -> IResult<I, (A, B), E>
where
    F: Parser<I, Output = A, Error = E>,
    G: Parser<I, Output = B, Error = E>,
{
    move |input| {
        let (rest, a) = first.parse(input)?;
        let (rest, b) = second.parse(rest)?;
        Ok((rest, (a, b)))
    }
}

pub fn delimited<I, F, G, H>(
    mut open: F,
    mut middle: G,
    mut close: H,
) -> impl FnMut(I) -> IResult<I, G::Output, G::Error>
where
    F: Parser<I, Error = G::Error>,
    G: Parser<I>,
    H: Parser<I, Error = G::Error>,
{
    move |input| {
        let (rest, _) = open.parse(input)?;
        let (rest, found) = middle.parse(rest)?;
        let (rest, _) = close.parse(rest)?;
        Ok((rest, found))
    }
}
