//! Stand-ins for the pieces of `nom` that the reference uses, under nom's own
//! names and paths. 01 says what they mean, in its section "Bytes and the `nom`
//! pieces"; each module opens with its words. All pieces are the *complete*
//! ones: the end of the text is the end of the input.

pub mod branch;
pub mod bytes {
    pub mod complete;
}
pub mod character {
    pub mod complete;
}
pub mod combinator;
pub mod error;
pub mod multi;
pub mod sequence;

/// What a parser answers: the input left and what it read, or a refusal.
pub type IResult<I, O, E = error::Error<I>> = Result<(I, O), Err<E>>;

/// A refusal.
#[derive(Debug, PartialEq)]
pub enum Err<E> {
    Error(E),
}

/// Anything that reads the front of an input.
pub trait Parser<I> {
    type Output;
    type Error;

    fn parse(&mut self, input: I) -> IResult<I, Self::Output, Self::Error>;
}

impl<I, O, E, F: FnMut(I) -> IResult<I, O, E>> Parser<I> for F {
    type Output = O;
    type Error = E;

    fn parse(&mut self, input: I) -> IResult<I, O, E> {
        self(input)
    }
}

/// Gives the first `n` bytes of `input` as read and the others as left.
fn read(input: &str, n: usize) -> IResult<&str, &str> {
    Ok((&input[n..], &input[..n]))
}

/// Refuses at `input`.
fn refuse<I, O>(input: I, code: error::ErrorKind) -> IResult<I, O> {
    Err(Err::Error(error::Error::new(input, code)))
}
