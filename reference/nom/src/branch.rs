//! `alt`: the alternatives are tried in the order given, each at the same
//! place; the first that reads decides, and if none does, all refuse.

use crate::{IResult, Parser};

/// A tuple of alternatives.
pub trait Alternatives<I> {
    type Output;
    type Error;

    fn first_of(&mut self, input: I) -> IResult<I, Self::Output, Self::Error>;
}

pub fn alt<I, L: Alternatives<I>>(mut list: L) -> impl FnMut(I) -> IResult<I, L::Output, L::Error> {
    move |input| list.first_of(input)
}

macro_rules! alternatives {
    ($($before:ident)* ; $last:ident) => {
        impl<I: Copy, O, E, $($before,)* $last> Alternatives<I> for ($($before,)* $last,)
        where
            $($before: Parser<I, Output = O, Error = E>,)*
            $last: Parser<I, Output = O, Error = E>,
        {
            type Output = O;
            type Error = E;

            #[allow(non_snake_case)]
            fn first_of(&mut self, input: I) -> IResult<I, O, E> {
                let ($($before,)* $last,) = self;
                $(
                    if let Ok(found) = $before.parse(input) {
                        return Ok(found);
                    }
                )*
                $last.parse(input)
            }
        }
    };
}

alternatives!(; A);
alternatives!(A; B);
alternatives!(A B; C);
alternatives!(A B C; D);
alternatives!(A B C D; E1);
alternatives!(A B C D E1; F);
alternatives!(A B C D E1 F; G);
