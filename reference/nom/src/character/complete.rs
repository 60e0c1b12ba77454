//! 01: "`newline` is LF. `line_ending` is LF or CR LF. `not_line_ending` runs to
//! the first CR or LF or the end; if that is a CR without LF it refuses.
//! `space0`, `space1`: spaces and tabs, none or more, one or more.
//! `multispace0`: also CR, LF."
//!
//! `char`, `one_of`, `none_of` and `anychar` read one character, and refuse at
//! the end of the input.

use crate::error::ErrorKind;
use crate::{IResult, read, refuse};

/// Reads the first character if it `fits`.
fn one(input: &str, fits: impl Fn(char) -> bool, code: ErrorKind) -> IResult<&str, char> {
    match input.chars().next() {
        Some(c) if fits(c) => Ok((&input[c.len_utf8()..], c)),
        _ => refuse(input, code),
    }
}

pub fn char<'a>(wanted: char) -> impl Fn(&'a str) -> IResult<&'a str, char> {
    move |input| one(input, |c| c == wanted, ErrorKind::Char)
}

pub fn one_of<'a>(list: &str) -> impl Fn(&'a str) -> IResult<&'a str, char> {
    move |input| one(input, |c| list.contains(c), ErrorKind::OneOf)
}

pub fn none_of<'a>(list: &str) -> impl Fn(&'a str) -> IResult<&'a str, char> {
    move |input| one(input, |c| !list.contains(c), ErrorKind::NoneOf)
}

pub fn anychar(input: &str) -> IResult<&str, char> {
    one(input, |_| true, ErrorKind::Eof)
}

pub fn newline(input: &str) -> IResult<&str, char> {
    one(input, |c| c == '\n', ErrorKind::Char)
}

pub fn line_ending(input: &str) -> IResult<&str, &str> {
    if input.starts_with('\n') {
        read(input, 1)
    } else if input.starts_with("\r\n") {
        read(input, 2)
    } else {
        refuse(input, ErrorKind::CrLf)
    }
}

pub fn not_line_ending(input: &str) -> IResult<&str, &str> {
    let n = input.find(['\r', '\n']).unwrap_or(input.len());
    if input[n..].starts_with('\r') && !input[n..].starts_with("\r\n") {
        refuse(input, ErrorKind::Tag)
    } else {
        read(input, n)
    }
}

/// The bytes of the characters of `list` at the front.
fn run(input: &str, list: &[char]) -> usize {
    input.len() - input.trim_start_matches(list).len()
}

pub fn space0(input: &str) -> IResult<&str, &str> {
    read(input, run(input, &[' ', '\t']))
}

pub fn space1(input: &str) -> IResult<&str, &str> {
    match run(input, &[' ', '\t']) {
        0 => refuse(input, ErrorKind::Space),
        n => read(input, n),
    }
}

pub fn multispace0(input: &str) -> IResult<&str, &str> {
    read(input, run(input, &[' ', '\t', '\r', '\n']))
}
