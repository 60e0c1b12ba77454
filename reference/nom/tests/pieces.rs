//! The stand-ins against 01's words, one table for each of its sentences.

mod table;

use nom::branch::alt;
use nom::bytes::complete::{escaped, escaped_transform, is_not, tag, take_till, take_till1};
use nom::character::complete::{
    anychar, char, line_ending, multispace0, newline, none_of, not_line_ending, one_of, space0,
    space1,
};
use nom::combinator::{eof, map, not, opt, value, verify};
use nom::multi::{many0_count, separated_list1};
use nom::sequence::{delimited, pair};
use nom::{IResult, Parser};
use table::Table;

/// What is left and what was read, or none where the parser refuses.
fn ask<'a, O>(
    mut parser: impl Parser<&'a str, Output = O>,
    input: &'a str,
) -> Option<(&'a str, O)> {
    parser.parse(input).ok()
}

#[test]
fn escaping() {
    let mut table = Table::new("nom, escaped");
    let cases = [
        ("takes characters not in S", "ab`c", Some(("`c", "ab"))),
        ("to the end", "ab", Some(("", "ab"))),
        (
            "a backslash with a character of E",
            r"a\:b`",
            Some(("`", r"a\:b")),
        ),
        ("an escape in front", r"\`a`", Some(("`", r"\`a"))),
        (
            "an escape of a character of S",
            r"a\``",
            Some(("`", r"a\`")),
        ),
        ("an escape at the end", r"a\:", Some(("", r"a\:"))),
        ("a backslash before anything else", r"a\bc", None),
        ("a backslash before a character of two bytes", r"a\é", None),
        ("a backslash last", "a\\", None),
        ("a backslash alone", "\\", None),
        ("two backslashes", r"\\`", Some(("`", r"\\"))),
        ("another character of S first", "`a", None),
        ("empty input", "", Some(("", ""))),
        ("a character of two bytes", "é`", Some(("`", "é"))),
        ("a line feed", "a\nb`", Some(("`", "a\nb"))),
    ];
    for (name, input, expected) in cases {
        let parser = escaped(none_of("\\`"), '\\', one_of(" `:<>_\\"));
        table.case(name, ask(parser, input), expected);
    }
    table.end();
}

#[test]
fn transforming() {
    fn transform(input: &str) -> IResult<&str, String> {
        let special = alt((value("", tag(" ")), tag(":"), tag("\\")));
        escaped_transform(is_not("\\"), '\\', special)(input)
    }
    let mut table = Table::new("nom, escaped_transform");
    let cases = [
        ("nothing to do", "a b", Some("a b")),
        ("a character for itself", r"a\:b", Some("a:b")),
        ("a character for nothing", r"a\ b", Some("ab")),
        ("escapes side by side", r"\ \:\\", Some(":\\")),
        ("any other backslash", r"a\b", None),
        ("a backslash last", "a\\", None),
        ("empty input", "", Some("")),
    ];
    for (name, input, expected) in cases {
        let expected = expected.map(|whole| ("", whole.to_string()));
        table.case(name, ask(transform, input), expected);
    }
    table.end();
}

#[test]
fn lines() {
    let mut table = Table::new("nom, line ends");
    table.case("newline is LF", ask(newline, "\na"), Some(("a", '\n')));
    table.case("newline is not CR LF", ask(newline, "\r\n"), None);
    table.case("newline at the end", ask(newline, ""), None);
    for (name, input, expected) in [
        ("LF", "\na", Some(("a", "\n"))),
        ("CR LF", "\r\na", Some(("a", "\r\n"))),
        ("CR alone", "\ra", None),
        ("CR at the end", "\r", None),
        ("a letter", "a\n", None),
        ("the end", "", None),
    ] {
        table.case(
            &format!("line_ending, {name}"),
            ask(line_ending, input),
            expected,
        );
    }
    for (name, input, expected) in [
        ("to LF", "ab\nc", Some(("\nc", "ab"))),
        ("to CR LF", "ab\r\nc", Some(("\r\nc", "ab"))),
        ("to the end", "ab", Some(("", "ab"))),
        ("CR without LF", "ab\rc", None),
        ("CR last", "ab\r", None),
        (
            "CR without LF behind LF",
            "ab\nc\rd",
            Some(("\nc\rd", "ab")),
        ),
        ("nothing before LF", "\n", Some(("\n", ""))),
        ("empty input", "", Some(("", ""))),
    ] {
        table.case(
            &format!("not_line_ending, {name}"),
            ask(not_line_ending, input),
            expected,
        );
    }
    table.end();
}

#[test]
fn blanks() {
    let mut table = Table::new("nom, blanks");
    for (input, taken) in [
        (" \t a", 3),
        ("a ", 0),
        ("", 0),
        ("\n", 0),
        ("\u{A0}", 0),
        ("\t", 1),
    ] {
        let split = Some((&input[taken..], &input[..taken]));
        table.case("space0", ask(space0, input), split);
        table.case("space1", ask(space1, input), split.filter(|_| taken > 0));
    }
    for (input, taken) in [(" \t\r\na", 4), ("a", 0), ("", 0), ("\u{85} ", 0)] {
        let split = Some((&input[taken..], &input[..taken]));
        table.case("multispace0", ask(multispace0, input), split);
    }
    table.end();
}

#[test]
fn characters() {
    let mut table = Table::new("nom, characters");
    table.case("char", ask(char('_'), "_a"), Some(("a", '_')));
    table.case("char, another", ask(char('_'), "a_"), None);
    table.case("char, the end", ask(char('_'), ""), None);
    table.case("one_of", ask(one_of("(["), "[a"), Some(("a", '[')));
    table.case("one_of, another", ask(one_of("(["), "a"), None);
    table.case("one_of, the end", ask(one_of("(["), ""), None);
    table.case("none_of", ask(none_of("`"), "éa"), Some(("a", 'é')));
    table.case("none_of, one of them", ask(none_of("`"), "`a"), None);
    table.case("none_of, the end", ask(none_of("`"), ""), None);
    table.case("anychar", ask(anychar, "éa"), Some(("a", 'é')));
    table.case("anychar, the end", ask(anychar, ""), None);
    table.end();
}

#[test]
fn parts() {
    let stop = |c: char| c == '<';
    let mut table = Table::new("nom, parts");
    table.case("tag", ask(tag(".. "), ".. a"), Some(("a", ".. ")));
    table.case(
        "tag, another",
        ask(tag(".. "), ".. a".trim_start_matches('.')),
        None,
    );
    table.case("tag, too short", ask(tag(".. "), ".."), None);
    table.case("is_not", ask(is_not("\\"), "ab\\"), Some(("\\", "ab")));
    table.case("is_not, none", ask(is_not("\\"), "\\a"), None);
    table.case("is_not, the end", ask(is_not("\\"), ""), None);
    table.case("take_till", ask(take_till(stop), "é<"), Some(("<", "é")));
    table.case(
        "take_till, none",
        ask(take_till(stop), "<"),
        Some(("<", "")),
    );
    table.case(
        "take_till, the end",
        ask(take_till(stop), ""),
        Some(("", "")),
    );
    table.case("take_till1", ask(take_till1(stop), "ab"), Some(("", "ab")));
    table.case("take_till1, none", ask(take_till1(stop), "<"), None);
    table.case("take_till1, the end", ask(take_till1(stop), ""), None);
    table.end();
}

#[test]
fn combined() {
    let mut table = Table::new("nom, combined");
    table.case("opt", ask(opt(char('a')), "ab"), Some(("b", Some('a'))));
    table.case("opt, nothing", ask(opt(char('a')), "b"), Some(("b", None)));
    table.case("not", ask(not(char('a')), "b"), Some(("b", ())));
    table.case("not, refused", ask(not(char('a')), "ab"), None);
    table.case("map", ask(map(char('a'), |_| 1), "ab"), Some(("b", 1)));
    table.case("value", ask(value("_", tag("__")), "__b"), Some(("b", "_")));
    let short = |s: &str| s.len() <= 2;
    table.case(
        "verify",
        ask(verify(is_not(":"), short), "ab:"),
        Some((":", "ab")),
    );
    table.case(
        "verify, refused",
        ask(verify(is_not(":"), short), "abc:"),
        None,
    );
    table.case("eof", ask(eof, ""), Some(("", "")));
    table.case("eof, refused", ask(eof, "a"), None);
    table.case(
        "alt, first",
        ask(alt((tag("a"), tag("ab"))), "ab"),
        Some(("b", "a")),
    );
    table.case(
        "alt, second",
        ask(alt((tag("b"), tag("a"))), "ab"),
        Some(("b", "a")),
    );
    table.case("alt, none", ask(alt((tag("b"), tag("c"))), "ab"), None);
    table.case("alt, one", ask(alt((tag("a"),)), "ab"), Some(("b", "a")));
    let quoted = || delimited(tag("`"), is_not("`"), tag("`_"));
    table.case("delimited", ask(quoted(), "`a`_b"), Some(("b", "a")));
    table.case("delimited, open", ask(quoted(), "`a`b"), None);
    table.case(
        "pair",
        ask(pair(space0, tag("..")), " ..a"),
        Some(("a", (" ", ".."))),
    );
    table.case("pair, refused", ask(pair(space0, tag("..")), " a"), None);
    table.case(
        "many0_count",
        ask(many0_count(newline), "\n\na"),
        Some(("a", 2)),
    );
    table.case(
        "many0_count, none",
        ask(many0_count(newline), "a"),
        Some(("a", 0)),
    );
    let list = || separated_list1(tag("\n "), not_line_ending);
    table.case(
        "separated_list1",
        ask(list(), "a\n b\nc"),
        Some(("\nc", vec!["a", "b"])),
    );
    table.case(
        "separated_list1, one",
        ask(list(), "a"),
        Some(("", vec!["a"])),
    );
    table.case(
        "separated_list1, four",
        ask(list(), "a\n b\n c\n d"),
        Some(("", vec!["a", "b", "c", "d"])),
    );
    table.case(
        "separated_list1, an empty one",
        ask(list(), "a\n "),
        Some(("", vec!["a", ""])),
    );
    table.case("separated_list1, first refused", ask(list(), "a\r"), None);
    table.case(
        "separated_list1, a later one refused",
        ask(list(), "a\n b\r"),
        Some(("\n b\r", vec!["a"])),
    );
    table.end();
}
