//! The reference's parsers one by one, as 01's section on restructured_text.rs
//! has them.

#[path = "../../nom/tests/table/mod.rs"]
mod table;

use driver::parsers::{PARSERS, Parsed, has_scratch, name, parser};
use driver::show;
use parse_hyperlinks_visible::parser::restructured_text::{
    remove_whitespace, rst_escaped_link_destination_transform, rst_escaped_link_text_transform,
    rst_explicit_markup_block, rst_label2target, rst_parse_label2target, rst_parse_simple_label,
    rst_parse_text2label, rst_parse_text2target,
};
use table::Table;

#[test]
fn transforms() {
    let mut table = Table::new("transforms");
    for (input, text, stripped, destination) in [
        ("", Some(""), Some(""), Some("")),
        ("a b", Some("a b"), Some("ab"), Some("ab")),
        (r"a\ b", Some("ab"), Some(r"a\ b"), Some("a b")),
        ("a \t\r\nb", Some("a \t\r\nb"), Some("ab"), Some("ab")),
        (
            r"\`\:\<\>\\",
            Some(r"`:<>\"),
            Some(r"\`\:\<\>\\"),
            Some(r"`:<>\"),
        ),
        (r"a\_", Some("a_"), None, None),
        (r"a\b", None, None, None),
        ("a\\", None, None, None),
        ("a\\\nb", None, None, None),
        ("a\u{A0}", Some("a\u{A0}"), Some("a\u{A0}"), Some("a\u{A0}")),
    ] {
        let found = rst_escaped_link_text_transform(input)
            .ok()
            .map(|r| r.1.into_owned());
        table.case(input, found.as_deref(), text);
        let found = remove_whitespace(input).ok().map(|r| r.1.into_owned());
        table.case(input, found.as_deref(), stripped);
        let found = rst_escaped_link_destination_transform(input)
            .ok()
            .map(|r| r.1.into_owned());
        table.case(input, found.as_deref(), destination);
    }
    table.end();
}

#[test]
fn labels() {
    let mut table = Table::new("simple labels");
    for (input, expected) in [
        ("a_ b", Some((" b", "a"))),
        ("a__", Some(("_", "a"))),
        ("__", Some(("", "_"))),
        ("___", Some(("_", "_"))),
        ("_", None),
        ("a", None),
        ("", None),
        ("é-1_", Some(("", "é-1"))),
        ("a×_", None),
        ("`a b`_c", Some(("c", "a b"))),
        ("`a`__", Some(("_", "a"))),
        (r"`a\`b`_", Some(("", r"a\`b"))),
        ("`a`", None),
        ("``_", None),
        (r"`\``_", Some(("", r"\`"))),
    ] {
        table.case(input, rst_parse_simple_label(input).ok(), expected);
    }
    for (input, expected) in [
        ("a__ b", Some((" b", ("a", "_")))),
        ("`a <b_>`_", Some(("", ("a", "b")))),
        ("`a <b_>`__", Some(("", ("a <b_>", "_")))),
    ] {
        table.case(input, rst_parse_text2label(input).ok(), expected);
    }
    table.end();
}

#[test]
fn embedded() {
    let mut table = Table::new("text2target");
    for (input, anonymous, label, expected) in [
        ("`a <u>`_", false, false, Some(("", ("a", "u")))),
        ("`a <u>`_", true, false, None),
        ("`a <u>`_", false, true, None),
        ("`a <u>`__", true, false, Some(("", ("a", "u")))),
        ("`a <u>`__", false, false, None),
        ("`a <u>`___", true, false, None),
        ("`a <b_>`_ c", false, true, Some((" c", ("a", "b")))),
        ("`a <b_>`_", false, false, None),
        ("`a  \t<u>`_", false, false, Some(("", ("a", "u")))),
        ("`<u>`_", false, false, None),
        ("`a <u> `_", false, false, None),
        ("`a <>`_", false, false, None),
    ] {
        table.case(
            input,
            rst_parse_text2target(anonymous, label)(input).ok(),
            expected,
        );
    }
    table.end();
}

#[test]
fn blocks() {
    let mut table = Table::new("blocks and targets");
    for (header, input, expected) in [
        (".. ", ".. a\nb", Some(("\nb", "a"))),
        (".. ", " .. a\n    b\n   c", Some(("\n   c", "a b"))),
        (".. ", ".. a\r\n   b\r\n", Some(("\r\n", "a b"))),
        (".. ", ".. a\n   b\n   \n    c\n", Some(("\n", "a b   c"))),
        (".. ", ".. a\rb", None),
        (".. ", ".. a\n   b\rc", Some(("\n   b\rc", "a"))),
        (".. ", "..a", None),
        ("__ ", "__ a", Some(("", "a"))),
    ] {
        let found = rst_explicit_markup_block(header)(input).ok();
        table.case(
            input,
            found.map(|(rest, text)| (rest, text.into_owned())),
            expected.map(|(rest, text)| (rest, text.to_string())),
        );
    }
    for (input, label, expected) in [
        ("_a: u v", false, Some(("a", "u v"))),
        ("_a: b_ c", true, Some(("a", "b"))),
        ("_a: u", true, None),
        ("_`a:b`: u", false, Some(("a:b", "u"))),
        ("_a:u", false, None),
        ("__: u", false, Some(("_", "u"))),
        (r"_a\:b: u", false, Some((r"a\:b", "u"))),
    ] {
        let found = rst_parse_label2target(label)(input).ok();
        table.case(input, found.map(|(_, parts)| parts), expected);
    }
    for (input, label, expected) in [
        (".. _a: u\n", false, Some(("\n", "a", "u"))),
        (".. _a: b_\n", false, None),
        (".. _a: b_\n", true, Some(("\n", "a", "b"))),
        ("__ u", false, Some(("", "_", "u"))),
        ("__ b_", true, Some(("", "_", "b"))),
    ] {
        let found = rst_label2target(label, input).ok();
        let found = found.map(|(rest, (a, b))| (rest, a.into_owned(), b.into_owned()));
        let expected = expected.map(|(rest, a, b)| (rest, a.to_string(), b.to_string()));
        table.case(input, found, expected);
    }
    table.end();
}

/// The answers of all parsers, by number, where they are no refusals.
fn answers(input: &str) -> Vec<(u8, String)> {
    let answer = |number| parser(number, input.as_bytes(), input.len());
    PARSERS
        .into_iter()
        .map(|number| (number, answer(number)))
        .filter(|(_, answer)| *answer != Parsed::Refused)
        .map(|(number, answer)| (number, show::parsed(&answer)))
        .collect()
}

#[test]
fn numbers() {
    let mut table = Table::new("parsers by number");
    let inputs: [(&str, &[(u8, &str)]); 10] = [
        ("", &[(9, r#"0 "" """#), (10, r#"0 "" """#)]),
        (
            "`a <u>`_ ",
            &[
                (1, r#"8 "a" "u""#),
                (5, r#"8 "a <u>" """#),
                (6, r#"8 "a <u>" "a <u>""#),
                (9, r#"9 "`a <u>`_ " """#),
                (10, r#"9 "`a<u>`_" """#),
                (14, r#"8 "a" "u""#),
                (15, r#"8 "a <u>" "a <u>""#),
            ],
        ),
        (
            r"`\:<\:_>`_",
            &[
                (2, r#"10 "\5C:" "\5C:""#),
                (5, r#"10 "\5C:<\5C:_>" """#),
                (6, r#"10 "\5C:" "\5C:""#),
                (9, r#"10 "`:<:_>`_" """#),
                (10, r#"10 "`:<:_>`_" """#),
                (15, r#"10 ":" ":""#),
            ],
        ),
        (
            r"`a\_ <u\ v>`__",
            &[
                (3, r#"14 "a\5C_" "u\5C v""#),
                (5, r#"13 "a\5C_ <u\5C v>" """#),
                (6, r#"14 "a\5C_ <u\5C v>" "_""#),
                (9, r#"14 "`a_ <uv>`__" """#),
                (13, r#"14 "a_" "u v""#),
                (15, r#"14 "a_ <uv>" "_""#),
            ],
        ),
        (
            "`a <b_>`__",
            &[
                (4, r#"10 "a" "b""#),
                (5, r#"9 "a <b_>" """#),
                (6, r#"10 "a <b_>" "_""#),
                (9, r#"10 "`a <b_>`__" """#),
                (10, r#"10 "`a<b_>`__" """#),
                (15, r#"10 "a <b_>" "_""#),
            ],
        ),
        (
            "_a: u\n   v",
            &[
                (7, r#"10 "a" "u\0A   v""#),
                (9, r#"10 "_a: u\0A   v" """#),
                (10, r#"10 "_a:uv" """#),
            ],
        ),
        (
            "_a: b_ c",
            &[
                (7, r#"8 "a" "b_ c""#),
                (8, r#"8 "a" "b""#),
                (9, r#"8 "_a: b_ c" """#),
                (10, r#"8 "_a:b_c" """#),
            ],
        ),
        (
            ".. _a: u\n   v\n",
            &[
                (9, r#"14 ".. _a: u\0A   v\0A" """#),
                (10, r#"14 ".._a:uv" """#),
                (11, r#"13 "_a: u v" """#),
                (16, r#"13 "a" "uv""#),
            ],
        ),
        (
            " __ `a b`_ c",
            &[
                (9, r#"12 " __ `a b`_ c" """#),
                (10, r#"12 "__`ab`_c" """#),
                (12, r#"12 "`a b`_ c" """#),
                (17, r#"12 "_" "ab""#),
            ],
        ),
        (
            "é__ ",
            &[
                (5, r#"3 "\C3\A9" """#),
                (6, r#"4 "\C3\A9" "_""#),
                (9, r#"5 "\C3\A9__ " """#),
                (10, r#"5 "\C3\A9__" """#),
                (15, r#"4 "\C3\A9" "_""#),
            ],
        ),
    ];
    for (input, expected) in inputs {
        let expected = expected.iter().map(|(n, shown)| (*n, shown.to_string()));
        table.case(input, answers(input), expected.collect());
    }
    let mut names: Vec<&str> = PARSERS.into_iter().map(name).collect();
    names.sort_unstable();
    names.dedup();
    table.case("as many names", names.len(), PARSERS.len());
    table.end();
}

#[test]
fn scratches() {
    let mut table = Table::new("parsers' scratches");
    for number in PARSERS {
        for (input, scratch) in [(&b""[..], 0), (b"a_", 2), (b"a_", 3)] {
            let answer = parser(number, input, scratch);
            table.case(name(number), answer == Parsed::NoRoom, false);
            table.case(name(number), answer, parser(number, input, input.len()));
        }
        for scratch in [0, 1] {
            let no_room = parser(number, b"a_", scratch) == Parsed::NoRoom;
            table.case(name(number), no_room, has_scratch(number));
        }
    }
    table.end();
}

/// The private function that both target parsers are.
#[test]
fn targets() {
    let mut table = Table::new("both target parsers");
    for case in driver::cases::parsers::parsers() {
        let s = str::from_utf8(&case.input).expect("UTF-8");
        for (label, number) in [(false, 16), (true, 17)] {
            let found = match rst_label2target(label, s) {
                Ok((rest, (first, second))) => Parsed::Found {
                    first: first.into_owned().into_bytes().into(),
                    second: second.into_owned().into_bytes().into(),
                    consumed: s.len() - rest.len(),
                },
                Err(_) => Parsed::Refused,
            };
            table.case(case.name, found, parser(number, s.as_bytes(), s.len()));
        }
    }
    table.end();
}
