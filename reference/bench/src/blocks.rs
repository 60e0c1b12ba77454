//! Documents with links before blocks that are none, which the search tries at full
//! length: where such a block begins behind each link, its text may be read again and
//! again.

use crate::shapes::{Body, TAILS, TOKENS, joined};
use driver::document::DOCUMENT_MAX;

/// One word of so many bytes.
fn word(len: usize) -> String {
    "w".repeat(len)
}

/// So many blanks.
fn blanks(len: usize) -> String {
    " ".repeat(len)
}

/// A link and the header of a block so many times, and then how its target begins.
fn head(what: &str, token: &str, times: usize, then: &str) -> (String, Vec<u8>) {
    let name = format!("{times} links before {what}");
    (name, (token.repeat(times) + then).into_bytes())
}

/// What stands before all units.
pub fn heads() -> Vec<(String, Vec<u8>)> {
    let label = word(1000);
    let lines = format!("{}\n{}", word(60), blanks(8)).repeat(18);
    let deep = blanks(127);
    // Indents of which marks tell nothing: too deep, and one more than are told apart.
    let (deeper, other) = (blanks(1025), blanks(128));
    let indents: String = (0..127).map(|n| blanks(n) + ".. _\n").collect();
    let named = |what: &str, then: &str| head(what, "a_ .. _b ", 248, then);
    vec![
        named("a name that does not end", ""),
        named("a destination", ": "),
        named("a destination of lines", ": d\n      "),
        named("a label", ": `"),
        named("a long label", &format!(": `{label}`_ ")),
        named("a long label of lines", &format!(": `{lines}`_ ")),
        named("a long word", &format!(": {label}_ ")),
        named("a target on the next line", ":\n    "),
        named("a label on the next line", ":\n    `"),
        head("a name in backticks", "a_ .. _`b ", 248, "`: "),
        head(
            "two indents in turn",
            "a_ .. _b a_  .. _b ",
            124,
            ": d\n     ",
        ),
        head("no name", "a_ __ ", 248, ""),
        head(
            "a deep name",
            &format!("a_{deep}.. _b "),
            80,
            &format!(": d\n{deep}   "),
        ),
        head(
            "a deep label on the next line",
            &format!("a_{deep}.. _b "),
            60,
            &format!(":\n{deep}   `"),
        ),
        head(
            "no deep name",
            &format!("a_{deep}__ "),
            100,
            &format!("d\n{deep}   "),
        ),
        head(
            "a deeper label on the next line",
            &format!("a_{deeper}.. _b "),
            8,
            &format!(":\n{deeper}   `"),
        ),
        (
            "127 indents and 27 links before a label on the next line".into(),
            [
                indents,
                format!("a_{other}.. _b ").repeat(27),
                format!(":\n{other}   `"),
            ]
            .concat()
            .into_bytes(),
        ),
    ]
}

/// What stands behind all units.
pub fn tails() -> Vec<&'static str> {
    let mut list = TAILS.to_vec();
    list.extend(["\\\n z", "\\\n    z", "\n    \\_"]);
    list
}

/// All units of one and two tokens.
pub fn units() -> Vec<Vec<usize>> {
    let count = TOKENS.len();
    let one = (0..count).map(|token| vec![token]);
    let two = (0..count * count).map(|number| vec![number / count, number % count]);
    one.chain(two).collect()
}

/// A document of full length.
pub fn make(head: &[u8], unit: &[usize], tail: &str, out: &mut Vec<u8>) {
    let body = Body {
        unit: unit.to_vec(),
        piece: None,
    };
    joined(head, &body.make(DOCUMENT_MAX), tail, DOCUMENT_MAX, out);
}

pub fn describe(head: &str, unit: &[usize], tail: &str) -> String {
    let unit: String = unit.iter().map(|token| TOKENS[*token].describe()).collect();
    format!("[{head}] [{unit}]* [{}]", tail.escape_debug())
}
