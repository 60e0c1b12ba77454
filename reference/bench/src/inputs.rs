//! The documents that the single-link call is timed on, each of a kind that can be
//! made at any length.

use crate::drawn::Drawn;
use crate::texts::{NOTES, PROSE, REFERENCES, between, nested, repeated};

/// A kind of documents.
pub struct Input {
    pub name: &'static str,
    /// A document of that many bytes.
    pub make: fn(usize) -> Vec<u8>,
}

pub const INPUTS: [Input; 26] = [
    Input {
        name: "prose",
        make: |n| repeated(PROSE, n),
    },
    Input {
        name: "one word",
        make: |n| repeated("a", n),
    },
    Input {
        name: "one word of two-byte letters",
        make: |n| repeated("é", n),
    },
    Input {
        name: "full stops",
        make: |n| repeated(".", n),
    },
    Input {
        name: "spaces",
        make: |n| repeated(" ", n),
    },
    Input {
        name: "LFs",
        make: |n| repeated("\n", n),
    },
    Input {
        name: "words of one letter",
        make: |n| repeated("a ", n),
    },
    Input {
        name: "prose with references and targets",
        make: |n| repeated(REFERENCES, n),
    },
    Input {
        name: "notes",
        make: |n| repeated(NOTES, n),
    },
    Input {
        name: "many references",
        make: |n| repeated("a_ ", n),
    },
    Input {
        name: "many embedded links",
        make: |n| repeated("`a <u>`_ ", n),
    },
    Input {
        name: "many targets",
        make: |n| repeated(".. _a: u\n", n),
    },
    Input {
        name: "one target of many lines",
        make: |n| between(".. _a: u", "\n   v/w", "", n),
    },
    Input {
        name: "one comment of many lines",
        make: |n| between(".. c", "\n   further", "", n),
    },
    Input {
        name: "comments of four lines",
        make: |n| repeated(".. c\n   further\n   further\n   further\n", n),
    },
    Input {
        name: "nested comments",
        make: nested,
    },
    Input {
        name: "a backtick, then prose",
        make: |n| between("`", PROSE, "", n),
    },
    Input {
        name: "a backtick in each word",
        make: |n| repeated("a`b ", n),
    },
    Input {
        name: "escaped backticks",
        make: |n| repeated("\\`", n),
    },
    Input {
        name: "escaped backticks, then a wrong escape",
        make: |n| between("", "\\`", "\\q", n),
    },
    Input {
        name: "escaped backticks, closed, no link",
        make: |n| between("x`", "\\`", "`_", n),
    },
    Input {
        name: "links between escaped backticks",
        make: |n| repeated("\\` a_ ", n),
    },
    Input {
        name: "links before '.. ' on one line",
        make: |n| repeated("a_ .. ", n),
    },
    Input {
        name: "links before '__ ' on one line",
        make: |n| between("", "a_ __ x ", "\\q", n),
    },
    Input {
        name: "links before '.. ' with all lines behind",
        make: |n| repeated("    a_ .. c\n", n),
    },
    Input {
        name: "links before names that do not end, then drawn escapes",
        make: |n| {
            let mut doc = Vec::new();
            Drawn::links().make(n, &mut doc);
            doc
        },
    },
];
