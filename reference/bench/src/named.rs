//! Documents of many names for the search: definitions and references of names
//! that begin alike or end alike.

/// A way to fill a document: a line for each name, then another for each.
pub struct Way {
    pub name: &'static str,
    first: Line,
    second: Line,
}

/// The line for one of the names; it may be empty.
type Line = fn(&[String], usize) -> String;

pub const WAYS: [Way; 9] = [
    Way {
        name: "aliases to the next, then a destination",
        first: forwards,
        second: |names, k| match k {
            0 => refer(&names[0]),
            _ => String::new(),
        },
    },
    Way {
        name: "aliases to the next, then a destination, each referred to",
        first: forwards,
        second: |names, k| refer(&names[k]),
    },
    Way {
        name: "a destination, then aliases to the one before, each referred to",
        first: |names, k| match k {
            0 => target(&names[0]),
            _ => alias(&names[k], &names[k - 1]),
        },
        second: |names, k| refer(&names[k]),
    },
    Way {
        name: "aliases to the next, in a ring, each referred to",
        first: |names, k| alias(&names[k], &names[(k + 1) % names.len()]),
        second: |names, k| refer(&names[k]),
    },
    Way {
        name: "aliases to no name, each referred to",
        first: |names, k| alias(&names[k], "none"),
        second: |names, k| refer(&names[k]),
    },
    Way {
        name: "destinations, each referred to",
        first: |names, k| target(&names[k]),
        second: |names, k| refer(&names[k]),
    },
    Way {
        name: "destinations, the last referred to again and again",
        first: |names, k| target(&names[k]),
        second: |names, _| refer(&names[names.len() - 1]),
    },
    Way {
        name: "destinations, and references to none of them",
        first: |names, k| target(&names[k]),
        second: |names, k| refer(&format!("{}x", names[k])),
    },
    Way {
        name: "embedded links that define names",
        first: |names, k| format!("`{} <u>`_\n", names[k]),
        second: |_, _| String::new(),
    },
];

/// The lengths of names that are tried.
pub const LENGTHS: [usize; 9] = [3, 8, 12, 16, 22, 25, 50, 200, 900];

fn alias(name: &str, to: &str) -> String {
    format!(".. _{name}: {to}_\n")
}

fn target(name: &str) -> String {
    format!(".. _{name}: u\n")
}

fn refer(name: &str) -> String {
    format!("{name}_\n")
}

fn forwards(names: &[String], k: usize) -> String {
    match names.get(k + 1) {
        Some(next) => alias(&names[k], next),
        None => target(&names[k]),
    }
}

/// The document with as many names as there may be and as there is room for.
pub fn make(way: &Way, length: usize, begin: bool, len: usize) -> Vec<u8> {
    let same = "n".repeat(length - 3);
    let name = |k: usize| match begin {
        true => format!("{same}{k:03}"),
        false => format!("{k:03}{same}"),
    };
    let fits = |count: usize| {
        let names: Vec<_> = (0..count).map(name).collect();
        let lines = |line: Line| (0..count).map(|k| line(&names, k)).collect::<String>();
        let text = lines(way.first) + &lines(way.second);
        (text.len() <= len).then(|| text.into_bytes())
    };
    (2..=256).rev().find_map(fits).unwrap_or_default()
}
