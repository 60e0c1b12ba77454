//! Documents near every limit of 01: the document's length, the counts of links
//! and definitions, and the label's length.

pub struct Limit {
    pub name: String,
    pub doc: Vec<u8>,
}

pub fn documents() -> Vec<Limit> {
    let mut list = Vec::new();
    lengths(&mut list);
    for count in 255..=257 {
        counts(&mut list, count);
    }
    for length in 998..=1000 {
        labels(&mut list, length);
    }
    list
}

fn add(list: &mut Vec<Limit>, name: impl Into<String>, doc: impl Into<Vec<u8>>) {
    list.push(Limit {
        name: name.into(),
        doc: doc.into(),
    });
}

/// Documents of 0, 1, 16,383 to 16,385 bytes.
fn lengths(list: &mut Vec<Limit>) {
    add(list, "0 bytes", "");
    for byte in [b'a', b'_', b'`', b'\n', b'\r', b'\\', 0xC2, 0xFF] {
        add(list, format!("1 byte {byte:02X}"), [byte]);
    }
    for length in [16_383, 16_384, 16_385] {
        add(list, format!("{length} bytes, no link"), "x".repeat(length));
        let filled = ".. _a: u\n".to_string() + &"x".repeat(length - 12) + " a_";
        add(list, format!("{length} bytes, link at the end"), filled);
        let block = ".. _a: ".to_string() + &"u".repeat(length - 7);
        add(list, format!("{length} bytes, one block"), block);
        let two_bytes = "x".repeat(length % 2) + &"é".repeat(length / 2);
        add(
            list,
            format!("{length} bytes, two-byte characters"),
            two_bytes,
        );
    }
    let split = "x".to_string() + &"é".repeat(8_192);
    add(
        list,
        "16,384 bytes end inside a character",
        &split.as_bytes()[..16_384],
    );
}

/// So many links or definitions of each kind.
fn counts(list: &mut Vec<Limit>, count: usize) {
    let all = |line: &dyn Fn(usize) -> String| (0..count).map(line).collect::<String>();
    let mut kind = |name: &str, doc: String| add(list, format!("{count} {name}"), doc);
    kind("references", "a_\n".repeat(count) + ".. _a: u");
    kind("references dropped", "a_\n".repeat(count));
    kind("anonymous references", "__\n".repeat(count) + "__ u\n__ v");
    kind("phrase references", "`a`_".repeat(count) + "\n.. _a: u");
    kind("embedded named", "`a <u>`_".repeat(count));
    kind("embedded anonymous", "`a <u>`__ ".repeat(count));
    kind("blocks of one name", ".. _a: u\n".repeat(count) + "a_");
    kind(
        "blocks of many names",
        all(&|n| format!(".. _{n}: u\n")) + "0_ 255_ 256_",
    );
    kind(
        "anonymous blocks",
        "__ u\n".repeat(count) + "_1_ _256_ _257_",
    );
    kind("aliases of one name", ".. _a: b_\n".repeat(count) + "a_ b_");
    kind(
        "aliases forwards",
        all(&|n| format!(".. _{n}: {}_\n", n + 1)) + "`257 <u>`_ 0_ 255_",
    );
    kind(
        "aliases and their destination backwards",
        format!(".. _{count}: u\n")
            + &(1..count)
                .rev()
                .map(|n| format!(".. _{n}: {}_\n", n + 1))
                .collect::<String>()
            + "1_ 255_",
    );
    kind(
        "definitions mixed",
        all(&|n| match n % 3 {
            0 => format!(".. _{n}: u\n"),
            1 => format!(".. _{n}: {}_\n", n - 1),
            _ => format!("`{n} <v>`_\n"),
        }) + "0_ 1_ 2_",
    );
    kind(
        "links mixed",
        all(&|n| match n % 4 {
            0 => "a_\n".to_string(),
            1 => "`a <v>`__\n".to_string(),
            2 => ".. _a: u\n".to_string(),
            _ => "`b <w>`_\n".to_string(),
        }),
    );
    kind(
        "links and as many definitions",
        all(&|_| "a_\n.. _a: u\n".to_string()),
    );
}

/// Labels of so many bytes, in every form that has one.
fn labels(list: &mut Vec<Limit>, length: usize) {
    let word = "a".repeat(length);
    let two_bytes = "a".repeat(length % 2) + &"é".repeat(length / 2);
    let escapes = "a".repeat(length % 2) + &"\\:".repeat(length / 2);
    let mut form = |name: &str, doc: String| add(list, format!("{length} bytes, {name}"), doc);
    for (kind, label) in [("letters", &word), ("two-byte characters", &two_bytes)] {
        form(
            &format!("{kind}, word"),
            format!("{label}_\n.. _{label}: u"),
        );
        form(
            &format!("{kind}, anonymous word"),
            format!("{label}__\n__ u"),
        );
        form(
            &format!("{kind}, phrase"),
            format!("`{label}`_\n.. _{label}: u"),
        );
    }
    form("anonymous phrase", format!("`{word}`__\n__ u"));
    form("escapes in a phrase", format!("`{escapes}`_"));
    form(
        "alias to a word",
        format!("b_\n.. _b: {word}_\n.. _{word}: u"),
    );
    form(
        "alias to a phrase",
        format!("b_\n.. _b: `{word}`_\n.. _{word}: u"),
    );
    form("anonymous block", format!("b__\n__ {word}_"));
    form("label form", format!("`x <{word}_>`_\n.. _{word}: u"));
}
