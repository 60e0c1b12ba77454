//! The branches of the Rust that no document reaches, by the reason why: the names
//! are those that `counted.py` gives. One that is reached all the same fails, as
//! does one that is not there.

pub const UNREACHABLE: &[(&str, &[&str])] = &[
    (
        "no call of 01 uses this function",
        &[
            "take_text2dest_label2dest: Ok((j, (_, Link::Text2Dest(lte, ld, lti)))): taken",
            "take_text2dest_label2dest: Ok((j, (_, Link::TextLabel2Dest(lte, ld, lti)))): taken",
            "take_text2dest_label2dest: Ok((j, (_, Link::Label2Dest(ll, ld, lti)))): taken",
            "take_text2dest_label2dest: Ok((k, _)): taken",
            "take_text2dest_label2dest: Err(e): taken",
        ],
    ),
    (
        "the iterator is run to its end and not asked again",
        &["next: Status::End: taken"],
    ),
    (
        "no parser of reStructuredText gives an image",
        &[
            "from: matches!(l, Link::Image2Dest {..}): true",
            "from: matches!(l, Link::Image {..}): true",
        ],
    ),
    ("the arms before take all five cases", &["from: _: taken"]),
    (
        "it reads nothing where there is nothing to read, and never refuses",
        &[
            "take_link: many0_count(newline).parse(j): refused",
            "take_link: opt(space1).parse(j): refused",
            "take_link: opt(one_of(\"([<'\\\"\")).parse(j): refused",
            "take_link: take_till(..)(j): refused",
            "take_link: opt(alt((rst_label2dest_link))).parse(l): refused",
            "rst_parse_text2label: opt(char('_')).parse(i): refused",
            "rst_label2target: opt(rst_explicit_markup_block(\".. \")).parse(i): refused",
            "rst_explicit_markup_block: space0: refuses",
            "remove_whitespace: multispace0(j): refused",
        ],
    ),
    (
        "what stands between the backticks was read with the same escapes, all of them good",
        &[
            "rst_parse_text2target: one_of(ESCAPABLE) (2): refuses",
            "rst_parse_text2target: one_of(ESCAPABLE) (3): refuses",
        ],
    ),
    (
        "`escaped` refuses `>` as its first character, so that nothing empty stands before one",
        &[
            "rst_parse_text2target: not(eof).parse(link_dest_label): refused",
            "rst_parse_text2target: eof: reads",
        ],
    ),
    (
        "the name was read with the same escapes, all of them good, and is not trimmed",
        &[
            "rst_label2target: rst_escaped_link_text_transform(ls): refused",
            "rst_label2target: rst_escaped_link_text_transform(ls).map_err(my_err): refused",
        ],
    ),
    (
        "the alternative before it reads `__: ` too, as the name `_`",
        &[
            "rst_parse_label2target: value(\"_\", tag(\"__: \")): reads",
            "rst_parse_label2target: tag(\"__: \"): reads",
        ],
    ),
    (
        "`take_till1` reads one character at least",
        &["take_word_consume_first_ending_underscore: !r.is_empty(): false"],
    ),
    (
        "a label holds no backtick without a backslash before it",
        &["rst_parse_simple_label: tag(\"``\"): reads"],
    ),
    (
        "`remove_whitespace` refuses all escapes that are refused here",
        &[
            "rst_escaped_link_destination_transform: (is_not(\"\\\\\"), '\\\\', one_of(ESCAPABLE))(c).map_err(my_err): refused",
            "rst_escaped_link_destination_transform: one_of(ESCAPABLE): refuses",
        ],
    ),
];
