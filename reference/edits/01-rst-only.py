"""Leaves only the reStructuredText alternatives, as 01 says: the `md_`,
`adoc_`, `wikitext_` and `html_` alternatives of `take_link` go, and with them
what is then unused."""

from rust_edits import remove_line, remove_lines, replace

PARSE = "parser/parse.rs"
MOD = "parser/mod.rs"

IMPORTS = [
    "asciidoc::adoc_label2dest_link",
    "asciidoc::adoc_text2dest_link",
    "asciidoc::adoc_text2label_link",
    "html::html_text2dest_link",
    "html_img::html_img_link",
    "html_img::html_img2dest_link",
    "markdown::md_label2dest_link",
    "markdown::md_text2dest_link",
    "markdown::md_text2label_link",
    "markdown_img::md_img_link",
    "markdown_img::md_img2dest_link",
    "wikitext::wikitext_text2dest_link",
]

# The alternatives that stand on a line of their own.
ALTERNATIVES = [
    "md_img_link",
    "md_img2dest_link",
    "md_text2dest_link",
    "wikitext_text2dest_link",
    "adoc_text2label_link",
    "html_img_link",
    "html_img2dest_link",
    "html_text2dest_link",
]

MODULES = ["asciidoc", "html", "html_img", "markdown", "markdown_img", "wikitext"]

EDITS = [
    *[remove_line(PARSE, f"use crate::parser::{name};") for name in IMPORTS],
    remove_lines(
        "remove the second line-start block",
        PARSE,
        holding="adoc_label2dest_link,",
        first="// Are we at the beginning of a line?",
        last="};",
    ),
    *[remove_line(PARSE, f"{name},") for name in ALTERNATIVES],
    replace(
        "remove adoc_text2dest_link behind rst_text2label_link",
        PARSE,
        ", adoc_text2dest_link))",
        ",))",
    ),
    remove_lines(
        "remove the block of md_text2label_link",
        PARSE,
        holding="if let Ok((k, r)) = md_text2label_link(j) {",
        first="// This parser is so unspecific, that it must be the last.",
        last="};",
    ),
    replace(
        "remove md_label2dest_link behind rst_label2dest_link",
        PARSE,
        ", md_label2dest_link))",
        ",))",
    ),
    *[remove_line(MOD, f"pub mod {name};") for name in MODULES],
    remove_line(MOD, "use nom::error::ErrorKind;"),
    remove_line(MOD, "use percent_encoding::percent_decode_str;"),
    remove_lines(
        "remove percent_decode and its test",
        MOD,
        holding="fn test_percent_decode() {",
        first="/// A parser that decodes percent encoded URLS.",
        last=None,
    ),
]
