"""Puts `pub` before private functions of restructured_text.rs, in a second
package, so that the parsers can be compared one by one. The reference itself
does without."""

from rust_edits import replace

FILE = "parser/restructured_text.rs"

EDITS = [
    replace(f"make {name} visible", FILE, f"\nfn {name}", f"\npub fn {name}")
    for name in [
        "rst_parse_text2target(",
        "rst_parse_text2label(",
        "rst_label2target(",
        "rst_parse_label2target(",
        "rst_parse_simple_label(",
        "rst_explicit_markup_block<",
        "rst_escaped_link_text_transform(",
        "remove_whitespace(",
        "rst_escaped_link_destination_transform(",
    ]
]
