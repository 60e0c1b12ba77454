//! The driver's calls and parsers once more, over the copy of the reference that
//! counts its branches. The driver itself stays over the one that does not.

extern crate parse_hyperlinks_counted as parse_hyperlinks;
extern crate parse_hyperlinks_counted as parse_hyperlinks_visible;

#[path = "../../driver/src/document.rs"]
pub mod document;
#[path = "../../driver/src/parsers.rs"]
pub mod parsers;
#[path = "../../driver/src/pieces.rs"]
pub mod pieces;
#[path = "../../driver/src/single.rs"]
pub mod single;

pub use counting::hand_over;

use parse_hyperlinks_counted::places::PLACES;

/// The name of each way of each branch, and how often it was taken, by the counts
/// handed over.
pub fn branches() -> impl Iterator<Item = (&'static str, u64)> {
    PLACES.iter().enumerate().flat_map(|(place, names)| {
        let counts = counting::counts(place);
        names.iter().copied().zip(counts)
    })
}
