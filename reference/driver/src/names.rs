//! What the claim about appended tails speaks of. 01: "A name is *defined* by
//! each embedded named link and each reported destination or alias block, after
//! numbering. A *reference* is an answer Text2Label, known by its place; a
//! document leaves it *unresolved* if it is collected and then dropped."

use crate::document::links_of;
use crate::items::items_of;

#[derive(Clone, Debug, Default, PartialEq)]
pub struct Names {
    /// The names defined, in the order of their definitions.
    pub defined: Vec<Vec<u8>>,
    /// The places of all references collected.
    pub references: Vec<usize>,
    /// The places of the references left unresolved.
    pub unresolved: Vec<usize>,
}

/// The names and references of a text of the domain. With render 1 they are the
/// same, since destination blocks stand at places of their own.
pub fn names_of(text: &str) -> Names {
    let mut names = Names::default();
    for item in items_of(text) {
        match item.kind {
            2 | 4 | 5 => names.defined.push(item.first),
            3 => names.references.push(item.place),
            _ => {}
        }
    }
    let shown: Vec<usize> = links_of(text, false)
        .iter()
        .map(|link| link.place)
        .collect();
    let dropped = |place: &&usize| !shown.contains(place);
    names.unresolved = names.references.iter().filter(dropped).copied().collect();
    names
}
