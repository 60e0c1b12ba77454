//! Times the proved calls beside the Rust's, and looks for documents that take
//! long.
//!
//!     bench [document] [--samples N] [--runs N] [--notes FOLDER] [NAME]
//!     bench single [--samples N] [NAME]
//!     bench search [--samples N] [--bytes N] [--without TEXT] [--minutes N] [--climb N] [--seed N]
//!     bench climb [--samples N] [--climb N] [--seed N] [--into FOLDER]
//!
//! N samples are taken of each (11), and all of them again in each of N runs (5),
//! of the inputs whose name holds NAME. Real notes are looked for below
//! `target/reference/notes` or the folder named. The search first tries documents of so many
//! bytes (4096), and draws further ones for so many minutes (0), from a seed (1); with
//! TEXT, of what stands between heads and tails only that without it. It climbs for so
//! many minutes (5); `climb` does that alone.

mod blocks;
mod climb;
mod document;
mod documents;
mod drawn;
mod inputs;
mod links;
mod named;
mod notes;
mod pass;
mod search;
mod shapes;
mod show;
mod single;
mod texts;
mod time;
mod whole;
mod words;

use words::Words;

fn main() {
    let words = Words::of_command_line();
    match words.command.as_str() {
        "single" => single::run(&words),
        "search" => search::run(&words),
        "climb" => search::climb(&words),
        _ => document::run(&words),
    }
}
