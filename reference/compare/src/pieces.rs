//! The pieces of the bytes layer.

use crate::inputs;
use crate::test::{Count, Test};
use compare::proved;
use driver::pieces::{Answer, SCALARS, STOP_SET_COUNT, TEXT_PIECES, piece};
use driver::random::Random;

/// Holds one answer of a piece.
fn hold(test: &mut Test, number: u8, parameter: usize, input: &[u8]) {
    let proved = proved::piece(number, parameter, input);
    test.hold(input, parameter, proved, piece(number, parameter, input));
}

/// 4's place by the standard library: what is no UTF-8, or above U+024F.
fn outside_by_std(s: &[u8]) -> Answer {
    let valid = match str::from_utf8(s) {
        Ok(text) => text,
        Err(error) => str::from_utf8(&s[..error.valid_up_to()]).expect("it is valid up to there"),
    };
    let high = valid.char_indices().find(|(_, c)| u32::from(*c) >= SCALARS);
    let place = high.map_or(valid.len(), |(place, _)| place);
    (place < s.len()).then_some((place, 0))
}

/// The first byte outside the domain, by the driver and by the library.
fn outside(test: &mut Test, s: &[u8]) {
    hold(test, 1, 0, s);
    test.also(s, 0, proved::piece(1, 0, s), outside_by_std(s));
}

/// All pieces on all short inputs and on the longest.
pub fn all(count: &mut Count) {
    let mut word = Test::new("word characters, every scalar of the domain");
    for scalar in 0..SCALARS {
        let c = char::from_u32(scalar).expect("a scalar");
        hold(&mut word, 3, 0, c.to_string().as_bytes());
    }
    count.end(word);
    on_bytes(count, "all of up to two bytes", inputs::short_bytes());
    on_bytes(
        count,
        "all of five bytes around the limits",
        inputs::limit_bytes(),
    );
    on_bytes(count, "the longest", inputs::longest());
    for (kind, alphabet, most) in inputs::ALPHABETS {
        on_texts(count, kind, inputs::sequences(alphabet, most));
    }
    on_texts(count, "the longest", inputs::longest());
}

/// The pieces that take any bytes.
fn on_bytes(count: &mut Count, kind: &str, inputs: impl Iterator<Item = Vec<u8>> + Clone) {
    let mut test = Test::new(&format!("the first byte outside the domain, {kind}"));
    for s in inputs.clone() {
        outside(&mut test, &s);
    }
    count.end(test);
    let mut character = Test::new(&format!("the character at a place, {kind}"));
    for s in inputs {
        for place in [
            0,
            s.len() / 2,
            s.len().saturating_sub(1),
            s.len(),
            usize::MAX,
        ] {
            hold(&mut character, 2, place, &s);
        }
    }
    count.end(character);
}

/// The pieces that take a text of the domain.
fn on_texts(count: &mut Count, kind: &str, inputs: impl Iterator<Item = Vec<u8>> + Clone) {
    for number in TEXT_PIECES {
        let mut test = Test::new(&format!("{}, {kind}", proved::name(number)));
        for s in inputs.clone() {
            hold(&mut test, number, 0, &s);
        }
        count.end(test);
    }
    for stop_set in 0..STOP_SET_COUNT {
        let mut test = Test::new(&format!("escaped with stop set {stop_set}, {kind}"));
        for s in inputs.clone() {
            hold(&mut test, 6, stop_set, &s);
        }
        count.end(test);
    }
    let mut tag = Test::new(&format!("tag, {kind}"));
    for s in inputs {
        for place in 0..=s.len().min(3) {
            hold(&mut tag, 13, place, &s);
        }
        hold(&mut tag, 13, s.len() / 2, &s);
        hold(&mut tag, 13, s.len() + 1, &s);
    }
    count.end(tag);
}

/// The tests of drawn inputs.
pub struct Drawn {
    bytes: Test,
    text: Test,
}

impl Drawn {
    pub fn new() -> Drawn {
        Drawn {
            bytes: Test::new("the pieces on any bytes, drawn bytes"),
            text: Test::new("the pieces on texts, drawn texts"),
        }
    }

    /// All pieces on one input each.
    pub fn draw(&mut self, random: &mut Random) {
        let s = inputs::drawn_bytes(random);
        outside(&mut self.bytes, &s);
        hold(&mut self.bytes, 2, random.below(s.len() + 2), &s);
        let s = inputs::drawn_text(random);
        for number in TEXT_PIECES {
            hold(&mut self.text, number, 0, &s);
        }
        for stop_set in 0..STOP_SET_COUNT {
            hold(&mut self.text, 6, stop_set, &s);
        }
        hold(&mut self.text, 13, random.below(s.len() + 2), &s);
    }

    pub fn end(self, count: &mut Count) {
        count.end(self.bytes);
        count.end(self.text);
    }
}
