//! Texts that documents are made of, and ways to make them longer.

/// No link, and nothing like one.
pub const PROSE: &str = "\
The first hour is about rivers that change their bed, and about the people
who live beside them. We hear a recording from the spring, two voices and a
boat; after that the weather, read slowly, and some music for the road home.

Callers who ask for the title get it at the end, not before. The second hour
keeps to one subject: old bridges, how they were built, and who pays for them.
";

pub const REFERENCES: &str = "\
The first hour is about rivers_ that change their bed, and about the `old
bridges`_ beside them. We hear a recording_ from the spring, two voices and
a boat; after that the `weather <https://weather.example/today>`_, read slowly.

.. _rivers: https://water.example/rivers/changing-beds
.. _old bridges: https://stone.example/bridges?order=age
.. _recording: rivers_

";

pub const NOTES: &str = "\
Morning notes
=============

Guests today: a bridge builder and a singer (see guests_). Times are local.

* 06:05 `Water levels <https://water.example/levels?day=mon>`_, two minutes
* 06:30 song: *Under the arch*, from the `spring sessions`__
* 07:00 talk with the builder; her book_ is out since Friday
* 07:40 traffic [read slowly!], then weather__

.. todo: ask for the right to play the second song;
   the publisher answers mails only before noon

.. _guests: https://station.example/guests/monday
.. _book: https://books.example/arches
   ?edition=2
.. _sessions: https://music.example/spring
__ sessions_
__ https://weather.example/

Please keep ``literal text`` as it is, and don't translate `titles`.

";

/// A piece again and again, the last one cut.
pub fn repeated(piece: &str, len: usize) -> Vec<u8> {
    piece.bytes().cycle().take(len).collect()
}

/// The same between a front and an end, all of that length.
pub fn between(front: &str, piece: &str, end: &str, len: usize) -> Vec<u8> {
    let middle = repeated(piece, len - front.len() - end.len());
    [front.as_bytes(), &middle, end.as_bytes()].concat()
}

/// Comments of one line, each indented by three more than the one before.
pub fn nested(len: usize) -> Vec<u8> {
    let lines = (0..).flat_map(|k| [" ".repeat(3 * k).as_bytes(), b".. c\n"].concat());
    lines.take(len).collect()
}
