//! The list of whole flights: for each one its input and the lines fly prints.

use super::edges;
use crate::fly::fly;
use crate::inputs;
use crate::rng::Rng;
use crate::words::hex;

pub fn flights() -> String {
    let mut text = String::from(
        "# flights: after `< ` the input of fly in hex, after each `> ` a line it prints. Made by \
         differential/lists (the original Rust with the stand-ins of documents 01 and 02).\n",
    );
    let mut rng = Rng::new(31);
    let mut all = edges::all();
    all.extend((0..140).map(|index| inputs::flight(&mut rng, if index % 8 == 0 { 40 } else { 7 })));
    all.extend((0..70).map(|_| inputs::damaged(&mut rng)));
    for input in all {
        text += &one(&input);
    }
    text
}

/// One flight's lines: its input, and what fly prints for it.
pub fn one(input: &[u8]) -> String {
    let mut text = format!("< {}\n", hex(input));
    for line in fly(input) {
        text += &format!("> {line}\n");
    }
    text
}
