//! The port alone, with the room that `cardtree` lends: a longer listing is counted, and refused with 14.
use crate::clock::time;
use crate::sides::{ROOM, port};
use port::Answer;
use records::Card;
use std::hint::black_box;

pub fn head() {
    println!(
        "{:28} {:>6} {:>6} {:>6} {:>9} {:>12}",
        "worst", "text", "spans", "answer", "length", "ms"
    );
}

pub fn measure(name: &str, c: &Card) {
    let mut out = vec![0; ROOM];
    let ms = time(|| {
        black_box(port(c, &mut out));
    }) / 1000.0;
    let (text, spans) = (c.text.len(), c.words.len() / 3);
    let (answer, length) = match port(c, &mut out) {
        Answer::Listed(n) => ("listed", n),
        Answer::Refused(14, n) => ("14", n),
        // What is refused earlier is not the work that the card is about.
        Answer::Refused(number, place) => panic!("{name}: refused {number} at {place}"),
    };
    println!("{name:28} {text:6} {spans:6} {answer:>6} {length:9} {ms:12.2}");
}
