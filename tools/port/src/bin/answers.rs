//! Records in, answers out (tools/oracle/README.md): the port's side of compare.py.
use port::{Answer, compile2, with_stack};
use records::{Card, put};
use std::io::{self, BufReader, BufWriter};

/// The listing or the refusal. Where the room is too small, the refusal says how much is needed.
fn answer(c: &Card, room: &mut Vec<u8>) -> Vec<u8> {
    let mut told = compile2(&c.text, &c.words, c.options, room);
    if let Answer::Refused(14, length) = told {
        room.resize(length, 0);
        told = compile2(&c.text, &c.words, c.options, room);
    }
    match told {
        Answer::Listed(n) => room[..n].to_vec(),
        Answer::Refused(number, place) => format!("refused {number} at {place}\n").into_bytes(),
    }
}

fn run() {
    let mut input = BufReader::new(io::stdin().lock());
    let mut output = BufWriter::new(io::stdout().lock());
    let mut room = vec![0; 65536];
    while let Some(c) = Card::read(&mut input).unwrap() {
        put(&mut output, &answer(&c, &mut room)).unwrap();
    }
}

fn main() {
    with_stack(run);
}
