//! The stream form of cards and answers (tools/oracle/README.md).
use std::io::{self, Read, Write};

/// What `compile2` is asked: options, span words and a text, each of any value.
#[derive(Clone, Debug, PartialEq)]
pub struct Card {
    pub options: u32,
    pub words: Vec<u32>,
    pub text: Vec<u8>,
}

/// The next number of a stream, or None at its end.
pub fn number(input: &mut impl Read) -> Option<u32> {
    let mut b = [0; 4];
    input.read_exact(&mut b).ok()?;
    Some(u32::from_le_bytes(b))
}

pub fn bytes(input: &mut impl Read, n: usize) -> io::Result<Vec<u8>> {
    let mut b = vec![0; n];
    input.read_exact(&mut b)?;
    Ok(b)
}

impl Card {
    /// The next card of a stream, or None at its end.
    pub fn read(input: &mut impl Read) -> io::Result<Option<Card>> {
        let Some(options) = number(input) else {
            return Ok(None);
        };
        let mut head = [0; 8];
        input.read_exact(&mut head)?;
        let count = u32::from_le_bytes(head[..4].try_into().unwrap()) as usize;
        let length = u32::from_le_bytes(head[4..].try_into().unwrap()) as usize;
        let words = bytes(input, 4 * count)?;
        let words = words
            .chunks(4)
            .map(|w| u32::from_le_bytes(w.try_into().unwrap()))
            .collect();
        let text = bytes(input, length)?;
        Ok(Some(Card {
            options,
            words,
            text,
        }))
    }

    /// All cards of a stream.
    pub fn read_all(input: &mut impl Read) -> io::Result<Vec<Card>> {
        let mut cards = Vec::new();
        while let Some(c) = Card::read(input)? {
            cards.push(c);
        }
        Ok(cards)
    }

    pub fn write(&self, output: &mut impl Write) -> io::Result<()> {
        for n in [
            self.options,
            self.words.len() as u32,
            self.text.len() as u32,
        ] {
            output.write_all(&n.to_le_bytes())?;
        }
        for w in &self.words {
            output.write_all(&w.to_le_bytes())?;
        }
        output.write_all(&self.text)
    }
}

/// Writes one answer.
pub fn put(output: &mut impl Write, answer: &[u8]) -> io::Result<()> {
    output.write_all(&(answer.len() as u32).to_le_bytes())?;
    output.write_all(answer)
}
