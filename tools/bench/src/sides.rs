//! The sides that are timed: the crate with pest's default way to count lines, the crate with the faster
//! one, and the port.
use port::{Answer, compile2};
use records::Card;
use std::hint::black_box;

/// The name of an error of the crate, and its line and column.
pub type Failure = (&'static str, Option<(usize, usize)>);

/// The crate's compile2. It starts from the pairs that `prepare` made in the same thread.
pub struct Crate {
    /// False where the list is no pairs.
    pub prepare: fn(&'static str, &[[u32; 3]]) -> bool,
    pub tree: fn(&str, u32) -> Result<(), Failure>,
    pub listing: fn(&str, u32) -> Result<String, Failure>,
}

/// The two builds of the crate are different packages with the same functions, so they share no type.
macro_rules! of_package {
    ($package:ident) => {
        Crate {
            prepare: $package::prepare_pairs,
            tree: |text, options| black_box($package::compile2(text, options)).map(drop),
            listing: |text, options| {
                let mut listing = String::new();
                $package::write(&$package::compile2(text, options)?, &mut listing);
                Ok(listing)
            },
        }
    };
}

pub const DEFAULT: Crate = of_package!(oracle);
pub const FAST: Crate = of_package!(oracle_fast);

/// A card as the crate takes it.
pub struct Given {
    pub text: &'static str,
    pub spans: Vec<[u32; 3]>,
    pub options: u32,
}

impl Given {
    /// None where the crate cannot be asked: the list is no pairs.
    pub fn new(c: &Card) -> Option<Given> {
        let text = String::from_utf8(c.text.clone()).ok()?;
        let given = Given {
            text: Box::leak(text.into_boxed_str()),
            spans: c
                .words
                .chunks_exact(3)
                .map(|w| w.try_into().unwrap())
                .collect(),
            options: c.options,
        };
        (DEFAULT.prepare)(given.text, &given.spans).then_some(given)
    }
}

/// The port on a card.
pub fn port(c: &Card, out: &mut [u8]) -> Answer {
    compile2(black_box(&c.text), black_box(&c.words), c.options, out)
}

/// The room that `cardtree` lends.
pub const ROOM: usize = 65536;

/// An output in which the listing of a card has room: the usual one, or as long as it has to be.
pub fn lend(c: &Card) -> Vec<u8> {
    let mut out = vec![0; ROOM];
    if let Answer::Refused(14, length) = port(c, &mut out) {
        out.resize(length, 0);
    }
    out
}
