//! Every side on each card.
use crate::clock::time;
use crate::sides::{Crate, DEFAULT, FAST, Failure, Given, lend, port};
use port::Answer;
use records::Card;
use std::hint::black_box;

/// The crate's times, of the tree alone and of the tree with its listing, and its answer.
struct OfCrate {
    tree: f64,
    listing: f64,
    answer: Result<String, Failure>,
}

/// The port's time and its answer: a listing, or a number and a place.
struct OfPort {
    time: f64,
    answer: Result<String, (u32, usize)>,
}

fn crate_side(side: &Crate, g: &Given) -> OfCrate {
    (side.prepare)(g.text, &g.spans);
    let tree = time(|| {
        let _ = black_box((side.tree)(black_box(g.text), g.options));
    });
    let listing = time(|| {
        let _ = black_box((side.listing)(black_box(g.text), g.options));
    });
    OfCrate {
        tree,
        listing,
        answer: (side.listing)(g.text, g.options),
    }
}

fn port_side(c: &Card, out: &mut [u8]) -> OfPort {
    let time = time(|| {
        black_box(port(c, out));
    });
    let answer = match port(c, out) {
        Answer::Listed(n) => Ok(String::from_utf8(out[..n].to_vec()).expect("a listing is UTF-8")),
        Answer::Refused(number, place) => Err((number, place)),
    };
    OfPort { time, answer }
}

/// Both list the same tree, literals by value, or both refuse a block whose end has another name. No
/// other refusal is timed on both sides.
fn agree(a: &Result<String, Failure>, b: &Result<String, (u32, usize)>) -> bool {
    match (a, b) {
        (Ok(listing), Ok(own)) => *listing == oracle::by_value(own),
        (Err((error, _)), Err((number, _))) => *error == "MismatchingClosedHelper" && *number == 10,
        _ => false,
    }
}

fn print(cells: [&str; 9]) {
    let [card, text, spans, bytes, times @ ..] = cells;
    print!("{card:28} {text:>6} {spans:>6} {bytes:>9}");
    times.iter().for_each(|t| print!(" {t:>12}"));
    println!();
}

pub fn head() {
    print([
        "card",
        "text",
        "spans",
        "bytes",
        "tree",
        "listing",
        "fast-tree",
        "fast-listing",
        "port",
    ]);
}

/// One line; `-` stands where a side was not asked, and for the length of a listing where there is none.
fn line(name: &str, c: &Card, of_crate: Option<&[OfCrate; 2]>, of_port: Option<&OfPort>) {
    let shown = |t: Option<f64>| t.map_or("-".to_owned(), |t| format!("{t:.1}"));
    let [tree, listing, fast_tree, fast_listing] = match of_crate {
        Some([a, b]) => [a.tree, a.listing, b.tree, b.listing].map(Some),
        None => [None; 4],
    }
    .map(shown);
    let own = of_port.and_then(|p| p.answer.as_ref().ok());
    let listed = own.or(of_crate.and_then(|[a, _]| a.answer.as_ref().ok()));
    print([
        name,
        &c.text.len().to_string(),
        &(c.words.len() / 3).to_string(),
        &listed.map_or("-".to_owned(), |l| l.len().to_string()),
        &tree,
        &listing,
        &fast_tree,
        &fast_listing,
        &shown(of_port.map(|p| p.time)),
    ]);
}

/// The crate has no output that can be too short, so it is not asked about 14: the card's name says that
/// one byte of room is missing.
fn is_short(name: &str) -> bool {
    name.starts_with("refused-14")
}

fn both_crates(name: &str, c: &Card) -> Option<[OfCrate; 2]> {
    if is_short(name) {
        return None;
    }
    let g = Given::new(c)?;
    let sides = [DEFAULT, FAST].map(|side| crate_side(&side, &g));
    let [a, b] = &sides;
    assert!(a.answer == b.answer, "{name}: the two crates differ");
    Some(sides)
}

pub fn without_port(name: &str, c: &Card) {
    line(name, c, both_crates(name, c).as_ref(), None);
}

pub fn measure(name: &str, c: &Card) {
    let of_crate = both_crates(name, c);
    let mut out = lend(c);
    if is_short(name) {
        let Answer::Listed(n) = port(c, &mut out) else {
            panic!("{name}: not listed with enough room");
        };
        out.truncate(n - 1);
    }
    let of_port = port_side(c, &mut out);
    if let Some([a, _]) = &of_crate {
        assert!(
            agree(&a.answer, &of_port.answer),
            "{name}: the answers differ"
        );
    }
    let short = matches!(of_port.answer, Err((14, _)));
    assert!(short == is_short(name), "{name}: 14, or no 14");
    line(name, c, of_crate.as_ref(), Some(&of_port));
}
