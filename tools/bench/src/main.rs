//! Times the crate's compile2, with both of pest's ways to count lines, and the port's.
//!
//!     bench [crate] FILE..    every side on each card; with `crate` the port is left out
//!     bench first FILE..      the first call of a fresh thread beside later ones
//!     bench worst FILE..      the port alone, with 65,536 bytes lent
//!
//! Each file holds one record. Times are the thread's own processor time.
mod clock;
mod first;
mod sides;
mod table;
mod worst;

use records::Card;

/// What is done with each card, under its name.
type Mode = fn(&str, &Card);

fn measure(path: &str, mode: Mode) {
    let name = path.rsplit('/').next().unwrap_or(path);
    let mut file = std::fs::File::open(path).expect(path);
    let card = Card::read(&mut file).expect(path).expect("a record");
    mode(name, &card);
}

fn main() {
    let mut files: Vec<String> = std::env::args().skip(1).collect();
    let named: Option<(fn(), Mode)> = match files.first().map(String::as_str) {
        Some("crate") => Some((table::head, table::without_port)),
        Some("first") => Some((first::head, first::measure)),
        Some("worst") => Some((worst::head, worst::measure)),
        _ => None,
    };
    if named.is_some() {
        files.remove(0);
    }
    let (head, mode) = named.unwrap_or((table::head, table::measure));
    port::with_stack(move || {
        head();
        files.iter().for_each(|f| measure(f, mode));
    });
}
