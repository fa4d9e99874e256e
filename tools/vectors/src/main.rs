//! Writes the input of the program `replay_support` and the output that it has to write, from what
//! Rust's own `str` functions answer. Only the order of the strings, the layout of the lines and
//! the hash are the program's.
mod records;

use std::fmt::Write;

/// The program's running hash.
#[derive(Clone, Copy)]
struct Hash(u64);

impl Hash {
    const MODULUS: u64 = 4_294_967_291;
    const FACTOR: u64 = 2_654_435_761;

    fn number(self, n: u64) -> Hash {
        Hash((self.0 % Self::MODULUS * Self::FACTOR + n % Self::MODULUS + 1) % Self::MODULUS)
    }

    fn flag(self, flag: bool) -> Hash {
        self.number(u64::from(flag))
    }

    fn bytes(self, s: &[u8]) -> Hash {
        s.iter()
            .fold(self.number(s.len() as u64), |h, b| h.number(u64::from(*b)))
    }

    fn place(self, p: Place) -> Hash {
        self.number(p.line).number(p.column)
    }
}

/// A line and a column of at most `u32::MAX`.
#[derive(Clone, Copy)]
struct Place {
    line: u64,
    column: u64,
}

impl Place {
    const LARGEST: u64 = u32::MAX as u64;
    const FIRST: Place = Place { line: 1, column: 1 };
    const NEAR_THE_LARGEST: Place = Place {
        line: Self::LARGEST - 1,
        column: Self::LARGEST - 2,
    };

    /// The place after this text.
    fn after(self, s: &str) -> Place {
        let lines = s.matches('\n').count() as u64;
        let column = match s.rsplit_once('\n') {
            Some((_, last)) => 1 + last.chars().count() as u64,
            None => self.column + s.chars().count() as u64,
        };
        Place {
            line: (self.line + lines).min(Self::LARGEST),
            column: column.min(Self::LARGEST),
        }
    }
}

// `src/support.rs` of handlebars.

fn whitespace_matcher(c: char) -> bool {
    c == ' ' || c == '\t'
}

fn newline_matcher(c: char) -> bool {
    c == '\n' || c == '\r'
}

fn strip_first_newline(s: &str) -> &str {
    s.strip_prefix("\r\n")
        .or_else(|| s.strip_prefix('\n'))
        .unwrap_or(s)
}

fn find_trailing_whitespace_chars(s: &str) -> Option<&str> {
    s.strip_prefix(s.trim_end_matches(whitespace_matcher))
        .filter(|blanks| !blanks.is_empty())
}

fn ends_with_empty_line(text: &str) -> bool {
    let s = text.trim_end_matches(whitespace_matcher);
    s.ends_with(newline_matcher) || s.is_empty()
}

fn starts_with_empty_line(text: &str) -> bool {
    text.trim_start_matches(whitespace_matcher)
        .starts_with(newline_matcher)
}

const BLANKS: [&str; 8] = [" ", "\t", "\r", "\n", "a", "\u{85}", "\u{2003}", "\u{3000}"];
const MARKS: [&str; 9] = ["{{!", "{{!--", "--}}", "}}", "{", "}", "-", "!", "a"];

/// Every string of this many symbols, the first symbol changing fastest.
fn strings(alphabet: &[&str], symbols: usize) -> Vec<String> {
    let mut all = vec![String::new()];
    for _ in 0..symbols {
        all = alphabet
            .iter()
            .flat_map(|last| all.iter().map(move |s| format!("{s}{last}")))
            .collect();
    }
    all
}

/// The scalar values that are trimmed on one side.
fn report_white(out: &mut String, side: &str, is_trimmed: impl Fn(char) -> bool) {
    let all = '\0'..=char::MAX;
    let found: Vec<char> = all.clone().filter(|c| is_trimmed(*c)).collect();
    assert!(all
        .clone()
        .filter(|c| c.is_whitespace())
        .eq(found.iter().copied()));
    write!(out, "white space at the {side}:").unwrap();
    for c in &found {
        write!(out, " {:02x}", u32::from(*c)).unwrap();
    }
    writeln!(out, "\n{} of {} scalar values", found.len(), all.count()).unwrap();
}

fn report_code_points(out: &mut String) {
    report_white(out, "front", |c| format!("{c}a").trim_start() == "a");
    report_white(out, "back", |c| format!("a{c}").trim_end() == "a");
    let samples: Vec<String> = ('\0'..=char::MAX).map(|c| format!("{c}a{c}")).collect();
    let valid = samples
        .iter()
        .filter(|s| std::str::from_utf8(s.as_bytes()).is_ok())
        .count();
    let (mut trims, mut places) = (Hash(0), Hash(0));
    for s in &samples {
        trims = trims
            .bytes(s.trim_start().as_bytes())
            .bytes(s.trim_end().as_bytes());
        places = places.place(Place::FIRST.after(s));
    }
    writeln!(
        out,
        "on both sides of a letter: strings {} valid {valid} trims {:08x} places {:08x}",
        samples.len(),
        trims.0,
        places.0
    )
    .unwrap();
}

fn report_records(out: &mut String, records: &[Vec<u8>]) {
    out.push_str("records: valid length, boundaries\n");
    for record in records {
        let valid = match std::str::from_utf8(record) {
            Ok(text) => text.len(),
            Err(error) => error.valid_up_to(),
        };
        let text = std::str::from_utf8(&record[..valid]).unwrap();
        let hash = (0..=valid + 2).rev().fold(Hash(0).bytes(record), |h, n| {
            h.flag(text.is_char_boundary(n))
        });
        writeln!(out, "{valid} {:08x}", hash.0).unwrap();
    }
}

/// A line for each number of symbols.
fn report_call(
    out: &mut String,
    name: &str,
    alphabet: &[&str],
    most: usize,
    answer: impl Fn(Hash, &str) -> Hash,
) {
    for symbols in 0..=most {
        let hash = strings(alphabet, symbols)
            .iter()
            .fold(Hash(0), |h, s| answer(h, s));
        writeln!(out, "{name} {symbols} {:08x}", hash.0).unwrap();
    }
}

fn report_trim(out: &mut String, name: &str, call: impl Fn(&str) -> &str) {
    report_call(out, name, &BLANKS, 6, |h, s| h.bytes(call(s).as_bytes()));
}

fn report_trims(out: &mut String) {
    report_trim(out, "strip_first_newline", strip_first_newline);
    report_trim(out, "trim_start_blanks", |s| {
        s.trim_start_matches(whitespace_matcher)
    });
    report_trim(out, "trim_end_blanks", |s| {
        s.trim_end_matches(whitespace_matcher)
    });
    report_trim(out, "find_trailing_whitespace_chars", |s| {
        find_trailing_whitespace_chars(s).unwrap_or("")
    });
    report_call(out, "ends_with_empty_line", &BLANKS, 6, |h, s| {
        h.flag(ends_with_empty_line(s))
    });
    report_call(out, "starts_with_empty_line", &BLANKS, 6, |h, s| {
        h.flag(starts_with_empty_line(s))
    });
    report_trim(out, "trim_start", str::trim_start);
    report_trim(out, "trim_end", str::trim_end);
}

/// The place at the end, and at each cut where a character starts the place there.
fn report_places(out: &mut String, name: &str, from: Place) {
    report_call(out, name, &BLANKS, 4, |hash, s| {
        (0..=s.len()).rev().fold(hash, |h, cut| {
            let h = match s.get(..cut) {
                Some(front) => h.place(from.after(front)),
                None => h,
            };
            h.place(from.after(s))
        })
    });
}

fn report_comments(out: &mut String) {
    report_call(out, "hbs_comment_compact_text", &MARKS, 5, |h, s| {
        h.bytes(
            s.trim_start_matches("{{!")
                .trim_end_matches("}}")
                .as_bytes(),
        )
    });
    report_call(out, "hbs_comment_text", &MARKS, 5, |h, s| {
        h.bytes(
            s.trim_start_matches("{{!--")
                .trim_end_matches("--}}")
                .as_bytes(),
        )
    });
    for pattern in ["", "{", "-", "}}", "--", "-}"] {
        let shown = if pattern.is_empty() {
            "of nothing"
        } else {
            pattern
        };
        report_call(
            out,
            &format!("trim_start_matches {shown}"),
            &MARKS,
            4,
            |h, s| h.bytes(s.trim_start_matches(pattern).as_bytes()),
        );
        report_call(
            out,
            &format!("trim_end_matches {shown}"),
            &MARKS,
            4,
            |h, s| h.bytes(s.trim_end_matches(pattern).as_bytes()),
        );
    }
}

fn report_pairs(out: &mut String) {
    out.push_str("pairs: byte order and equality\n");
    let short: Vec<String> = (0..=2).flat_map(|n| strings(&BLANKS, n)).collect();
    for (i, s) in short.iter().enumerate() {
        let hash = short
            .iter()
            .fold(Hash(0), |h, t| h.flag(s < t).flag(s == t));
        writeln!(out, "{i} {:08x}", hash.0).unwrap();
    }
}

fn report_parts(out: &mut String) {
    out.push_str("parts: from each offset\n");
    let text = "a \n{{!\u{2003}z".as_bytes();
    let offsets: Vec<usize> = (0..=text.len() + 2).chain([usize::MAX]).collect();
    for start in &offsets {
        let byte = text.get(*start).copied().unwrap_or(0);
        let hash = offsets.iter().fold(Hash(0), |h, end| {
            let size = end.saturating_sub(*start);
            let part: Vec<u8> = text.iter().copied().skip(*start).take(size).collect();
            h.number(u64::from(byte)).bytes(&part)
        });
        writeln!(out, "{:08x}", hash.0).unwrap();
    }
}

fn report_bytes(out: &mut String, name: &str, test: impl Fn(u8) -> bool) {
    write!(out, "{name}:").unwrap();
    for b in (0..=u8::MAX).filter(|b| test(*b)) {
        write!(out, " {b:02x}").unwrap();
    }
    out.push('\n');
}

fn main() -> std::io::Result<()> {
    let folder = std::env::args().nth(1).expect("usage: vectors FOLDER");
    let folder = std::path::Path::new(&folder);
    let records = records::records();
    let mut out = String::new();
    report_code_points(&mut out);
    report_records(&mut out, &records);
    out.push_str("calls: symbols, answers\n");
    report_trims(&mut out);
    report_places(&mut out, "line_col", Place::FIRST);
    report_places(
        &mut out,
        "line_col at the largest numbers",
        Place::NEAR_THE_LARGEST,
    );
    report_comments(&mut out);
    report_pairs(&mut out);
    report_parts(&mut out);
    report_bytes(&mut out, "whitespace_matcher", |b| {
        whitespace_matcher(char::from(b))
    });
    report_bytes(&mut out, "newline_matcher", |b| {
        newline_matcher(char::from(b))
    });
    report_bytes(&mut out, "is_tail", |b| {
        std::str::from_utf8(&[0xC2, b]).is_ok()
    });
    let input: Vec<u8> = records
        .iter()
        .flat_map(|r| std::iter::once(r.len() as u8).chain(r.iter().copied()))
        .collect();
    std::fs::write(folder.join("stdin"), input)?;
    std::fs::write(folder.join("stdout"), out)
}
