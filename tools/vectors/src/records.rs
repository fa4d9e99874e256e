//! The byte strings whose valid length is asked: at most 60 bytes each.

/// A generator with a fixed start (xorshift64*).
struct Random(u64);

impl Random {
    fn below(&mut self, n: u64) -> u64 {
        self.0 ^= self.0 >> 12;
        self.0 ^= self.0 << 25;
        self.0 ^= self.0 >> 27;
        (self.0.wrapping_mul(0x2545_F491_4F6C_DD1D) >> 32) % n
    }

    fn byte(&mut self) -> u8 {
        self.below(256) as u8
    }

    /// A character of one to four bytes, each length as likely as the others.
    fn char(&mut self) -> char {
        let (low, high) = [
            (0, 0x80),
            (0x80, 0x800),
            (0x800, 0x1_0000),
            (0x1_0000, 0x11_0000),
        ][self.below(4) as usize];
        loop {
            let c = low + self.below(high - low);
            if let Some(c) = char::from_u32(c as u32) {
                return c;
            }
        }
    }

    fn text(&mut self) -> String {
        let count = 1 + self.below(15);
        (0..count).map(|_| self.char()).collect()
    }
}

/// The first and the last character of each row of the UTF-8 table, and of each length.
const EDGES: [u32; 18] = [
    0x0, 0x7F, 0x80, 0x7FF, 0x800, 0xFFF, 0x1000, 0xCFFF, 0xD000, 0xD7FF, 0xE000, 0xFFFF, 0x1_0000,
    0x3_FFFF, 0x4_0000, 0xF_FFFF, 0x10_0000, 0x10_FFFF,
];

fn edges() -> Vec<String> {
    EDGES
        .iter()
        .map(|c| char::from_u32(*c).unwrap().to_string())
        .collect()
}

/// Well formed: each edge alone, and each two of them.
fn well_formed(all: &mut Vec<Vec<u8>>) {
    all.push(Vec::new());
    for a in edges() {
        all.push(a.clone().into_bytes());
        for b in edges() {
            all.push(format!("{a}{b}").into_bytes());
        }
    }
}

/// Each byte that is not ASCII in front, and after it each second byte at the end of a range:
/// overlong forms, surrogates, numbers past U+10FFFF, and first bytes that no character has.
fn second_bytes(all: &mut Vec<Vec<u8>>) {
    for first in 0x80..=0xFF {
        for second in [0x00, 0x7F, 0x80, 0x8F, 0x90, 0x9F, 0xA0, 0xBF, 0xC0, 0xFF] {
            all.push(vec![first, second, 0x80, 0xBF, b'a']);
        }
    }
}

/// A third and a fourth byte that is one too low or one too high.
fn later_bytes(all: &mut Vec<Vec<u8>>) {
    for edge in edges() {
        for at in 1..edge.len() {
            for wrong in [0x7F, 0xC0] {
                let mut bytes = edge.clone().into_bytes();
                bytes[at] = wrong;
                bytes.insert(0, b'a');
                all.push(bytes);
            }
        }
    }
}

/// Forms that are named: overlong zeros and slashes, surrogates alone and in pairs, past the end.
fn named(all: &mut Vec<Vec<u8>>) {
    let forms: [&[u8]; 14] = [
        b"\xC0\x80",
        b"\xC0\xAF",
        b"\xC1\xBF",
        b"\xE0\x80\x80",
        b"\xE0\x80\xAF",
        b"\xE0\x9F\xBF",
        b"\xF0\x80\x80\x80",
        b"\xF0\x80\x80\xAF",
        b"\xF0\x8F\xBF\xBF",
        b"\xED\xA0\x80",
        b"\xED\xBF\xBF",
        b"\xED\xA0\xBD\xED\xB8\x80",
        b"\xF4\x90\x80\x80",
        b"\xF8\x88\x80\x80\x80",
    ];
    for form in forms {
        all.push(form.to_vec());
        all.push([b"\xE2\x82\xAC ", form, b" a"].concat());
    }
}

/// A text of characters of every length, cut at each byte from either end.
fn truncated(all: &mut Vec<Vec<u8>>) {
    let text = "a\u{e9}\u{20ac}\u{1f600}z\u{10ffff}\u{800}\u{80}".as_bytes();
    for n in 0..text.len() {
        all.push(text[..n].to_vec());
        all.push(text[n..].to_vec());
    }
}

fn random(all: &mut Vec<Vec<u8>>) {
    let mut random = Random(0x9E37_79B9_7F4A_7C15);
    for _ in 0..200 {
        let size = 1 + random.below(20);
        all.push((0..size).map(|_| random.byte()).collect());
        all.push(random.text().into_bytes());
    }
    for _ in 0..400 {
        let mut bytes = random.text().into_bytes();
        let at = random.below(bytes.len() as u64) as usize;
        bytes[at] = random.byte();
        all.push(bytes);
    }
}

pub fn records() -> Vec<Vec<u8>> {
    let mut all = Vec::new();
    well_formed(&mut all);
    second_bytes(&mut all);
    later_bytes(&mut all);
    named(&mut all);
    truncated(&mut all);
    random(&mut all);
    assert!(all.iter().all(|r| r.len() <= 60));
    all
}
