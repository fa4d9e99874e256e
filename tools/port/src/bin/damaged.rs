//! Damaged calls through the static library, with every lent slice between canaries and pages that can be
//! neither read nor written.
//!
//!     damaged CARDS COUNT [SEED [FIRST]]
//!     damaged records CARDS COUNT [SEED [FIRST]]
//!
//! CARDS is a file of records. Call number n is made from SEED and n alone, so a call that failed is run
//! again by FIRST. Ends with a panic, or by a signal, at the first call that breaks what the header says.
//! With `records` nothing is called: the cards of COUNT numbers are written as records.
use port::{Answer, compile2, with_stack};
use records::Card;
use std::ffi::c_void;
use std::io::{self, BufReader, BufWriter};

const PAGE: usize = 4096;
const CANARIES: usize = 256;

unsafe extern "C" {
    fn mmap(
        addr: *mut c_void,
        length: usize,
        prot: i32,
        flags: i32,
        fd: i32,
        offset: i64,
    ) -> *mut c_void;
    fn mprotect(addr: *mut c_void, length: usize, prot: i32) -> i32;
}

/// Splitmix64.
struct Random(u64);

impl Random {
    fn next(&mut self) -> u64 {
        self.0 = self.0.wrapping_add(0x9e37_79b9_7f4a_7c15);
        let mut z = self.0;
        z = (z ^ (z >> 30)).wrapping_mul(0xbf58_476d_1ce4_e5b9);
        z = (z ^ (z >> 27)).wrapping_mul(0x94d0_49bb_1331_11eb);
        z ^ (z >> 31)
    }

    /// below n, which is not 0
    fn below(&mut self, n: usize) -> usize {
        (self.next() % n as u64) as usize
    }

    fn of<T: Copy>(&mut self, choices: &[T]) -> T {
        choices[self.below(choices.len())]
    }
}

/// Memory between two pages that can be neither read nor written.
struct Ground {
    base: *mut u8,
    size: usize,
}

/// A part of a ground that is lent, with canaries on both sides as far as there is ground.
struct Lent {
    start: usize,
    len: usize,
    canary: u8,
}

impl Ground {
    fn new(size: usize) -> Ground {
        let size = size.next_multiple_of(PAGE);
        // SAFETY: a new anonymous private mapping, of which the first and the last page are closed
        unsafe {
            let whole = mmap(std::ptr::null_mut(), size + 2 * PAGE, 3, 0x22, -1, 0);
            assert!(whole as isize != -1, "no memory");
            let base = whole.cast::<u8>().add(PAGE);
            assert_eq!(mprotect(whole, PAGE, 0), 0);
            assert_eq!(mprotect(base.add(size).cast(), PAGE, 0), 0);
            Ground { base, size }
        }
    }

    fn all(&mut self) -> &mut [u8] {
        // SAFETY: the ground is mapped, starts as zeros, and is borrowed as long as the slice
        unsafe { std::slice::from_raw_parts_mut(self.base, self.size) }
    }

    /// `bytes` at the very start or the very end of the ground, or at an odd place inside, or, for words,
    /// at a place that words can have.
    fn lend(&mut self, bytes: &[u8], align: usize, r: &mut Random) -> Lent {
        let free = self.size - bytes.len();
        let start = match r.below(4) {
            0 | 1 => free,
            2 => 0,
            _ => r.below(free + 1),
        };
        let lent = Lent {
            start: start / align * align,
            len: bytes.len(),
            canary: r.next() as u8,
        };
        let (before, after) = lent.around(self.size);
        let all = self.all();
        all[before].fill(lent.canary);
        all[after].fill(lent.canary);
        all[lent.start..lent.start + lent.len].copy_from_slice(bytes);
        lent
    }

    fn untouched(&mut self, lent: &Lent) -> bool {
        let (before, after) = lent.around(self.size);
        let all = self.all();
        all[before]
            .iter()
            .chain(&all[after])
            .all(|b| *b == lent.canary)
    }
}

impl Lent {
    fn around(&self, size: usize) -> (std::ops::Range<usize>, std::ops::Range<usize>) {
        let end = self.start + self.len;
        (
            self.start.saturating_sub(CANARIES)..self.start,
            end..size.min(end + CANARIES),
        )
    }
}

/// One change of a card, of a kind that a parser, a wire or a wrong caller could make.
fn damage(c: &mut Card, r: &mut Random) {
    let spans = c.words.len() / 3;
    let length = c.text.len();
    match r.below(16) {
        0 if spans > 0 => {
            let i = 3 * r.below(spans);
            c.words.drain(i..i + 3);
        }
        1 if spans > 0 && spans < 5000 => {
            let i = 3 * r.below(spans);
            let again: Vec<u32> = c.words[i..i + 3].to_vec();
            c.words.splice(i..i, again);
        }
        2..=4 if spans > 0 => c.words[3 * r.below(spans)] = r.below(41) as u32,
        5 | 6 if spans > 0 => {
            let w = 3 * r.below(spans) + 1 + r.below(2);
            c.words[w] = c.words[w].wrapping_add(r.of(&[1, 2, u32::MAX, u32::MAX - 1]));
        }
        7 if spans > 0 => {
            let (i, j) = (3 * r.below(spans), 3 * r.below(spans));
            for k in 0..3 {
                c.words.swap(i + k, j + k);
            }
        }
        8 if spans > 0 => c.words.truncate(3 * r.below(spans)),
        9 if spans < 5000 => {
            let start = r.below(length + 1);
            let end = (start + r.below(4)).min(length);
            let i = 3 * r.below(spans + 1);
            c.words
                .splice(i..i, [r.below(41) as u32, start as u32, end as u32]);
        }
        10 if length > 0 => c.text[r.below(length)] = r.next() as u8,
        11 if length > 0 => c.text[r.below(length)] = r.of(b" \t\n\r\\\"'~{}[]019eu"),
        12 => c.text.truncate(r.below(length + 1)),
        13 => c.options = r.of(&[0, 1, 2, 3, 0, 1, 2, 3, 4, u32::MAX]),
        14 if !c.words.is_empty() => {
            let (w, any) = (r.below(c.words.len()), r.next() as u32);
            c.words[w] = r.of(&[0, 1, 40, 41, 16384, 16385, u32::MAX, any]);
        }
        15 if r.below(8) == 0 => match r.below(3) {
            0 => c.words.push(r.next() as u32),
            1 => c.text.resize(16380 + r.below(10), b'x'),
            _ => c.words.resize(3 * (4090 + r.below(10)), 0),
        },
        _ => {}
    }
}

struct Grounds {
    text: Ground,
    spans: Ground,
    out: Ground,
}

fn as_bytes(words: &[u32]) -> Vec<u8> {
    words.iter().flat_map(|w| w.to_ne_bytes()).collect()
}

/// One call with `room` bytes lent, and all that the header says of it.
fn call(g: &mut Grounds, c: &Card, room: usize, r: &mut Random) -> (Answer, Vec<u8>) {
    let words = as_bytes(&c.words);
    let before: Vec<u8> = {
        let fill = r.next() as u8;
        (0..room).map(|i| fill ^ i as u8).collect()
    };
    let text = g.text.lend(&c.text, 1, r);
    let spans = g.spans.lend(&words, 4, r);
    let out = g.out.lend(&before, 1, r);
    let answer = {
        let t = &g.text.all()[text.start..text.start + text.len];
        let w = &g.spans.all()[spans.start..spans.start + spans.len];
        // SAFETY: the ground is aligned to a page and the place in it to 4 bytes
        let (head, w, tail) = unsafe { w.align_to::<u32>() };
        assert!(head.is_empty() && tail.is_empty());
        let o = &mut g.out.all()[out.start..out.start + out.len];
        compile2(t, w, c.options, o)
    };
    assert!(g.text.untouched(&text), "a byte beside the text");
    assert!(g.spans.untouched(&spans), "a byte beside the spans");
    assert!(g.out.untouched(&out), "a byte beside the output");
    assert!(
        g.text.all()[text.start..].starts_with(&c.text),
        "a byte of the text"
    );
    assert!(
        g.spans.all()[spans.start..].starts_with(&words),
        "a byte of the spans"
    );
    let after = g.out.all()[out.start..out.start + out.len].to_vec();
    let filled = match answer {
        Answer::Listed(n) => n,
        Answer::Refused(..) => 0,
    };
    assert!(filled <= room, "a listing longer than the output");
    assert!(
        after[filled..] == before[filled..],
        "a byte of the output that no listing fills"
    );
    place_is_possible(c, room, answer);
    (answer, after)
}

fn place_is_possible(c: &Card, room: usize, answer: Answer) {
    let count = c.words.len() / 3;
    let good = match answer {
        Answer::Listed(n) => n >= 12,
        Answer::Refused(1..=3, place) => place == 0,
        Answer::Refused(4, place) => place < c.text.len(),
        Answer::Refused(5 | 6 | 9..=13, place) => place < count,
        Answer::Refused(7 | 8, place) => place <= count,
        Answer::Refused(14, place) => place > room,
        Answer::Refused(..) => false,
    };
    assert!(good, "{answer:?} is no answer");
}

/// What number n stands for: its random numbers so far, and its card.
fn numbered(cards: &[Card], seed: u64, n: u64) -> (Random, Card) {
    let mut r = Random(seed ^ n.wrapping_mul(0xd134_2543_de82_ef95));
    let mut c = cards[r.below(cards.len())].clone();
    for _ in 0..r.below(4) {
        damage(&mut c, &mut r);
    }
    (r, c)
}

/// The call that number n stands for, and, where it lists, the same with just enough room and with a byte
/// less. Which number was answered, 0 for a listing, and how many calls were made.
fn calls(g: &mut Grounds, cards: &[Card], seed: u64, n: u64) -> (usize, u64) {
    let (mut r, c) = numbered(cards, seed, n);
    let room = r.of(&[
        0, 1, 10, 11, 12, 100, 1000, 4096, 65536, 65536, 65536, 65536,
    ]);
    let (answer, after) = call(g, &c, room, &mut r);
    let length = match answer {
        Answer::Refused(number, place) if number != 14 || place > 65536 => {
            return (number as usize, 1);
        }
        Answer::Refused(_, place) => place,
        Answer::Listed(n) => n,
    };
    if r.below(8) != 0 {
        return (if room < length { 14 } else { 0 }, 1);
    }
    let (just, listing) = call(g, &c, length, &mut r);
    assert_eq!(
        just,
        Answer::Listed(length),
        "a listing has room for itself"
    );
    assert!(
        listing.starts_with(b"[template\n") && listing.ends_with(b"]\n"),
        "a listing"
    );
    assert!(
        room < length || after.starts_with(&listing),
        "the same listing with more room"
    );
    let (less, _) = call(g, &c, length - 1, &mut r);
    assert_eq!(
        less,
        Answer::Refused(14, length),
        "a byte less is too little"
    );
    (if room < length { 14 } else { 0 }, 3)
}

fn run() {
    let mut args: Vec<String> = std::env::args().skip(1).collect();
    let only_records = args.first().is_some_and(|a| a == "records");
    if only_records {
        args.remove(0);
    }
    let number = |i: usize, other: u64| args.get(i).map_or(other, |a| a.parse().expect("a number"));
    let file = std::fs::File::open(args.first().expect("damaged CARDS COUNT [SEED [FIRST]]"));
    let cards =
        Card::read_all(&mut BufReader::new(file.expect("the file of records"))).expect("records");
    let (count, seed, first) = (number(1, 1_000_000), number(2, 1), number(3, 0));
    if only_records {
        let mut output = BufWriter::new(io::stdout().lock());
        for n in first..first + count {
            numbered(&cards, seed, n).1.write(&mut output).unwrap();
        }
        return;
    }
    let mut g = Grounds {
        text: Ground::new(1 << 17),
        spans: Ground::new(1 << 17),
        out: Ground::new(1 << 18),
    };
    let mut answers = [0u64; 15];
    let (mut made, mut n) = (0, first);
    std::panic::set_hook(Box::new(|info| eprintln!("{info}")));
    while made < count {
        let told = std::panic::catch_unwind(std::panic::AssertUnwindSafe(|| {
            calls(&mut g, &cards, seed, n)
        }));
        let Ok((number, calls)) = told else {
            panic!("at number {n} of seed {seed}");
        };
        answers[number] += 1;
        made += calls;
        n += 1;
        if n % 100_000 == 0 {
            eprintln!("{made} calls, at number {n}");
        }
    }
    println!(
        "{made} calls, {} cards, seed {seed}: nothing broken",
        n - first
    );
    for (number, count) in answers.iter().enumerate() {
        println!(
            "{count:9}  {}",
            if number == 0 {
                "listed".to_owned()
            } else {
                format!("refused {number}")
            }
        );
    }
}

fn main() {
    with_stack(run);
}
