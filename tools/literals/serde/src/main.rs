// Holds the stored verdicts of replay_literals to serde_json: a text that serde_json refuses is not
// valid, one that it takes is valid, or over a limit where a count of its digits and brackets says so.
use std::env;
use std::fs;

struct Counts {
    records: usize,
    taken: usize,
    over: usize,
    refused: usize,
    not_utf8: usize,
}

// The most digits before an exponent, the most exponent digits, and the most open brackets, outside strings.
fn sizes(text: &str) -> (usize, usize, usize) {
    let (mut digits, mut power, mut depth) = (0, 0, 0);
    let (mut n, mut e, mut open) = (0, 0, 0usize);
    let (mut string, mut escape, mut exponent) = (false, false, false);
    for c in text.chars() {
        if string {
            if escape {
                escape = false;
            } else if c == '\\' {
                escape = true;
            } else if c == '"' {
                string = false;
            }
            continue;
        }
        match c {
            '0'..='9' if exponent => e += 1,
            '0'..='9' => n += 1,
            'e' | 'E' if n > 0 => exponent = true,
            '.' | '+' | '-' if n > 0 => {}
            _ => (n, e, exponent) = (0, 0, false),
        }
        match c {
            '"' => string = true,
            '[' | '{' => open += 1,
            ']' | '}' => open = open.saturating_sub(1),
            _ => {}
        }
        digits = digits.max(n);
        power = power.max(e);
        depth = depth.max(open);
    }
    (digits, power, depth)
}

fn main() {
    let folder = env::args().nth(1).expect("the folder of replay_literals");
    let input = fs::read(format!("{folder}/stdin")).expect("stdin");
    let output = fs::read(format!("{folder}/stdout")).expect("stdout");
    let mut out = 0;
    let mut counts = Counts { records: 0, taken: 0, over: 0, refused: 0, not_utf8: 0 };
    let mut at = 0;
    while at < input.len() {
        let (kind, len) = (input[at], input[at + 1] as usize);
        let bytes = &input[at + 2..at + 2 + len];
        at += 2 + len;
        counts.records += 1;
        let verdict = output[out];
        out += 1;
        // each byte as a character, so that no byte is lost
        let mut text: String = bytes.iter().map(|b| *b as char).collect();
        if kind == b'q' {
            // as src/template.rs rewrites the inner text of single quotes
            text = format!("\"{}\"", text.replace("\\'", "'").replace('"', "\\\""));
            let rewritten: Vec<u8> = text.chars().map(|c| c as u8).collect();
            assert_eq!(&output[out + 1..out + 1 + rewritten.len()], rewritten, "record {}", counts.records);
            out += 1 + rewritten.len();
        }
        assert_eq!(output[out], b'\n', "record {}", counts.records);
        out += 1;
        let bytes: Vec<u8> = text.chars().map(|c| c as u8).collect();
        let Ok(text) = String::from_utf8(bytes) else {
            counts.not_utf8 += 1;
            continue;
        };
        let (digits, power, depth) = sizes(&text);
        let within = digits <= 15 && power <= 2 && depth <= 32;
        match (serde_json::from_str::<serde_json::Value>(&text).is_ok(), within, verdict) {
            (true, true, b'v') => counts.taken += 1,
            (_, false, b'o') => counts.over += 1,
            (false, _, b'i') => counts.refused += 1,
            other => panic!("record {}: {text:?}: {other:?}", counts.records),
        }
    }
    println!(
        "{} records: {} valid, {} over a limit, {} invalid; {} not UTF-8 and left out",
        counts.records, counts.taken, counts.over, counts.refused, counts.not_utf8
    );
}
