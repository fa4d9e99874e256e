//! Records in, answers out; README.md has both forms.
use oracle::{by_value, compile2, last_turn, prepare, write};
use records::{Card, bytes, number, put};
use std::io::{self, BufReader, BufWriter, Read, Write};
use std::panic::catch_unwind;
use std::sync::Mutex;

/// where the last panic was: file:line
static PANIC: Mutex<String> = Mutex::new(String::new());

/// Whether document 01's checks 1, 3 (words not in threes), 4 and 5 let the record pass: what they
/// turn away cannot be asked of the crate.
fn spans(options: u32, words: &[u32], text: &str) -> Option<Vec<[u32; 3]>> {
    let spans: Vec<[u32; 3]> = words
        .chunks(3)
        .map(|w| w.try_into().ok())
        .collect::<Option<_>>()?;
    let good = |&[tag, start, end]: &[u32; 3]| {
        let (start, end) = (start as usize, end as usize);
        tag <= 40 && start <= end && text.is_char_boundary(start) && text.is_char_boundary(end)
    };
    (options <= 3 && spans.iter().all(good)).then_some(spans)
}

fn answer(options: u32, words: &[u32], text: &[u8]) -> String {
    let Ok(text) = std::str::from_utf8(text) else {
        return "unasked\n".into();
    };
    let Some(spans) = spans(options, words, text) else {
        return "unasked\n".into();
    };
    if !prepare(&spans) {
        return "unnested\n".into();
    }
    let result = catch_unwind(|| compile2(text, options));
    let (turn, [tag, start, end]) = last_turn();
    let at = format!("at {turn} {tag} {start} {end}\n");
    match result {
        Err(_) => format!("panic {} {at}", PANIC.lock().unwrap()),
        Ok(Err((name, Some((line, column))))) => format!("error {name} {line}:{column} {at}"),
        Ok(Err((name, None))) => format!("error {name} - {at}"),
        Ok(Ok(t)) => {
            let mut o = String::new();
            write(&t, &mut o);
            o
        }
    }
}

fn cards(input: &mut impl Read, output: &mut impl Write) -> io::Result<()> {
    while let Some(c) = Card::read(input)? {
        put(output, answer(c.options, &c.words, &c.text).as_bytes())?;
    }
    Ok(())
}

fn values(input: &mut impl Read, output: &mut impl Write) -> io::Result<()> {
    while let Some(length) = number(input) {
        let listing = String::from_utf8(bytes(input, length as usize)?);
        put(
            output,
            listing
                .map_or("no UTF-8\n".into(), |l| by_value(&l))
                .as_bytes(),
        )?;
    }
    Ok(())
}

fn run() {
    let mut input = BufReader::new(io::stdin().lock());
    let mut output = BufWriter::new(io::stdout().lock());
    match std::env::args().nth(1).as_deref() {
        Some("cards") => cards(&mut input, &mut output).unwrap(),
        Some("values") => values(&mut input, &mut output).unwrap(),
        _ => panic!("oracle cards | oracle values"),
    }
}

fn main() {
    std::panic::set_hook(Box::new(|info| {
        let at = info.location().map_or("?".to_owned(), |l| {
            format!(
                "{}:{}",
                l.file().rsplit('/').next().unwrap_or("?"),
                l.line()
            )
        });
        *PANIC.lock().unwrap() = at;
    }));
    // pairs may be as deep as the list is long
    let run = std::thread::Builder::new()
        .stack_size(1 << 30)
        .spawn(run)
        .unwrap();
    if run.join().is_err() {
        eprintln!("oracle: stopped at {}", PANIC.lock().unwrap());
        std::process::exit(1);
    }
}
