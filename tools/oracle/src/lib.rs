//! `Template::compile2` of handlebars 6.4.4 over a span list that is given in place of a parser's.
#![allow(dead_code, unused_imports, unused_variables)]

mod error;
mod grammar;
mod json {
    pub mod path;
}
mod listing;
mod support;
mod template;

pub use error::RenderErrorReason;
pub use listing::{by_value, write};
pub use template::Template;

use error::TemplateErrorReason;
use grammar::{PREPARED, Prepared, Rule};
use std::cell::Cell;
use template::TemplateOptions;

/// src/support.rs names this trait; nothing here writes.
pub trait Output {
    fn write(&mut self, seg: &str) -> std::io::Result<()>;
}

thread_local! {
    /// how many turns compile2's loop has made, and the tag, start and end of the last one's pair
    static WALK: Cell<(usize, [usize; 3])> = const { Cell::new((0, [0; 3])) };
}

pub(crate) fn walks(pair: &pest::iterators::Pair<'_, Rule>) {
    let s = pair.as_span();
    let (n, _) = WALK.get();
    WALK.set((n + 1, [pair.as_rule() as usize, s.start(), s.end()]));
}

pub(crate) fn walk_ends() {
    let (n, _) = WALK.get();
    WALK.set((n + 1, [41, 0, 0]));
}

/// The turn of compile2's loop that the last call ended in, from 0, and its pair's tag, start and
/// end; tag 41 where no pair was left.
pub fn last_turn() -> (usize, [usize; 3]) {
    let (n, pair) = WALK.get();
    (n.wrapping_sub(1), pair)
}

/// Has the next calls of `compile2` play these spans over their text. False where the list is no
/// flattened list of pairs.
pub fn prepare(spans: &[[u32; 3]]) -> bool {
    match grammar::nest(spans) {
        Some(nodes) => {
            PREPARED.with(|p| *p.borrow_mut() = Prepared::Nodes(nodes));
            true
        }
        None => false,
    }
}

/// As `prepare`, but the pairs are made now, for this text: `compile2` then starts from pairs.
pub fn prepare_pairs(text: &'static str, spans: &[[u32; 3]]) -> bool {
    let Some(nodes) = grammar::nest(spans) else {
        return false;
    };
    let Ok(ready) = grammar::pairs(text, &nodes) else {
        return false;
    };
    PREPARED.with(|p| *p.borrow_mut() = Prepared::Pairs(text, ready));
    true
}

/// The name of an error of compile2, and its line and column if it has any.
pub type Failure = (&'static str, Option<(usize, usize)>);

/// The crate's compile2 over the prepared spans. It panics where the crate does.
pub fn compile2(text: &str, options: u32) -> Result<Template, Failure> {
    WALK.set((0, [0; 3]));
    let options = TemplateOptions {
        prevent_indent: options & 1 != 0,
        is_partial: options & 2 != 0,
        name: None,
    };
    Template::compile2(text, options).map_err(|e| {
        let name = match e.reason() {
            TemplateErrorReason::MismatchingClosedHelper(..) => "MismatchingClosedHelper",
            TemplateErrorReason::MismatchingClosedDecorator(..) => "MismatchingClosedDecorator",
            TemplateErrorReason::InvalidParam(..) => "InvalidParam",
            _ => "other",
        };
        (name, e.pos())
    })
}
