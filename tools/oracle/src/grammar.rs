//! In place of the crate's grammar, which is not at hand: its rules, and a parser that does not look
//! at the text but gives a prepared span list, played through a `pest::ParserState`. So pairs, spans
//! and positions are pest's own.

use pest::error::Error;
use pest::iterators::Pairs;
use pest::{ParseResult, Parser, ParserState};
use std::cell::RefCell;

/// The crate's names where its source has them, else document 01's; in the order of document 01's
/// tag numbers.
#[allow(non_camel_case_types, dead_code)]
#[derive(Clone, Copy, Debug, Eq, PartialEq, Hash, Ord, PartialOrd)]
pub enum Rule {
    EOI,
    template,
    raw_text,
    raw_block_text,
    escape,
    helper_block_start,
    raw_block_start,
    decorator_block_start,
    partial_block_start,
    invert_tag,
    invert_chain_tag,
    expression,
    html_expression,
    decorator_expression,
    partial_expression,
    helper_block_end,
    raw_block_end,
    decorator_block_end,
    partial_block_end,
    hbs_comment_compact,
    hbs_comment,
    identifier,
    partial_identifier,
    opt_identifier,
    opt_partial_identifier,
    invert_tag_item,
    reference,
    subexpression,
    helper_parameter,
    literal,
    string_literal,
    string_inner_single_quote,
    hash,
    block_param,
    leading_tilde_to_omit_whitespace,
    trailing_tilde_to_omit_whitespace,
    path_root,
    path_local,
    path_up,
    path_id,
    path_raw_id,
    // the crate's source names these as start rules only
    handlebars,
    parameter,
    path,
}

const BY_TAG: [Rule; 41] = {
    use Rule::*;
    [
        EOI,
        template,
        raw_text,
        raw_block_text,
        escape,
        helper_block_start,
        raw_block_start,
        decorator_block_start,
        partial_block_start,
        invert_tag,
        invert_chain_tag,
        expression,
        html_expression,
        decorator_expression,
        partial_expression,
        helper_block_end,
        raw_block_end,
        decorator_block_end,
        partial_block_end,
        hbs_comment_compact,
        hbs_comment,
        identifier,
        partial_identifier,
        opt_identifier,
        opt_partial_identifier,
        invert_tag_item,
        reference,
        subexpression,
        helper_parameter,
        literal,
        string_literal,
        string_inner_single_quote,
        hash,
        block_param,
        leading_tilde_to_omit_whitespace,
        trailing_tilde_to_omit_whitespace,
        path_root,
        path_local,
        path_up,
        path_id,
        path_raw_id,
    ]
};

/// A pair with the pairs inside it.
pub struct Node {
    rule: Rule,
    start: usize,
    end: usize,
    kids: Vec<Node>,
}

/// The pairs whose flattening is this list, or None. Each span's offsets are within the text, the
/// start not past the end.
pub fn nest(spans: &[[u32; 3]]) -> Option<Vec<Node>> {
    fn take(spans: &[[u32; 3]], at: &mut usize, low: usize, high: usize) -> Option<Vec<Node>> {
        let mut nodes = Vec::new();
        let mut position = low;
        while let Some(&[tag, start, end]) = spans.get(*at) {
            let (start, end) = (start as usize, end as usize);
            if end > high || start < low {
                break;
            }
            if start < position {
                // inside the parent, yet before the end of its last child
                return None;
            }
            *at += 1;
            let kids = take(spans, at, start, end)?;
            position = end;
            nodes.push(Node {
                rule: BY_TAG[tag as usize],
                start,
                end,
                kids,
            });
        }
        Some(nodes)
    }
    let mut at = 0;
    let nodes = take(spans, &mut at, 0, usize::MAX)?;
    (at == spans.len()).then_some(nodes)
}

fn play<'i>(
    mut state: Box<ParserState<'i, Rule>>,
    text: &'i str,
    nodes: &[Node],
    mut position: usize,
    end: usize,
) -> ParseResult<Box<ParserState<'i, Rule>>> {
    for n in nodes {
        state = state.match_string(&text[position..n.start])?;
        state = state.rule(n.rule, |s| play(s, text, &n.kids, n.start, n.end))?;
        position = n.end;
    }
    state.match_string(&text[position..end])
}

/// The pairs of these nodes over a text.
pub fn pairs<'i>(text: &'i str, nodes: &[Node]) -> Result<Pairs<'i, Rule>, Error<Rule>> {
    pest::state(text, |s| {
        s.sequence(|s| play(s, text, nodes, 0, text.len()))
    })
}

/// What the parser gives next.
pub enum Prepared {
    /// played over whatever text is parsed
    Nodes(Vec<Node>),
    /// ready pairs, for this text alone
    Pairs(&'static str, Pairs<'static, Rule>),
}

thread_local! {
    pub static PREPARED: RefCell<Prepared> = const { RefCell::new(Prepared::Nodes(Vec::new())) };
}

pub struct HandlebarsParser;

impl Parser<Rule> for HandlebarsParser {
    fn parse(_: Rule, input: &str) -> Result<Pairs<'_, Rule>, Error<Rule>> {
        PREPARED.with(|p| match &*p.borrow() {
            Prepared::Nodes(nodes) => pairs(input, nodes),
            Prepared::Pairs(text, ready) => {
                assert!(std::ptr::eq(*text, input), "pairs of another text");
                Ok(ready.clone())
            }
        })
    }
}
