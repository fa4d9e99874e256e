//! The crate's tree in document 01's writing, but for literals, which are written by value: what
//! serde_json prints.

use crate::grammar::Rule;
use crate::json::path::{Path, PathSeg};
use crate::template::*;
use std::collections::HashMap;
use std::fmt::Write;

pub fn quote(s: &str, o: &mut String) {
    o.push('"');
    for c in s.chars() {
        match c {
            '\\' => o.push_str("\\\\"),
            '"' => o.push_str("\\\""),
            '\n' => o.push_str("\\n"),
            c => o.push(c),
        }
    }
    o.push('"');
}

/// `[head "s"]`
fn form(head: &str, s: &str, o: &mut String) {
    o.push_str(head);
    quote(s, o);
    o.push_str("]\n");
}

fn path(p: &Path, o: &mut String) {
    match p {
        Path::Relative((segs, raw)) => {
            o.push_str("[path ");
            quote(raw, o);
            o.push('\n');
            for s in segs {
                match s {
                    PathSeg::Named(n) => form("[seg ", n, o),
                    PathSeg::Ruled(Rule::path_root) => o.push_str("[root]\n"),
                    PathSeg::Ruled(Rule::path_local) => o.push_str("[here]\n"),
                    PathSeg::Ruled(Rule::path_up) => o.push_str("[up]\n"),
                    PathSeg::Ruled(r) => unreachable!("{r:?} in a path"),
                }
            }
            o.push_str("]\n");
        }
        Path::Local((level, name, raw)) => {
            write!(o, "[local {level} ").unwrap();
            quote(name, o);
            o.push(' ');
            quote(raw, o);
            o.push_str("]\n");
        }
    }
}

fn parameter(p: &Parameter, o: &mut String) {
    match p {
        Parameter::Name(n) => form("[name ", n, o),
        Parameter::Path(p) => path(p, o),
        Parameter::Literal(v) => form("[lit ", &v.to_string(), o),
        Parameter::Subexpression(s) => {
            let TemplateElement::Expression(h) = s.as_element() else {
                unreachable!("a subexpression that is no expression");
            };
            o.push_str("[sub\n");
            call(&h.name, &h.params, &h.hash, &h.block_param, o);
            o.push_str("]\n");
        }
    }
}

fn call(
    name: &Parameter,
    params: &[Parameter],
    hash: &HashMap<String, Parameter>,
    block_param: &Option<BlockParam>,
    o: &mut String,
) {
    parameter(name, o);
    for p in params {
        parameter(p, o);
    }
    let mut keys: Vec<&String> = hash.keys().collect();
    keys.sort();
    for k in keys {
        o.push_str("[key ");
        quote(k, o);
        o.push('\n');
        parameter(&hash[k], o);
        o.push_str("]\n");
    }
    match block_param {
        None => {}
        Some(BlockParam::Single(Parameter::Name(a))) => form("[as ", a, o),
        Some(BlockParam::Pair((Parameter::Name(a), Parameter::Name(b)))) => {
            o.push_str("[as ");
            quote(a, o);
            o.push(' ');
            quote(b, o);
            o.push_str("]\n");
        }
        Some(b) => unreachable!("{b:?} as block parameters"),
    }
}

fn body(head: &str, t: Option<&Template>, o: &mut String) {
    o.push_str(head);
    o.push('\n');
    if let Some(t) = t {
        elements(t, o);
    }
    o.push_str("]\n");
}

fn helper(head: &str, place: &str, h: &HelperTemplate, o: &mut String) {
    write!(o, "[{head} {place}").unwrap();
    if h.block {
        write!(o, " {} {}", h.chain as u8, h.indent_before_write as u8).unwrap();
    }
    o.push('\n');
    call(&h.name, &h.params, &h.hash, &h.block_param, o);
    if h.block {
        body("[body", h.template.as_ref(), o);
        if let Some(t) = &h.inverse {
            body("[else", Some(t), o);
        }
    }
    o.push_str("]\n");
}

fn decorator(head: &str, place: &str, d: &DecoratorTemplate, block: bool, o: &mut String) {
    write!(o, "[{head} {place} {} ", d.indent_before_write as u8).unwrap();
    match &d.indent {
        Some(i) => quote(i, o),
        None => o.push('-'),
    }
    o.push('\n');
    call(&d.name, &d.params, &d.hash, &None, o);
    if block {
        body("[body", d.template.as_ref(), o);
    }
    o.push_str("]\n");
}

fn elements(t: &Template, o: &mut String) {
    use TemplateElement::*;
    for (i, e) in t.elements.iter().enumerate() {
        let place = t
            .mapping
            .get(i)
            .map_or("-".to_owned(), |m| format!("{}:{}", m.0, m.1));
        match e {
            RawString(s) => form(&format!("[text {place} "), s, o),
            Comment(s) => form(&format!("[comment {place} "), s, o),
            Expression(h) => helper("expr", &place, h, o),
            HtmlExpression(h) => helper("html", &place, h, o),
            HelperBlock(h) => helper("block", &place, h, o),
            DecoratorExpression(d) => decorator("decor", &place, d, false, o),
            DecoratorBlock(d) => decorator("decor-block", &place, d, true, o),
            PartialExpression(d) => decorator("partial", &place, d, false, o),
            PartialBlock(d) => decorator("partial-block", &place, d, true, o),
        }
    }
}

pub fn write(t: &Template, o: &mut String) {
    body("[template", Some(t), o);
}

/// A listing with each literal's kept text put by value, as `write` writes it.
pub fn by_value(listing: &str) -> String {
    let mut out = String::with_capacity(listing.len());
    for line in listing.split_inclusive('\n') {
        let kept = line
            .strip_prefix("[lit \"")
            .and_then(|l| l.strip_suffix("\"]\n"));
        match kept.map(|k| unquote(k).parse::<serde_json::Value>()) {
            Some(Ok(v)) => form("[lit ", &v.to_string(), &mut out),
            Some(Err(_)) => out.push_str("[lit INVALID]\n"),
            None => out.push_str(line),
        }
    }
    out
}

fn unquote(s: &str) -> String {
    let mut out = String::with_capacity(s.len());
    let mut rest = s.chars();
    while let Some(c) = rest.next() {
        match c {
            '\\' => out.extend(rest.next().map(|c| if c == 'n' { '\n' } else { c })),
            c => out.push(c),
        }
    }
    out
}
