//! Pages: one file each, without scripts and without anything from a network.

pub mod grid;
pub mod leak;
pub mod matrix;
pub mod owners;

use std::ffi::OsStr;

use crate::answer::Answer;
use crate::no_answer::{Answered, shown};
use crate::replace::write_page;

/// What every page begins with.
pub const START: &str = "<!doctype html>";

const STYLE: &str = include_str!("style.css");

/// A whole page.
pub fn page(title: &str, body: &str) -> String {
    let title = escape(title);
    format!(
        "{START}\n<html lang=\"en\">\n<head>\n<meta charset=\"utf-8\">\n\
         <meta name=\"viewport\" content=\"width=device-width, initial-scale=1\">\n\
         <title>{title}</title>\n<style>\n{STYLE}</style>\n</head>\n<body>\n<h1>{title}</h1>\n{body}</body>\n</html>\n"
    )
}

/// Text as it stands in a page and in the values of its attributes.
pub fn escape(text: &str) -> String {
    let mut out = String::with_capacity(text.len());
    for c in text.chars() {
        match c {
            '&' => out.push_str("&amp;"),
            '<' => out.push_str("&lt;"),
            '>' => out.push_str("&gt;"),
            '"' => out.push_str("&quot;"),
            '\'' => out.push_str("&#39;"),
            c => out.push(c),
        }
    }
    out
}

/// Puts a page where it is to go: with `-` it takes the place of the text, else the text is printed too.
pub fn deliver(out: &OsStr, page: String, text: String, yes: bool) -> Answered<Answer> {
    if out == "-" {
        return Ok(Answer::new(page, yes));
    }
    write_page(out, &page)?;
    Ok(Answer::new(
        format!("{text}The page is {}.\n", shown(out)),
        yes,
    ))
}
