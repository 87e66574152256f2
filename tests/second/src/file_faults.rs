//! What is wrong with a line of a file of waits that is refused, in the words that a clerk is told: the first thing that is.

use crate::decimal::number;
use crate::waits::{HEADER, LARGEST_MEMBER};

const BYTE_ORDER_MARK: &[u8] = b"\xEF\xBB\xBF";

/// The columns before this one are numbers, the others sets.
const FIRST_SET: usize = 3;

/// Of the line with this number; the header is line 1.
pub fn words(file: &[u8], line: usize) -> String {
    let header = HEADER.join(",");
    if line == 1 && file.is_empty() {
        return format!("the file is empty; line 1 must be the header {header}");
    }
    if line == 1 && file.starts_with(BYTE_ORDER_MARK) {
        return String::from(
            "line 1 begins with a byte-order mark, which is no part of the header",
        );
    }
    let text = line_of(file, line);
    let has = |wanted: u8| text.contains(&wanted);
    if has(b'\n') {
        format!("line {line} ends in LF where CR LF is wanted")
    } else if has(b';') && !has(b',') {
        format!("line {line}: its fields are separated by semicolons where commas are wanted")
    } else if line == 1 {
        format!("line 1 isn't the header {header}")
    } else {
        format!("line {line}: {}", of_row(text, line - 2))
    }
}

/// The line without the CR LF that ends it.
fn line_of(file: &[u8], line: usize) -> &[u8] {
    let mut rest = file;
    for _ in 1..line {
        rest = &rest[end_of_line(rest) + 2..];
    }
    &rest[..end_of_line(rest)]
}

fn end_of_line(text: &[u8]) -> usize {
    let end = text.windows(2).position(|pair| pair == b"\r\n");
    end.unwrap_or(text.len())
}

fn of_row(text: &[u8], node: usize) -> String {
    let fields: Vec<&[u8]> = text.split(|byte| *byte == b',').collect();
    for (column, name) in HEADER.iter().enumerate() {
        let flaw = match fields.get(column) {
            None => Some("is missing".to_string()),
            Some(field) if column < FIRST_SET => of_number(without_quotes(field)),
            Some(field) => of_set(without_quotes(field)),
        };
        if let Some(flaw) = flaw {
            return format!("{name} {flaw}");
        }
    }
    match fields.len() > HEADER.len() {
        true => String::from("it has more than seven fields"),
        false => format!("its node isn't {node}, the next one"),
    }
}

fn without_quotes(field: &[u8]) -> &[u8] {
    let inside = field.strip_prefix(b"\"");
    let inside = inside.and_then(|field| field.strip_suffix(b"\""));
    inside.unwrap_or(field)
}

fn has_other_than_digits(text: &[u8]) -> bool {
    !text.iter().all(u8::is_ascii_digit)
}

fn of_number(text: &[u8]) -> Option<String> {
    let flaw = if text.is_empty() {
        "is empty"
    } else if has_other_than_digits(text) {
        "has a character that isn't a digit"
    } else if number(text).is_none() {
        "is past 64 bits"
    } else {
        return None;
    };
    Some(flaw.to_string())
}

fn of_set(text: &[u8]) -> Option<String> {
    if text.is_empty() {
        return None;
    }
    let mut before = None;
    for word in text.split(|byte| *byte == b' ') {
        if word.is_empty() {
            return Some(String::from("has a space too many"));
        }
        if has_other_than_digits(word) {
            let flaw = "has a character that is neither a digit nor a space";
            return Some(flaw.to_string());
        }
        let member = match number(word) {
            Some(member) if member <= LARGEST_MEMBER => member,
            _ => return Some(format!("has a member over {LARGEST_MEMBER}")),
        };
        match before {
            Some(before) if before == member => return Some(String::from("has a member twice")),
            Some(before) if before > member => return Some(String::from("isn't ascending")),
            _ => before = Some(member),
        }
    }
    None
}
