//! Files with a field whose quotes are wrong, or in which quotes hold what no column takes.

use crate::drawn_files::{Kinds, Making::After};
use crate::drawn_sheets::a_line;
use crate::prng::Prng;
use crate::sheet::Sheet;

#[rustfmt::skip]
pub const KINDS: Kinds = &[
    ("never closed", After(|rng, sheet| on_any(rng, sheet, |a, b| format!("\"{a}{b}")))),
    ("never opened", After(|rng, sheet| on_any(rng, sheet, |a, b| format!("{a}{b}\"")))),
    ("never closed at the end", After(|_, sheet| {
        let last = sheet.lines.last_mut()?;
        last.end = "";
        let field = last.fields.last_mut()?;
        *field = format!("\"{}", content(field));
        Some(())
    })),
    ("text after the closing", After(|rng, sheet| {
        let text = *rng.pick(&["0", "1", "x", "\t", "\n", "\r\r\n", "'"]);
        let field = a_field(rng, sheet);
        *field = format!("\"{}\"{text}", content(field));
        Some(())
    })),
    ("text before the opening", After(|rng, sheet| {
        let text = *rng.pick(&["0", "1", "x", "\t", "\u{feff}"]);
        let field = a_field(rng, sheet);
        *field = format!("{text}\"{}\"", content(field));
        Some(())
    })),
    ("a space after the closing", After(|rng, sheet| on_any(rng, sheet, |a, b| format!("\"{a}{b}\" ")))),
    ("a space before the opening", After(|rng, sheet| on_any(rng, sheet, |a, b| format!(" \"{a}{b}\"")))),
    ("doubled inside", After(|rng, sheet| on_any(rng, sheet, |a, b| format!("\"{a}\"\"{b}\"")))),
    ("doubled around", After(|rng, sheet| on_any(rng, sheet, |a, b| format!("\"\"{a}{b}\"\"")))),
    ("trebled around", After(|rng, sheet| on_any(rng, sheet, |a, b| format!("\"\"\"{a}{b}\"\"\"")))),
    ("single inside", After(|rng, sheet| on_any(rng, sheet, |a, b| format!("\"{a}\"{b}\"")))),
    ("comma inside", After(|rng, sheet| on_any(rng, sheet, |a, b| format!("\"{a},{b}\"")))),
    ("CR LF inside", After(|rng, sheet| on_any(rng, sheet, |a, b| format!("\"{a}\r\n{b}\"")))),
    ("CR inside", After(|rng, sheet| on_any(rng, sheet, |a, b| format!("\"{a}\r{b}\"")))),
    ("LF inside", After(|rng, sheet| on_any(rng, sheet, |a, b| format!("\"{a}\n{b}\"")))),
    ("space inside", After(|rng, sheet| on_any(rng, sheet, |a, b| format!("\"{a} {b}\"")))),
    ("in the middle", After(|rng, sheet| on_any(rng, sheet, |a, b| format!("{a}\"{b}")))),
    ("around the second half", After(|rng, sheet| on_any(rng, sheet, |a, b| format!("{a}\"{b}\"")))),
    ("one alone", After(|rng, sheet| on_any(rng, sheet, |_, _| String::from("\"")))),
    ("three alone", After(|rng, sheet| on_any(rng, sheet, |_, _| String::from("\"\"\"")))),
    ("four alone", After(|rng, sheet| on_any(rng, sheet, |_, _| String::from("\"\"\"\"")))),
    ("of another sort", After(|rng, sheet| on_any(rng, sheet, |a, b| format!("'{a}{b}'")))),
    ("around a whole line", After(|rng, sheet| {
        let line = a_line(rng, sheet);
        let fields: Vec<&str> = line.fields.iter().map(|field| content(field)).collect();
        line.fields = vec![format!("\"{}\"", fields.join(","))];
        Some(())
    })),
];

fn a_field<'a>(rng: &mut Prng, sheet: &'a mut Sheet) -> &'a mut String {
    let fields = &mut a_line(rng, sheet).fields;
    let column = rng.below(fields.len());
    &mut fields[column]
}

fn content(field: &str) -> &str {
    field.trim_matches('"')
}

/// Writes a field anew from its content, which is handed over in two parts.
fn on_any(rng: &mut Prng, sheet: &mut Sheet, anew: fn(&str, &str) -> String) -> Option<()> {
    let field = a_field(rng, sheet);
    let content = content(field);
    let (a, b) = content.split_at(rng.below(content.len() + 1));
    *field = anew(a, b);
    Some(())
}
