//! The line that a program writes to standard error: ours, and what is wrong with another's.

/// What such a line must name, which may be nothing.
pub type Place = String;

/// What standard error is to have: this line, or one that names a place, or nothing.
pub enum Wanted {
    Nothing,
    Line(String),
    LineWith(Place),
}

use Wanted::*;

/// Our own words.
pub fn ours(program: &str, wanted: Wanted) -> String {
    match wanted {
        Nothing => String::new(),
        Line(words) => format!("{program}: {words}\n"),
        LineWith(place) if place.is_empty() => format!("{program}: the input is refused\n"),
        LineWith(place) => format!("{program}: {place} is refused\n"),
    }
}

pub fn fault(program: &str, wanted: Wanted, errors: &[u8]) -> Option<String> {
    let text = String::from_utf8_lossy(errors);
    let (good, wanted) = match wanted {
        Nothing => (text.is_empty(), String::from("nothing")),
        Line(words) => {
            let line = ours(program, Line(words));
            (text == line, format!("\"{}\"", line.escape_default()))
        }
        LineWith(place) => (
            is_line_of(program, &text) && names(&text, &place),
            format!("one line of {program} with \"{place}\""),
        ),
    };
    let got = errors.escape_ascii();
    (!good).then(|| format!("standard error: expected {wanted}, got \"{got}\""))
}

fn is_line_of(program: &str, text: &str) -> bool {
    let begins = text.starts_with(&format!("{program}: "));
    begins && text.ends_with('\n') && text.matches('\n').count() == 1
}

/// The number at the end of the place must be the whole number: "line 1" isn't named by "line 12".
fn names(text: &str, place: &str) -> bool {
    let mut pieces = text.split(place).skip(1);
    pieces.any(|after| !after.starts_with(|next: char| next.is_ascii_digit()))
}
