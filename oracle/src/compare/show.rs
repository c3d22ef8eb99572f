//! Texts made readable for a person.
//!
//! Assumes that what is shown may hold any byte: tabs are shown as arrows,
//! and every other byte that cannot be seen as its number.

use crate::desk::lines::{lines, LINE_END, TAB};

/// Longer lines are cut when shown.
const LONGEST_SHOWN_LINE: usize = 300;

/// Longer texts are shown only about the line that matters.
const LONGEST_SHOWN_TEXT: usize = 1_500;

/// So many lines are shown on either side of the line that matters.
const LINES_AROUND: usize = 3;

/// The line without its line end; a line that has none is marked.
pub fn readable_line(line: &[u8]) -> String {
    let (content, mark) = match line.split_last() {
        Some((&LINE_END, content)) => (content, ""),
        _ => (line, " (no line end)"),
    };
    let shown = &content[..content.len().min(LONGEST_SHOWN_LINE)];
    let mut readable: String = shown.iter().map(|&byte| readable_byte(byte)).collect();
    if shown.len() < content.len() {
        readable += &format!("... ({} bytes)", content.len());
    }
    readable + mark
}

fn readable_byte(byte: u8) -> String {
    match byte {
        TAB => "→".to_string(),
        // The backslash is shown by its number, as it begins the numbers.
        b'\\' => format!("\\x{byte:02x}"),
        b' '..=b'~' => char::from(byte).to_string(),
        _ => format!("\\x{byte:02x}"),
    }
}

/// The lines of the text with their numbers. Of a long text only the first
/// line and those about the line that matters, counted from 1, are shown.
pub fn numbered_lines(text: &[u8], line_that_matters: usize) -> String {
    let whole = text.len() <= LONGEST_SHOWN_TEXT;
    let mut shown = format!("{} bytes\n", text.len());
    let mut left_out = false;
    for (line_number, line) in (1..).zip(lines(text)) {
        let near = line_that_matters.abs_diff(line_number) <= LINES_AROUND;
        if whole || near || line_number == 1 {
            let mark = if line_number == line_that_matters {
                '>'
            } else {
                ' '
            };
            shown += &format!("{mark}{line_number:5}  {}\n", readable_line(line));
            left_out = false;
        } else if !left_out {
            shown += "   ...\n";
            left_out = true;
        }
    }
    shown
}
