//! Document 02's pages (E2) read a second time, in plain Rust and on its own: names and rows laid out, what the call gives for a sheet and leaves in
//! the page buffer, and the rows that a reader finds who knows the columns alone.

use crate::model::{self, Verdict, ACCEPTED};
use crate::sheet_model;

pub const COLUMN: usize = 13;
pub const COLUMNS: usize = 5;
/// "Lines are exactly 65 characters and a line feed"
pub const LINE: usize = 65;
pub const PAGE_ROWS: usize = 50;

// ---- the layout

/// "up to five columns of 13, names and numbers set right, spaces after the last column"
fn line<T: ToString>(fields: &[T]) -> String {
    let set: String = fields.iter().map(|field| format!("{:>COLUMN$}", field.to_string())).collect();
    format!("{set:<LINE$}\n")
}

/// "A page has the names, 50 rows (the last page 1 to 50), and `page`, a space and its number from 1, set right to character 65. No rows makes
/// one page."
pub fn pages(names: &[String], rows: &[Vec<u32>]) -> String {
    let mut parts: Vec<&[Vec<u32>]> = rows.chunks(PAGE_ROWS).collect();
    if parts.is_empty() {
        parts.push(&[]);
    }
    let mut text = String::new();
    for (k, part) in (1..).zip(parts) {
        text += &line(names);
        part.iter().for_each(|row| text += &line(row));
        text += &format!("{:>LINE$}\n", format!("page {k}"));
    }
    text
}

/// How many pages so many rows make.
pub fn page_count(rows: usize) -> usize {
    (rows.max(1) + PAGE_ROWS - 1) / PAGE_ROWS
}

/// 66 bytes for each row, and for two lines more on each page.
pub fn length(rows: usize) -> usize {
    (LINE + 1) * (2 * page_count(rows) + rows)
}

// ---- the call

/// What the call gives for a sheet, where the page buffer is long enough.
pub struct Answer {
    pub verdict: Verdict,
    /// the names and rows of the pages, where it accepts
    pub names: Vec<String>,
    pub rows: Vec<Vec<u32>>,
    pub text: Vec<u8>,
}

fn refused(verdict: Verdict) -> Answer {
    Answer { verdict, names: Vec::new(), rows: Vec::new(), text: Vec::new() }
}

/// "The call takes a sheet, lends itself what the sheet query does"; "refuses with 15, place 0, when more than five nodes are picked, just after 7".
pub fn answer(bytes: &[u8]) -> Answer {
    let sheet = match sheet_model::read(bytes) {
        Ok(sheet) => sheet,
        Err((_, line)) => return refused((14, line)),
    };
    let (feed, drawing) = (sheet.feed(), sheet.drawing());
    let checked = model::check_drawing(&feed, &drawing);
    if checked != ACCEPTED {
        return refused(checked);
    }
    let names: Vec<String> = sheet.picked().into_iter().map(|name| String::from_utf8_lossy(name).into_owned()).collect();
    if names.len() > COLUMNS {
        return refused((15, 0));
    }
    let (verdict, words) = sheet_model::ask(&feed, &drawing);
    if verdict != ACCEPTED {
        return refused(verdict);
    }
    let rows: Vec<Vec<u32>> = words.chunks(names.len()).map(<[u32]>::to_vec).collect();
    let text = pages(&names, &rows).into_bytes();
    Answer { verdict, names, rows, text }
}

impl Answer {
    /// Number and place and length with this page buffer, and what it then holds: "gives the pages' length in bytes, 0 when refused. A page buffer
    /// too short is 12, and any 12 zeroes it; past the pages, and on other refusals, it is untouched."
    pub fn put(&self, buffer: &mut [u8]) -> (Verdict, usize) {
        let short = self.verdict == ACCEPTED && self.text.len() > buffer.len();
        match if short { (12, 0) } else { self.verdict } {
            ACCEPTED => {
                buffer[..self.text.len()].copy_from_slice(&self.text);
                (ACCEPTED, self.text.len())
            }
            verdict => {
                if verdict.0 == 12 {
                    buffer.fill(0);
                }
                (verdict, 0)
            }
        }
    }
}

// ---- the reader

/// What stands in each column of a line, without the spaces before it; none where the line is not of its length.
fn columns(line: &[u8]) -> Option<Vec<String>> {
    let (end, text) = line.split_last()?;
    let right = *end == b'\n' && text.len() == LINE && text.iter().all(|byte| (b' '..=b'~').contains(byte));
    right.then(|| text.chunks(COLUMN).map(|column| String::from_utf8_lossy(column).trim_start().to_string()).collect())
}

/// The rows on the pages, and how many lines have none: "Read back by columns, the row lines are the query's rows in order and nothing more." A line
/// with a number in its first column is a row line: a name has no digits, and only a page's number leaves the first column empty.
pub fn read_back(text: &[u8]) -> Option<(Vec<Vec<u32>>, usize)> {
    let (mut rows, mut others) = (Vec::new(), 0);
    for line in text.chunks(LINE + 1) {
        let columns = columns(line)?;
        if columns[0].parse::<u32>().is_err() {
            others += 1;
            continue;
        }
        let fields = columns.iter().take_while(|field| !field.is_empty()).count();
        if columns[fields..].iter().any(|field| !field.is_empty()) {
            return None;
        }
        rows.push(columns[..fields].iter().map(|field| field.parse().ok()).collect::<Option<Vec<u32>>>()?);
    }
    Some((rows, others))
}
