//! Lines of a table of comma-separated values.

/// The cells of a line; a cell between quotation marks may hold commas.
pub fn cells(line: &str) -> Vec<String> {
    let mut cells = Vec::new();
    let mut cell = String::new();
    let mut quoted = false;
    for sign in line.chars() {
        match (sign, quoted) {
            ('"', _) => quoted = !quoted,
            (',', false) => cells.push(std::mem::take(&mut cell)),
            _ => cell.push(sign),
        }
    }
    cells.push(cell);
    cells
}

/// The entries `KEY=WORDS` of a cell, or `FIRST..LAST=WORDS`.
pub fn entries(cell: &str) -> Option<Vec<(i64, i64, String)>> {
    cell.split(';').filter(|entry| !entry.is_empty()).map(entry).collect()
}

/// One entry of a cell.
fn entry(text: &str) -> Option<(i64, i64, String)> {
    let (key, words) = text.split_once('=')?;
    let (first, last) = key.split_once("..").unwrap_or((key, key));
    Some((first.parse().ok()?, last.parse().ok()?, words.to_string()))
}
