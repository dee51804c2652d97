// What the program `routes` prints for a file, where the grid has no holes, with
// its own limit and room or with others.
// The file is read here in another way than by a walk over its bytes: every
// refusal of the documents is looked for by itself, and the one at the first
// byte counts, there the one that is tested first.

use crate::answers::{limited, Pads, Run, BLANK, HOLE, LARGEST_CODE, LINE};

/// The numbers in the order in which they are tested at one byte.
const TESTED: [usize; 8] = [6, 1, 13, 15, 2, 3, 4, 5];

/// A refusal and the byte where it applies; ordered by byte, then by the
/// place of its number among those tested.
#[derive(Clone, Copy, PartialEq, Eq, PartialOrd, Ord)]
struct Refusal {
    byte: usize,
    rank: usize,
    number: usize,
    line: usize,
    field: usize,
}

fn refusal(byte: usize, number: usize, line: usize, field: usize) -> Refusal {
    let rank = TESTED.iter().position(|tested| *tested == number);
    Refusal {
        byte,
        rank: rank.expect("a number of a file"),
        number,
        line,
        field,
    }
}

/// One field: where it stands, its bytes, and whether it ends its line. The
/// byte that ended it is at start + text.len().
struct Field<'a> {
    line: usize,
    field: usize,
    start: usize,
    text: &'a [u8],
    last: bool,
}

impl Field<'_> {
    fn end(&self) -> usize {
        self.start + self.text.len()
    }

    fn value(&self) -> Option<i64> {
        std::str::from_utf8(self.text).ok()?.parse().ok()
    }

    fn in_header(&self) -> bool {
        self.line == 1
    }

    /// How many bytes stand before the first disallowed one. A field of a row
    /// is fine as `#` alone; any other field has digits only.
    fn before_disallowed(&self) -> Option<usize> {
        match self.text {
            [b'#', behind @ ..] if !self.in_header() => (!behind.is_empty()).then_some(1),
            text => text.iter().position(|byte| !byte.is_ascii_digit()),
        }
    }

    /// What an accepted field of a row says.
    fn cell(&self) -> i64 {
        match self.text {
            [] => BLANK,
            [b'#'] => HOLE,
            _ => self.value().expect("digits"),
        }
    }
}

/// The fields of the file, the last one being that in which the file ends.
fn fields(file: &[u8]) -> Vec<Field<'_>> {
    let mut found = Vec::new();
    let mut start = 0;
    for (line, text) in file.split(|byte| *byte == b'\n').enumerate() {
        let parts: Vec<&[u8]> = text.split(|byte| *byte == b',').collect();
        for (field, part) in parts.iter().enumerate() {
            let last = field + 1 == parts.len();
            found.push(Field {
                line: line + 1,
                field: field + 1,
                start,
                text: part,
                last,
            });
            start += part.len() + 1;
        }
    }
    found
}

/// H and W, where the first line is in order.
fn size(fields: &[Field]) -> Option<(usize, usize)> {
    let header: Vec<&Field> = fields.iter().filter(|field| field.in_header()).collect();
    let good = |field: &Field| field.value().filter(|value| (2..=16).contains(value));
    if header.len() != 2 || fields.len() == 2 {
        return None;
    }
    Some((good(header[0])? as usize, good(header[1])? as usize))
}

/// Refusals 1, 13, 15, 2, 3 and 4 of one field, on a line that must have `wanted`
/// fields.
fn field_refusals(field: &Field, wanted: usize, ended: bool, found: &mut Vec<Refusal>) {
    let (line, number) = (field.line, field.field);
    if let Some(at) = field.before_disallowed() {
        let after_digit = field.text[..at].iter().any(u8::is_ascii_digit);
        let disallowed = if after_digit { 13 } else { 1 };
        found.push(refusal(field.start + at, disallowed, line, number));
    }
    if let [b'0', b'0'..=b'9', ..] = field.text {
        found.push(refusal(field.start + 1, 15, line, number));
    }
    if field.text.len() > 10 {
        found.push(refusal(field.start + 10, 2, line, number));
    }
    if ended && field.value().is_some_and(|value| value > LARGEST_CODE) {
        found.push(refusal(field.end(), 3, line, number));
    }
    if ended && ((field.last && number < wanted) || (!field.last && number == wanted)) {
        found.push(refusal(field.end(), 4, line, number));
    }
}

/// Refusal 5, for a field of the first line; it applies where the line ends.
fn header_refusals(file: &[u8], field: &Field, found: &mut Vec<Refusal>) {
    let good = field.value().is_some_and(|value| (2..=16).contains(&value));
    let end = file.iter().position(|byte| *byte == b'\n');
    if let (false, Some(end)) = (good, end) {
        found.push(refusal(end, 5, 1, field.field));
    }
}

/// Refusal 6: the file ends too soon, or goes on after its last row.
fn length_refusals(file: &[u8], fields: &[Field], lines: usize, found: &mut Vec<Refusal>) {
    let ends_in = &fields[fields.len() - 1];
    if ends_in.line <= lines {
        found.push(refusal(file.len(), 6, ends_in.line, ends_in.field));
    }
    let after = fields.iter().find(|field| field.line > lines);
    if let Some(after) = after.filter(|after| after.start < file.len()) {
        found.push(refusal(after.start, 6, after.line, 1));
    }
}

/// The grid of a file, or number, line and field of its refusal.
pub fn read(file: &[u8]) -> Result<Pads, (usize, usize, usize)> {
    let fields = fields(file);
    let size = size(&fields);
    let mut found = Vec::new();
    for (index, field) in fields.iter().enumerate() {
        let ended = index + 1 < fields.len();
        if field.in_header() {
            field_refusals(field, 2, ended, &mut found);
            header_refusals(file, field, &mut found);
        } else if let Some((_, width)) = size {
            field_refusals(field, width, ended, &mut found);
        }
    }
    let lines = size.map_or(usize::MAX, |(height, _)| height + 1);
    length_refusals(file, &fields, lines, &mut found);
    if let Some(first) = found.iter().min() {
        return Err((first.number, first.line, first.field));
    }
    let (height, width) = size.expect("a size where nothing is refused");
    let cells = fields[2..2 + height * width]
        .iter()
        .map(Field::cell)
        .collect();
    Ok(Pads {
        height,
        width,
        cells,
    })
}

/// The codes of a record: right + 2 * down for each pad in index order.
fn codes(pads: &Pads, record: &[u8]) -> String {
    let (rows, columns) = (2 * pads.height - 1, 2 * pads.width - 1);
    let line = |row: usize, column: usize| {
        (row < rows && column < columns && record[row * columns + column] == LINE) as u8
    };
    let mut text = String::new();
    for pad in 0..pads.height * pads.width {
        let (row, column) = (2 * (pad / pads.width), 2 * (pad % pads.width));
        text.push((b'0' + line(row, column + 1) + 2 * line(row + 1, column)) as char);
    }
    text
}

fn list(pads: &Pads, run: &Run) -> String {
    let mut text = format!(
        "{},{},{},{}\n",
        run.layouts, run.visited, run.fewest, run.outcome
    );
    for (index, record) in run.bytes.chunks(pads.record_length()).enumerate() {
        let lines = record.iter().filter(|byte| **byte == LINE).count();
        text += &format!("{},{},{}\n", index + 1, lines, codes(pads, record));
    }
    text
}

/// Nothing where the grid has holes: the reference cannot search it.
pub fn printed(file: &[u8], limit: u64, room: usize) -> Option<String> {
    match read(file) {
        Ok(pads) if pads.has_hole() => None,
        Ok(pads) => Some(list(&pads, &limited(&pads, limit, room))),
        Err((number, line, field)) => Some(format!("refused,{number},{line},{field}\n")),
    }
}
