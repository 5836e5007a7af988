//! Lines and columns, both from 1, columns in bytes: document 02, No. 6. CR LF is
//! one line end, CR or LF alone is one.

/// A place in a text, with its line and its column.
#[derive(Clone, Copy, Debug, PartialEq, Eq)]
pub struct Spot {
    pub place: u32,
    pub line: u32,
    pub column: u32,
}

/// How many bytes a line end has that begins with a CR or LF.
pub fn line_end(first: u8, second: Option<u8>) -> usize {
    match (first, second) {
        (b'\r', Some(b'\n')) => 2,
        _ => 1,
    }
}

fn is_line_end(byte: &u8) -> bool {
    matches!(byte, b'\r' | b'\n')
}

/// Where the first CR or LF of these bytes is.
fn first_end(bytes: &[u8]) -> Option<usize> {
    // Many bytes at a time: most chunks have none.
    const CHUNK: usize = 32;
    let has_none = |chunk: &&[u8]| {
        !chunk
            .iter()
            .fold(false, |any, byte| any | is_line_end(byte))
    };
    let passed = CHUNK * bytes.chunks_exact(CHUNK).take_while(has_none).count();
    let further = bytes[passed..].iter().position(is_line_end)?;
    Some(passed + further)
}

/// Where the second line of these bytes begins and all further ones: behind each
/// line end.
pub fn later_lines(bytes: &[u8]) -> impl Iterator<Item = usize> + '_ {
    let mut beginning = 0;
    std::iter::from_fn(move || {
        let end = beginning + first_end(&bytes[beginning..])?;
        beginning = end + line_end(bytes[end], bytes.get(end + 1).copied());
        Some(beginning)
    })
}

impl Spot {
    /// The place 0 of any text.
    pub const FIRST: Spot = Spot {
        place: 0,
        line: 1,
        column: 1,
    };

    /// A place on the line with this number, which begins at a place of its own.
    pub fn on_line(place: usize, line: usize, beginning: usize) -> Spot {
        Spot {
            place: place as u32,
            line: line as u32,
            column: (place - beginning + 1) as u32,
        }
    }

    /// The line and column of a place, from the text alone: of the lines that
    /// begin at or before it, the last.
    pub fn of(text: &[u8], place: usize) -> Spot {
        let before = later_lines(text).take_while(|beginning| *beginning <= place);
        let last = |(line, _), beginning| (line + 1, beginning);
        let (line, beginning) = before.fold((1, 0), last);
        Spot::on_line(place, line, beginning)
    }
}
