// Cuts a text into lines and a line into fields; lines of circuits and traces are cut alike.

pub type Fields = Vec<Vec<u8>>;

pub struct Line<'a> {
    pub bytes: &'a [u8],
    pub closed: bool,
}

pub fn cut(text: &[u8]) -> Vec<Line<'_>> {
    let mut lines = Vec::new();
    for piece in text.split_inclusive(|byte| *byte == b'\n') {
        match piece.strip_suffix(b"\n") {
            Some(bytes) => lines.push(Line {
                bytes,
                closed: true,
            }),
            None => lines.push(Line {
                bytes: piece,
                closed: false,
            }),
        }
    }
    lines
}

pub fn fields(line: &[u8]) -> Vec<&[u8]> {
    line.split(|byte| *byte == b'\t').collect()
}

pub fn text(lines: &[Fields]) -> Vec<u8> {
    let mut text = Vec::new();
    for fields in lines {
        text.extend(fields.join(&b'\t'));
        text.push(b'\n');
    }
    text
}
