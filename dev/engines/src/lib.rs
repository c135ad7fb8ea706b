//! What both programs share: the words `screen R C`, the input in pieces, and the rows.

use std::io::{self, BufWriter, Read, Write};

/// Rows and columns.
pub fn size() -> (u16, u16) {
    let words: Vec<String> = std::env::args().collect();
    match &words[..] {
        [_, form, rows, cols] if form == "screen" => (rows.parse().expect("rows"), cols.parse().expect("columns")),
        _ => panic!("the words are screen R C"),
    }
}

/// Hands on the input in pieces.
pub fn each_piece(mut draw: impl FnMut(&[u8])) {
    let mut buffer = vec![0; 65_536];
    let mut input = io::stdin().lock();
    loop {
        match input.read(&mut buffer).expect("input") {
            0 => return,
            count => draw(&buffer[..count]),
        }
    }
}

/// Prints each row between two bars.
pub fn print(rows: impl Iterator<Item = String>) {
    let mut out = BufWriter::new(io::stdout().lock());
    for row in rows {
        writeln!(out, "|{row}|").expect("output");
    }
}
