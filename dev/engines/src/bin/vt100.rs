//! The rows of the crate vt100's screen.

fn main() {
    let (rows, cols) = engines::size();
    let mut parser = vt100::Parser::new(rows, cols, 0);
    engines::each_piece(|piece| parser.process(piece));
    let screen = parser.screen();
    engines::print((0..rows).map(|y| {
        let cells = (0..cols).filter_map(|x| screen.cell(y, x)).filter(|cell| !cell.is_wide_continuation());
        cells.map(|cell| if cell.has_contents() { cell.contents() } else { " ".to_string() }).collect()
    }));
}
