//! The rows of the crate alacritty_terminal's grid, without history.

use alacritty_config::SerdeReplace;
use alacritty_terminal::ansi::Processor;
use alacritty_terminal::config::Config;
use alacritty_terminal::event::VoidListener;
use alacritty_terminal::grid::Dimensions;
use alacritty_terminal::index::{Column, Line};
use alacritty_terminal::term::{cell::Flags, Term};

struct Size {
    rows: usize,
    cols: usize,
}

impl Dimensions for Size {
    fn total_lines(&self) -> usize {
        self.rows
    }

    fn screen_lines(&self) -> usize {
        self.rows
    }

    fn columns(&self) -> usize {
        self.cols
    }
}

fn main() {
    let (rows, cols) = engines::size();
    let size = Size { rows: rows.into(), cols: cols.into() };
    let mut config = Config::default();
    config.scrolling.replace("history", serde_yaml::Value::from(0)).expect("no history");
    let mut term = Term::new(&config, &size, VoidListener);
    let mut parser = Processor::new();
    engines::each_piece(|piece| piece.iter().for_each(|byte| parser.advance(&mut term, *byte)));
    engines::print((0..size.rows).map(|y| {
        let cells = (0..size.cols).map(|x| &term.grid()[Line(y as i32)][Column(x)]);
        cells.filter(|cell| !cell.flags.contains(Flags::WIDE_CHAR_SPACER)).map(|cell| cell.c).collect()
    }));
}
