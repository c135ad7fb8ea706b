//! Draws standard input on a screen and prints its rows between bars, as `vt screen ROWS COLUMNS` does.
use std::error::Error;
use std::io::{stdin, Read};
use vt_screen::Screen;

fn main() -> Result<(), Box<dyn Error>> {
    let mut sizes = std::env::args().skip(1).map(|word| word.parse());
    let (Some(rows), Some(cols)) = (sizes.next(), sizes.next()) else {
        return Err("usage: screen ROWS COLUMNS".into());
    };
    let mut screen = Screen::new(rows?, cols?)?;
    let mut text = Vec::new();
    stdin().read_to_end(&mut text)?;
    screen.feed(&text, |_| ())?;
    for row in 0..u32::from(screen.size().0) {
        println!("|{}|", screen.row_text(row)?);
    }
    Ok(())
}
