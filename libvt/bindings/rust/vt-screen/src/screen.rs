use crate::error::{checked, text_of, Error};
use crate::keyboard::KeyModes;
use std::ptr;

const OUTS: usize = 64;
const ROWS: usize = 16;

/// A screen of 1 to 255 rows and columns (console_codes(4)).
pub struct Screen {
    handle: vt_sys::vt_screen,
}

// The library proves that a handle may go to another thread, and that calls which only read may use it at once.
unsafe impl Send for Screen {}
unsafe impl Sync for Screen {}

/// What a text asks for besides drawing.
#[derive(Clone, Debug, PartialEq, Eq)]
pub enum Event {
    /// Bytes for the program's input.
    Report(Vec<u8>),
    /// The console of this number has to come to the front.
    SwitchTo(u16),
    /// The console that was in front before has to come to the front.
    SwitchLast,
    /// The keyboard's lights: the sum of Scroll Lock 1, Num Lock 2 and Caps Lock 4.
    Lights(u16),
    Bell,
}

/// A code point and an attribute byte. The right half of a character of two columns has no character.
#[derive(Clone, Copy, Debug, PartialEq, Eq)]
pub struct Cell {
    pub code: u32,
    pub attribute: u8,
}

impl Cell {
    pub fn character(self) -> Option<char> {
        char::from_u32(self.code)
    }

    /// The colour of the character: the sum of blue 1, green 2, red 4, bright 8.
    pub fn colour(self) -> u8 {
        self.attribute % 16
    }

    /// The colour behind it.
    pub fn background(self) -> u8 {
        self.attribute / 16 % 8
    }

    pub fn blinks(self) -> bool {
        self.attribute >= 128
    }
}

#[derive(Clone, Copy, Debug, PartialEq, Eq)]
pub struct Cursor {
    pub row: u16,
    pub column: u16,
    pub visible: bool,
}

#[derive(Clone, Copy, Debug, PartialEq, Eq)]
pub struct Colour {
    pub red: u8,
    pub green: u8,
    pub blue: u8,
}

impl Screen {
    /// A blank screen.
    pub fn new(rows: u32, cols: u32) -> Result<Screen, Error> {
        let mut handle = vt_sys::vt_screen { at: ptr::null_mut() };
        checked(unsafe { vt_sys::vt_screen_new(&mut handle, rows, cols) })?;
        Ok(Screen { handle })
    }

    /// Draws the bytes, however they are cut into calls, and gives what they ask for to `hear`, in order.
    pub fn feed(&mut self, mut text: &[u8], mut hear: impl FnMut(Event)) -> Result<(), Error> {
        let mut outs = [vt_sys::vt_out::default(); OUTS];
        while !text.is_empty() {
            let mut fed = vt_sys::vt_fed::default();
            checked(unsafe {
                vt_sys::vt_screen_feed(&mut self.handle, text.as_ptr(), text.len(), outs.as_mut_ptr(), OUTS, &mut fed)
            })?;
            outs[..fed.outs].iter().filter_map(event).for_each(&mut hear);
            text = &text[fed.taken..];
        }
        Ok(())
    }

    /// Draws the bytes as `feed` does, and gives `keep` the cells of each row that falls out at the top, from its left:
    /// a line feed in the last row moves it out. What is deleted or erased, and what a resize loses, isn't given.
    pub fn feed_rows(
        &mut self,
        mut text: &[u8],
        mut hear: impl FnMut(Event),
        mut keep: impl FnMut(Vec<Cell>),
    ) -> Result<(), Error> {
        let cols = usize::from(self.size().1);
        let mut outs = [vt_sys::vt_out::default(); OUTS];
        let mut cells = vec![vt_sys::vt_cell::default(); ROWS * cols];
        while !text.is_empty() {
            let mut fed = vt_sys::vt_fed::default();
            checked(unsafe {
                vt_sys::vt_screen_feed_rows(
                    &mut self.handle,
                    text.as_ptr(),
                    text.len(),
                    outs.as_mut_ptr(),
                    OUTS,
                    cells.as_mut_ptr(),
                    cells.len(),
                    &mut fed,
                )
            })?;
            outs[..fed.outs].iter().filter_map(event).for_each(&mut hear);
            cells[..fed.rows * cols].chunks(cols).map(row_of).for_each(&mut keep);
            text = &text[fed.taken..];
        }
        Ok(())
    }

    /// Draws the bytes, and drops what they ask for.
    pub fn write(&mut self, text: &[u8]) -> Result<(), Error> {
        checked(unsafe { vt_sys::vt_screen_write(&mut self.handle, text.as_ptr(), text.len()) })
    }

    fn state(&self) -> vt_sys::vt_state {
        let mut state = vt_sys::vt_state::default();
        unsafe { vt_sys::vt_screen_state(&self.handle, &mut state) };
        state
    }

    /// How many rows and columns the screen has.
    pub fn size(&self) -> (u16, u16) {
        let state = self.state();
        (state.rows, state.cols)
    }

    pub fn cursor(&self) -> Cursor {
        let state = self.state();
        Cursor { row: state.y, column: state.x, visible: state.visible != 0 }
    }

    /// The modes that keys depend on.
    pub fn key_modes(&self) -> KeyModes {
        let modes = self.state().modes;
        KeyModes {
            cursor_keys: modes.cursor_keys != 0,
            keypad: modes.keypad != 0,
            repeat: modes.repeat != 0,
            newline: modes.newline_mode != 0,
        }
    }

    /// Whether the screen is shown reversed (DECSCNM).
    pub fn is_reversed(&self) -> bool {
        self.state().reverse != 0
    }

    pub fn cell(&self, row: u32, col: u32) -> Result<Cell, Error> {
        let mut cell = vt_sys::vt_cell::default();
        checked(unsafe { vt_sys::vt_screen_cell(&self.handle, row, col, &mut cell) })?;
        Ok(Cell { code: cell.code, attribute: cell.attr })
    }

    /// The cells of a row, from its left.
    pub fn cells(&self, row: u32) -> Result<Vec<Cell>, Error> {
        let mut cells = vec![vt_sys::vt_cell::default(); usize::from(self.size().1)];
        checked(unsafe { vt_sys::vt_screen_row(&self.handle, row, cells.as_mut_ptr(), cells.len()) })?;
        Ok(row_of(&cells))
    }

    /// The characters of a row.
    pub fn row_text(&self, row: u32) -> Result<String, Error> {
        let text = text_of(4 * 255, |at, room, length| unsafe {
            vt_sys::vt_screen_row_text(&self.handle, row, at, room, length)
        })?;
        Ok(String::from_utf8_lossy(&text).into_owned())
    }

    /// Remembers the cells as they are, for `changed_rows`.
    pub fn mark(&mut self) -> Result<(), Error> {
        checked(unsafe { vt_sys::vt_screen_mark(&mut self.handle) })
    }

    /// Whether each row differs from the cells that `mark` remembered; all of them do, if there are none.
    pub fn changed_rows(&self) -> Vec<bool> {
        let mut rows = vec![1; usize::from(self.size().0)];
        unsafe { vt_sys::vt_screen_changed(&self.handle, rows.as_mut_ptr(), rows.len()) };
        rows.into_iter().map(|row| row != 0).collect()
    }

    /// Gives the screen another size.
    pub fn resize(&mut self, rows: u32, cols: u32) -> Result<(), Error> {
        checked(unsafe { vt_sys::vt_screen_resize(&mut self.handle, rows, cols) })
    }

    /// The colours 0 to 15, in the order of SGR.
    pub fn palette(&self) -> [Colour; 16] {
        let mut colours = [vt_sys::vt_colour::default(); 16];
        unsafe { vt_sys::vt_screen_palette(&self.handle, colours.as_mut_ptr(), colours.len()) };
        colours.map(parts)
    }

    pub fn set_colour(&mut self, number: u32, colour: Colour) -> Result<(), Error> {
        let Colour { red, green, blue } = colour;
        checked(unsafe { vt_sys::vt_screen_set_colour(&mut self.handle, number, red, green, blue) })
    }

    /// Sets the user's table of characters (ESC ( K).
    pub fn set_user(&mut self, words: &[u16; 256]) -> Result<(), Error> {
        checked(unsafe { vt_sys::vt_screen_set_user(&mut self.handle, words.as_ptr()) })
    }

    /// The text that draws this screen on a terminal of its size.
    pub fn redraw(&self) -> Result<Vec<u8>, Error> {
        text_of(4096, |at, room, length| unsafe { vt_sys::vt_screen_redraw(&self.handle, at, room, length) })
    }

    /// The same for a terminal that shows the cells that `mark` remembered: only rows that differ are in the text.
    pub fn redraw_changes(&self) -> Result<Vec<u8>, Error> {
        text_of(4096, |at, room, length| unsafe {
            vt_sys::vt_screen_redraw_changes(&self.handle, at, room, length)
        })
    }

    /// The text of `redraw` for the nearest screen that a text draws: this one, except the parts of `left_out`.
    pub fn redraw_near(&self) -> Result<Vec<u8>, Error> {
        text_of(4096, |at, room, length| unsafe { vt_sys::vt_screen_redraw_near(&self.handle, at, room, length) })
    }

    /// The text of `redraw_changes` for that screen.
    pub fn redraw_changes_near(&self) -> Result<Vec<u8>, Error> {
        text_of(4096, |at, room, length| unsafe {
            vt_sys::vt_screen_redraw_changes_near(&self.handle, at, room, length)
        })
    }

    /// What no text makes of this screen, a sum of `enum vt_left_out` of `vt.h`: 0 if `redraw` draws it.
    pub fn left_out(&self) -> u32 {
        let mut parts = 0;
        unsafe { vt_sys::vt_screen_left_out(&self.handle, &mut parts) };
        parts
    }

    /// The screen as a picture in SVG 1.1.
    pub fn picture(&self) -> Result<String, Error> {
        let text =
            text_of(16384, |at, room, length| unsafe { vt_sys::vt_screen_picture(&self.handle, at, room, length) })?;
        Ok(String::from_utf8_lossy(&text).into_owned())
    }
}

impl Drop for Screen {
    fn drop(&mut self) {
        unsafe { vt_sys::vt_screen_free(&mut self.handle) }
    }
}

/// How many columns a character takes: 1 or 2, or 0 for one that joins the character before it.
pub fn columns(character: char) -> u8 {
    unsafe { vt_sys::vt_columns(u32::from(character)) }
}

fn row_of(cells: &[vt_sys::vt_cell]) -> Vec<Cell> {
    cells.iter().map(|cell| Cell { code: cell.code, attribute: cell.attr }).collect()
}

fn parts(colour: vt_sys::vt_colour) -> Colour {
    Colour { red: colour.red, green: colour.green, blue: colour.blue }
}

fn event(out: &vt_sys::vt_out) -> Option<Event> {
    match out.kind {
        vt_sys::VT_REPORT => Some(Event::Report(out.text[..usize::from(out.length)].to_vec())),
        vt_sys::VT_SWITCH_TO => Some(Event::SwitchTo(out.number)),
        vt_sys::VT_SWITCH_LAST => Some(Event::SwitchLast),
        vt_sys::VT_LIGHTS => Some(Event::Lights(out.number)),
        vt_sys::VT_BELL => Some(Event::Bell),
        _ => None,
    }
}
