//! The screen machine and the keyboard of the Linux text console, by libvt.
//!
//!     let mut screen = vt_screen::Screen::new(2, 5)?;
//!     screen.feed(b"abcdefghijk", |event| println!("{event:?}"))?;
//!     assert_eq!(screen.row_text(0)?, "fghij");
//!     # Ok::<(), vt_screen::Error>(())
//!
//! Rows and columns are counted from 0, from the top left. A value of these types may go to another thread, and threads
//! may read one at once. No call panics.

mod error;
mod keyboard;
mod screen;

pub use error::{Error, Fault};
pub use keyboard::{Action, KeyEvent, KeyModes, KeyState, Keyboard, Mode, Pair};
pub use screen::{Cell, Colour, Cursor, Event, Screen, columns};
