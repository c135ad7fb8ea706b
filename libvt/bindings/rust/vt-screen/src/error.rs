use std::fmt;

/// Why a call did nothing.
#[derive(Clone, Copy, Debug, PartialEq, Eq)]
pub enum Error {
    /// A number is out of its range.
    Range,
    /// Memory ran out.
    NoMemory,
    /// No text draws this screen.
    NotDrawable,
    /// The keymap has a fault.
    Keymap(Fault),
    /// A code that the library's calls don't return.
    Other(u8),
}

/// The first fault of a keymap: its kind, and its line and column, both from 1.
#[derive(Clone, Copy, Debug, PartialEq, Eq)]
pub struct Fault {
    pub kind: u32,
    pub line: u32,
    pub column: u32,
}

impl fmt::Display for Error {
    fn fmt(&self, f: &mut fmt::Formatter<'_>) -> fmt::Result {
        match self {
            Error::Range => f.write_str("a number is out of its range"),
            Error::NoMemory => f.write_str("memory ran out"),
            Error::NotDrawable => f.write_str("no text draws this screen"),
            Error::Keymap(fault) => {
                write!(f, "fault {} of the keymap at line {}, column {}", fault.kind, fault.line, fault.column)
            }
            Error::Other(code) => write!(f, "code {code} of libvt"),
        }
    }
}

impl std::error::Error for Error {}

/// The error that a code is.
pub(crate) fn checked(code: u8) -> Result<(), Error> {
    match code {
        vt_sys::VT_OK => Ok(()),
        vt_sys::VT_RANGE => Err(Error::Range),
        vt_sys::VT_NO_MEMORY => Err(Error::NoMemory),
        vt_sys::VT_NOT_DRAWABLE => Err(Error::NotDrawable),
        code => Err(Error::Other(code)),
    }
}

/// The text that a call gives, in as much room as it takes.
pub(crate) fn text_of(room: usize, mut call: impl FnMut(*mut u8, usize, *mut usize) -> u8) -> Result<Vec<u8>, Error> {
    let mut text = vec![0; room.max(1)];
    let mut length = 0;
    let mut code = call(text.as_mut_ptr(), text.len(), &mut length);
    if code == vt_sys::VT_NO_ROOM {
        text.resize(length, 0);
        code = call(text.as_mut_ptr(), text.len(), &mut length);
    }
    checked(code)?;
    text.truncate(length);
    Ok(text)
}
