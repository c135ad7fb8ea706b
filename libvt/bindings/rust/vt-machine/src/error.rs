use std::fmt;
use vt_screen::Fault;

/// Why a call did nothing.
#[derive(Clone, Copy, Debug, PartialEq, Eq)]
pub enum Error {
    /// A number is out of its range, or there is no such call.
    Range,
    /// Memory ran out.
    NoMemory,
    /// No text draws this screen.
    NotDrawable,
    /// The keymap has a fault.
    Keymap(Fault),
    /// The journal has no room for the call.
    Full,
    /// The process has something that its last program left, or it ended, or it started with other rights.
    InUse,
    /// A code that the library's calls don't return.
    Other(u8),
}

impl fmt::Display for Error {
    fn fmt(&self, f: &mut fmt::Formatter<'_>) -> fmt::Result {
        match self {
            Error::Range => f.write_str("a number is out of its range, or there is no such call"),
            Error::NoMemory => f.write_str("memory ran out"),
            Error::NotDrawable => f.write_str("no text draws this screen"),
            Error::Keymap(fault) => {
                write!(f, "fault {} of the keymap at line {}, column {}", fault.kind, fault.line, fault.column)
            }
            Error::Full => f.write_str("the journal has no room for the call"),
            Error::InUse => f.write_str("the process can't be given to this program"),
            Error::Other(code) => write!(f, "code {code} of libvt"),
        }
    }
}

impl std::error::Error for Error {}

/// The error that a code is.
pub(crate) fn checked(code: u8) -> Result<(), Error> {
    match code {
        vt_sys::VT_OK => Ok(()),
        vt_sys::VT_MADE => Err(Error::InUse),
        vt_sys::VT_RANGE => Err(Error::Range),
        vt_sys::VT_NO_MEMORY => Err(Error::NoMemory),
        vt_sys::VT_NOT_DRAWABLE => Err(Error::NotDrawable),
        vt_sys::VT_FULL => Err(Error::Full),
        code => Err(Error::Other(code)),
    }
}
