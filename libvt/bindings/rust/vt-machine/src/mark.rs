/// Why the display could leave a console.
#[derive(Clone, Copy, Debug, PartialEq, Eq)]
pub enum Cause {
    /// Nobody had to let it go.
    Free,
    /// This process let it go.
    Released(u8),
    /// This process handled the console's switches, and died.
    Died(u8),
}

/// What a call caused.
#[derive(Clone, Copy, Debug, PartialEq, Eq)]
pub enum Mark {
    /// Somebody asked for this console.
    Asked(u8),
    /// A signal was raised to a caller.
    Raised { caller: u8, signal: u8 },
    /// The display went from one console to another.
    Hopped { from: u8, to: u8, cause: Cause },
    /// This caller ended.
    Ended(u8),
}

/// The mark, unless a later version of the library has a kind that isn't known here.
pub(crate) fn mark(mark: &vt_sys::vt_mark) -> Option<Mark> {
    let cause = match mark.cause {
        0 => Cause::Free,
        process @ 1..=127 => Cause::Released(process),
        process => Cause::Died(process - 128),
    };
    match mark.kind {
        vt_sys::VT_MARK_ASKED => Some(Mark::Asked(mark.a)),
        vt_sys::VT_MARK_RAISED => Some(Mark::Raised { caller: mark.a, signal: mark.b }),
        vt_sys::VT_MARK_HOPPED => Some(Mark::Hopped { from: mark.a, to: mark.b, cause }),
        vt_sys::VT_MARK_ENDED => Some(Mark::Ended(mark.a)),
        _ => None,
    }
}
