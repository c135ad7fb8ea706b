/// The answer of a call, by its words in a journal.
#[derive(Clone, Debug, PartialEq, Eq)]
pub enum Reply {
    Ok,
    Num(u32),
    /// The console in front; bit n of `consoles` stands for console n, which is allocated.
    State {
        front: u8,
        consoles: u64,
    },
    Bytes(Vec<u8>),
    /// The words of a console's mode (VT_GETMODE).
    Mode {
        mode: u16,
        waitv: u16,
        relsig: u16,
        acqsig: u16,
        frsig: u16,
    },
    /// The action of a key.
    Act {
        kind: u16,
        value: u16,
    },
    /// The caller waits. Once `Machine::wait` has another state than `Open`, it makes the call `waitend`.
    Wait,
    /// The signals that were pending: bit s - 1 for signal s.
    Sigs(u64),
    /// The call is refused with this error number of Linux.
    Err(u32),
}

/// The answer, with its bytes in the first places of `bytes`.
pub(crate) fn reply(reply: &vt_sys::vt_reply, bytes: &[u8]) -> Reply {
    let [mode, waitv, relsig, acqsig, frsig, _] = reply.words;
    match reply.kind {
        vt_sys::VT_REPLY_NUM => Reply::Num(reply.number),
        vt_sys::VT_REPLY_STATE => Reply::State { front: reply.number as u8, consoles: reply.mask },
        vt_sys::VT_REPLY_BYTES => Reply::Bytes(bytes.iter().take(reply.length as usize).copied().collect()),
        vt_sys::VT_REPLY_MODE => Reply::Mode { mode, waitv, relsig, acqsig, frsig },
        vt_sys::VT_REPLY_ACT => Reply::Act { kind: mode, value: waitv },
        vt_sys::VT_REPLY_WAIT => Reply::Wait,
        vt_sys::VT_REPLY_SIGS => Reply::Sigs(reply.mask),
        vt_sys::VT_REPLY_ERR => Reply::Err(reply.number),
        _ => Reply::Ok,
    }
}
