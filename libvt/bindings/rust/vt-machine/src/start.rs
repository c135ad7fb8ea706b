/// A process of the start.
#[derive(Clone, Copy, Debug, Default, PartialEq, Eq)]
pub struct Process {
    /// 1 to 63, or 0 for none.
    pub home: u8,
    pub privileged: bool,
}

/// How a machine starts.
#[derive(Clone, Debug, PartialEq, Eq)]
pub struct Start {
    /// The size of every screen, 1 to 255.
    pub rows: u16,
    pub cols: u16,
    /// Those that are allocated, 1 to 63.
    pub consoles: Vec<u8>,
    /// The console in front: one that is allocated.
    pub front: u8,
    /// 1 to 4.
    pub keyboards: u8,
    /// Processes 1, 2 and so on: 64 at most.
    pub processes: Vec<Process>,
    /// A keymap text (keymaps(5)) that includes nothing.
    pub keymap: Vec<u8>,
    /// The most entries of the journal, at most 1,000,000.
    pub events: u32,
    /// The greatest sum of the charges of the journal, at most 1,073,741,824.
    pub bytes: u64,
}

impl Default for Start {
    /// Console 1 of 25 rows and 80 columns, a keyboard without keys, and no process.
    fn default() -> Start {
        Start {
            rows: 25,
            cols: 80,
            consoles: vec![1],
            front: 1,
            keyboards: 1,
            processes: Vec::new(),
            keymap: Vec::new(),
            events: 65_536,
            bytes: 67_108_864,
        }
    }
}
