use crate::error::{checked, Error};
use crate::mark::{mark, Mark};
use crate::reply::{reply, Reply};
use crate::start::{Process, Start};
use std::ffi::CString;
use std::ptr;
use vt_screen::{Cell, Fault};

/// The most bytes of an answer, and the most marks of a call.
const ROOM: usize = 260_100;
const MARKS: usize = 3072;

/// The display, and the numbers of the journal.
#[derive(Clone, Copy, Debug, PartialEq, Eq)]
pub struct Display {
    pub front: u8,
    /// The console that waits for the display.
    pub pending: Option<u8>,
    pub locked: bool,
    /// The switches so far.
    pub hops: u64,
    pub entries: u32,
    /// The entries that `Machine::forget` took.
    pub gone: u64,
}

/// A console.
#[derive(Clone, Copy, Debug, PartialEq, Eq)]
pub struct Console {
    pub rows: u16,
    pub cols: u16,
    /// Where the cursor is.
    pub row: u16,
    pub column: u16,
    pub visible: bool,
    /// How many bells rang, and the bytes in the input queue.
    pub bells: u32,
    pub queued: u32,
    /// The process that handles its switches.
    pub owner: Option<u8>,
    pub graphics: bool,
}

/// The state of a caller's wait.
#[derive(Clone, Copy, Debug, PartialEq, Eq)]
pub enum Wait {
    None,
    Open,
    /// It ended with success.
    Done,
    /// A signal ended it, or that everybody waited.
    Broken,
}

/// A machine and its journal.
pub struct Machine {
    handle: vt_sys::vt_machine,
    bytes: Vec<u8>,
}

// The library proves that a handle may go to another thread, and that calls which only read may use it at once.
unsafe impl Send for Machine {}
unsafe impl Sync for Machine {}

fn seat(process: &Process) -> vt_sys::vt_seat {
    vt_sys::vt_seat { home: process.home, privileged: process.privileged.into(), spare: [0; 6] }
}

fn own_cells(cells: &[Cell]) -> Vec<vt_sys::vt_cell> {
    cells.iter().map(|cell| vt_sys::vt_cell { code: cell.code, attr: cell.attribute, spare: [0; 3] }).collect()
}

fn some(number: u8) -> Option<u8> {
    (number != 0).then_some(number)
}

impl Machine {
    /// A machine at its start, with an empty journal.
    pub fn new(start: &Start) -> Result<Machine, Error> {
        let mut handle = vt_sys::vt_machine { at: ptr::null_mut() };
        let seats: Vec<_> = start.processes.iter().map(seat).collect();
        let mut fault = vt_sys::vt_fault::default();
        let mut consoles = 0;
        for &n in &start.consoles {
            consoles |= 1u64.checked_shl(n.into()).ok_or(Error::Range)?;
        }
        let (keymap, n) = (start.keymap.as_ptr(), start.keymap.len());
        let start = vt_sys::vt_start {
            consoles,
            bytes: start.bytes,
            events: start.events,
            rows: start.rows,
            cols: start.cols,
            front: start.front,
            keyboards: start.keyboards,
            spare: [0; 22],
        };
        let code =
            unsafe { vt_sys::vt_machine_new(&mut handle, &start, seats.as_ptr(), seats.len(), keymap, n, &mut fault) };
        if code == vt_sys::VT_FAULT {
            return Err(Error::Keymap(Fault { kind: fault.kind, line: fault.line, column: fault.column }));
        }
        checked(code)?;
        Ok(Machine { handle, bytes: vec![0; ROOM] })
    }

    /// Makes a call of a caller, by its name, its numbers in the order of its words, and its bytes: one for `scan`, any
    /// for `write`, `setfunc`, `setdia`, `setmap` and `setpal`.
    pub fn call(&mut self, caller: u32, name: &str, numbers: &[u16], held: &[u8]) -> Result<Reply, Error> {
        let name = CString::new(name).map_err(|_| Error::Range)?;
        let mut found = vt_sys::vt_reply::default();
        checked(unsafe {
            vt_sys::vt_machine_call(
                &mut self.handle,
                caller,
                name.as_ptr(),
                numbers.as_ptr(),
                numbers.len(),
                held.as_ptr(),
                held.len(),
                &mut found,
                self.bytes.as_mut_ptr(),
                self.bytes.len(),
            )
        })?;
        Ok(reply(&found, &self.bytes))
    }

    /// Gives a process to a program with this home and privilege.
    pub fn admit(&mut self, number: u32, process: &Process) -> Result<(), Error> {
        checked(unsafe { vt_sys::vt_machine_admit(&mut self.handle, number, &seat(process)) })
    }

    /// Empties the journal. The machine goes on.
    pub fn forget(&mut self) {
        unsafe { vt_sys::vt_machine_forget(&mut self.handle) };
    }

    /// What the last call caused, in order.
    pub fn marks(&self) -> Vec<Mark> {
        let (mut marks, mut count) = (vec![vt_sys::vt_mark::default(); MARKS], 0);
        unsafe { vt_sys::vt_machine_marks(&self.handle, marks.as_mut_ptr(), MARKS, &mut count) };
        marks.iter().take(count).filter_map(mark).collect()
    }

    /// The state of a caller's wait.
    pub fn wait(&self, caller: u32) -> Result<Wait, Error> {
        let mut state = 0;
        checked(unsafe { vt_sys::vt_machine_wait(&self.handle, caller, &mut state) })?;
        Ok(match state {
            vt_sys::VT_WAIT_OPEN => Wait::Open,
            vt_sys::VT_WAIT_DONE => Wait::Done,
            vt_sys::VT_WAIT_BROKEN => Wait::Broken,
            _ => Wait::None,
        })
    }

    pub fn display(&self) -> Display {
        let mut found = vt_sys::vt_display::default();
        unsafe { vt_sys::vt_machine_display(&self.handle, &mut found) };
        Display {
            front: found.front,
            pending: some(found.pending),
            locked: found.locked != 0,
            hops: found.hops,
            entries: found.entries,
            gone: found.gone,
        }
    }

    /// A console that is allocated.
    pub fn console(&self, number: u32) -> Result<Console, Error> {
        let mut found = vt_sys::vt_console::default();
        checked(unsafe { vt_sys::vt_machine_console(&self.handle, number, &mut found) })?;
        Ok(Console {
            rows: found.rows,
            cols: found.cols,
            row: found.y,
            column: found.x,
            visible: found.visible != 0,
            bells: found.bells,
            queued: found.queued,
            owner: some(found.owner),
            graphics: found.graphics != 0,
        })
    }

    /// The cells of a row of a console, from its left.
    pub fn cells(&self, console: u32, row: u32) -> Result<Vec<Cell>, Error> {
        let mut cells = vec![vt_sys::vt_cell::default(); usize::from(self.console(console)?.cols)];
        checked(unsafe { vt_sys::vt_machine_row(&self.handle, console, row, cells.as_mut_ptr(), cells.len()) })?;
        Ok(cells.iter().map(|cell| Cell { code: cell.code, attribute: cell.attr }).collect())
    }

    /// The text that draws a console's screen on a terminal of its size.
    pub fn redraw(&self, console: u32) -> Result<Vec<u8>, Error> {
        self.text(|handle, at, room, length| unsafe { vt_sys::vt_machine_redraw(handle, console, at, room, length) })
    }

    /// All cells of a console, row by row from the top left.
    pub fn all_cells(&self, console: u32) -> Result<Vec<Cell>, Error> {
        let found = self.console(console)?;
        let mut cells = vec![vt_sys::vt_cell::default(); usize::from(found.rows) * usize::from(found.cols)];
        checked(unsafe { vt_sys::vt_machine_cells(&self.handle, console, cells.as_mut_ptr(), cells.len()) })?;
        Ok(cells.iter().map(|cell| Cell { code: cell.code, attribute: cell.attr }).collect())
    }

    /// The text of `redraw` for a terminal of so many columns that shows these cells, row by row from the top left: only
    /// rows that differ are in it. `Error::Range` if the terminal hasn't the console's size.
    pub fn redraw_changes(&self, console: u32, shown: &[Cell], cols: u32) -> Result<Vec<u8>, Error> {
        let (cells, count) = (own_cells(shown), shown.len());
        self.text(|handle, at, room, length| unsafe {
            vt_sys::vt_machine_redraw_changes(handle, console, cells.as_ptr(), count, cols, at, room, length)
        })
    }

    /// The text of `redraw` for the nearest screen that a text draws.
    pub fn redraw_near(&self, console: u32) -> Result<Vec<u8>, Error> {
        self.text(|handle, at, room, length| unsafe {
            vt_sys::vt_machine_redraw_near(handle, console, at, room, length)
        })
    }

    /// The text of `redraw_changes` for that screen.
    pub fn redraw_changes_near(&self, console: u32, shown: &[Cell], cols: u32) -> Result<Vec<u8>, Error> {
        let (cells, count) = (own_cells(shown), shown.len());
        self.text(|handle, at, room, length| unsafe {
            vt_sys::vt_machine_redraw_changes_near(handle, console, cells.as_ptr(), count, cols, at, room, length)
        })
    }

    /// A console as a picture in SVG.
    pub fn picture(&self, console: u32) -> Result<String, Error> {
        let text = self.text(|handle, at, room, length| unsafe {
            vt_sys::vt_machine_picture(handle, console, at, room, length)
        })?;
        Ok(String::from_utf8_lossy(&text).into_owned())
    }

    /// The line of an entry of the journal, counted from 0, with its line feed.
    pub fn entry(&self, index: u32) -> Result<String, Error> {
        let text =
            self.text(|handle, at, room, length| unsafe { vt_sys::vt_machine_entry(handle, index, at, room, length) })?;
        Ok(String::from_utf8_lossy(&text).into_owned())
    }

    /// The journal's text in version 2.
    pub fn journal(&self) -> Result<String, Error> {
        let text =
            self.text(|handle, at, room, length| unsafe { vt_sys::vt_machine_journal(handle, at, room, length) })?;
        Ok(String::from_utf8_lossy(&text).into_owned())
    }

    /// The text that a call gives, in as much room as it takes.
    fn text(
        &self,
        call: impl Fn(*const vt_sys::vt_machine, *mut u8, usize, *mut usize) -> u8,
    ) -> Result<Vec<u8>, Error> {
        let (mut text, mut length) = (vec![0; 256], 0);
        let mut code = call(&self.handle, text.as_mut_ptr(), text.len(), &mut length);
        if code == vt_sys::VT_NO_ROOM {
            text.resize(length, 0);
            code = call(&self.handle, text.as_mut_ptr(), text.len(), &mut length);
        }
        checked(code)?;
        text.truncate(length);
        Ok(text)
    }
}

impl Drop for Machine {
    fn drop(&mut self) {
        unsafe { vt_sys::vt_machine_free(&mut self.handle) }
    }
}
