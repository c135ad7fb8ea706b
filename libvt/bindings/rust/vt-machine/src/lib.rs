//! A machine: all consoles of a Linux text console, and the processes that share them (ioctl_console(2)), by libvt.
//!
//!     use vt_machine::{Machine, Mark, Process, Start};
//!
//!     let mut machine = Machine::new(&Start {
//!         consoles: vec![1, 2],
//!         processes: vec![Process { home: 1, privileged: false }, Process { home: 2, privileged: false }],
//!         ..Start::default()
//!     })?;
//!     machine.call(1, "open", &[1], b"")?;
//!     machine.call(1, "setmode", &[0, 1, 0, 10, 12, 0], b"")?;
//!     machine.call(2, "open", &[2], b"")?;
//!     machine.call(2, "activate", &[0, 2], b"")?;
//!     assert_eq!(machine.marks(), [Mark::Asked(2), Mark::Raised { caller: 1, signal: 10 }]);
//!     machine.call(1, "reldisp", &[0, 1], b"")?;
//!     assert_eq!(machine.display().front, 2);
//!     # Ok::<(), vt_machine::Error>(())
//!
//! A machine takes the calls of its callers one at a time, and answers each as a console does. Callers 0 and 65 to 67
//! are keyboards, 1 to 64 processes. The names of calls, their numbers and their answers are those of vt-journal(5). The
//! journal is a legal history of the machine from its start, whatever calls are made. A machine may go to another
//! thread, and threads may read one at once. No call panics.

mod error;
mod machine;
mod mark;
mod reply;
mod start;

pub use error::Error;
pub use machine::{Console, Display, Machine, Wait};
pub use mark::{Cause, Mark};
pub use reply::Reply;
pub use start::{Process, Start};
pub use vt_screen::{Cell, Fault};
