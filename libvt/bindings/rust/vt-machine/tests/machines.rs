//! What is wanted comes from docs/reference/switching.md and docs/reference/journal.md.
use std::thread;
use vt_machine::{Cause, Cell, Console, Error, Fault, Machine, Mark, Process, Reply, Start, Wait};

const SERVER: u32 = 1;
const SHELL: u32 = 2;

fn start() -> Start {
    let processes = vec![Process { home: 1, privileged: false }, Process { home: 2, privileged: true }];
    Start { rows: 3, cols: 10, consoles: vec![1, 2], processes, ..Start::default() }
}

fn machine() -> Machine {
    Machine::new(&start()).expect("a machine")
}

fn ask(machine: &mut Machine, caller: u32, name: &str, numbers: &[u16]) -> Reply {
    machine.call(caller, name, numbers, b"").expect("a call")
}

#[test]
fn handshake() {
    let mut m = machine();
    assert_eq!(ask(&mut m, SERVER, "open", &[1]), Reply::Num(0));
    assert_eq!(ask(&mut m, SERVER, "setmode", &[0, 1, 0, 10, 12, 0]), Reply::Ok);
    let mode = Reply::Mode { mode: 1, waitv: 0, relsig: 10, acqsig: 12, frsig: 0 };
    assert_eq!(ask(&mut m, SERVER, "getmode", &[0]), mode);
    assert_eq!(ask(&mut m, SHELL, "open", &[2]), Reply::Num(0));
    assert_eq!(ask(&mut m, SHELL, "activate", &[0, 2]), Reply::Ok);
    assert_eq!(m.marks(), [Mark::Asked(2), Mark::Raised { caller: 1, signal: 10 }]);
    assert_eq!((m.display().front, m.display().pending, m.display().entries), (1, Some(2), 5));
    assert_eq!(ask(&mut m, SERVER, "signals", &[]), Reply::Sigs(1 << 9));
    assert_eq!(ask(&mut m, SERVER, "reldisp", &[0, 1]), Reply::Ok);
    assert_eq!(m.marks(), [Mark::Hopped { from: 1, to: 2, cause: Cause::Released(1) }]);
    assert_eq!(ask(&mut m, SHELL, "getstate", &[0]), Reply::State { front: 2, consoles: 0b110 });
    ask(&mut m, SHELL, "activate", &[0, 1]);
    let freed = Mark::Hopped { from: 2, to: 1, cause: Cause::Free };
    assert_eq!(m.marks(), [Mark::Asked(1), freed, Mark::Raised { caller: 1, signal: 12 }]);
    ask(&mut m, SHELL, "activate", &[0, 2]);
    ask(&mut m, SHELL, "kill", &[1, 9]);
    assert_eq!(m.marks(), [Mark::Ended(1), Mark::Hopped { from: 1, to: 2, cause: Cause::Died(1) }]);
    assert_eq!(ask(&mut m, SERVER, "open", &[1]), Reply::Err(3));
}

#[test]
fn texts() {
    let mut m = Machine::new(&Start { keymap: b"keycode 30 = a\n".to_vec(), ..start() }).expect("a machine");
    ask(&mut m, 1, "open", &[1]);
    assert_eq!(m.call(1, "write", &[0], "\x1b[31mé中\x07".as_bytes()), Ok(Reply::Num(11)));
    assert_eq!(m.call(0, "scan", &[], &[0x1E]), Ok(Reply::Ok));
    let wanted = Console {
        rows: 3,
        cols: 10,
        row: 0,
        column: 3,
        visible: true,
        bells: 1,
        queued: 1,
        owner: None,
        graphics: false,
    };
    assert_eq!(m.console(1), Ok(wanted));
    assert_eq!(ask(&mut m, 1, "read", &[0, 64]), Reply::Bytes(b"a".to_vec()));
    assert_eq!(ask(&mut m, 1, "getent", &[0, 9, 30]), Reply::Act { kind: 14, value: 0 });
    assert_eq!(m.cells(1, 0).expect("cells")[0], Cell { code: 0xE9, attribute: 4 });
    let mut screen = vt_screen::Screen::new(3, 10).expect("a screen");
    screen.write(&m.redraw(1).expect("a text")).expect("a text is drawn");
    assert_eq!(screen.cells(0), Ok(m.cells(1, 0).expect("cells")));
    m.call(1, "write", &[0], b"\x1b%@\x1b[3h\x01").expect("a call");
    assert_eq!(m.redraw(1), Err(Error::NotDrawable));
}

#[test]
fn changes() {
    let mut m = machine();
    ask(&mut m, 1, "open", &[1]);
    m.call(1, "write", &[0], "one\r\n\x1b[32mgrü".as_bytes()).expect("a call");
    let mut screen = vt_screen::Screen::new(3, 10).expect("a screen");
    screen.write(&m.redraw(1).expect("a text")).expect("a text is drawn");
    let shown = m.all_cells(1).expect("cells");
    assert_eq!((shown.len(), &shown[10..20]), (30, &m.cells(1, 1).expect("cells")[..]));
    m.call(1, "write", &[0], b"\x1b[3;4Hthree").expect("a call");
    let changes = m.redraw_changes(1, &shown, 10).expect("a text");
    assert_eq!(m.redraw_changes_near(1, &shown, 10).as_ref(), Ok(&changes));
    assert!(changes.len() < m.redraw(1).expect("a text").len());
    screen.write(&changes).expect("a text is drawn");
    for row in 0..3 {
        assert_eq!(screen.cells(row), Ok(m.cells(1, row).expect("cells")));
    }
    assert_eq!(screen.picture(), Ok(m.picture(1).expect("a picture")));
    assert_eq!(m.redraw_changes(1, &shown[1..], 10), Err(Error::Range));
    assert_eq!(m.redraw_changes(1, &shown, 15), Err(Error::Range));
    assert_eq!((m.all_cells(3), m.picture(3)), (Err(Error::Range), Err(Error::Range)));
    m.call(1, "write", &[0], b"\x1b[H\x1b%@\x1b[3h\x01").expect("a call");
    assert_eq!(m.redraw_changes(1, &shown, 10), Err(Error::NotDrawable));
    screen.write(&m.redraw_near(1).expect("a text")).expect("a text is drawn");
    assert_eq!(screen.cells(0).expect("cells")[0].code, 0xFFFD);
}

#[test]
fn waits_and_journals() {
    let mut m = Machine::new(&Start { events: 3, ..start() }).expect("a machine");
    ask(&mut m, 1, "open", &[1]);
    assert_eq!(
        (m.wait(1), ask(&mut m, 1, "waitinput", &[0]), m.wait(1)),
        (Ok(Wait::None), Reply::Wait, Ok(Wait::Open))
    );
    ask(&mut m, 2, "kill", &[1, 10]);
    assert_eq!(m.wait(1), Ok(Wait::Broken));
    assert_eq!(m.call(1, "waitend", &[], b""), Err(Error::Full));
    let text = "p1 0 open 1 = num 0\np1 1 waitinput 0 = wait\np2 0 kill 1 10 = ok\n";
    assert_eq!(m.journal(), Ok(format!("%journal 2\n{text}%end 3 192\n")));
    assert_eq!(m.entry(1).as_deref(), Ok("p1 1 waitinput 0 = wait\n"));
    assert_eq!(m.entry(3), Err(Error::Range));
    m.forget();
    assert_eq!(m.journal().as_deref(), Ok("%journal 2\n%end 0 0\n"));
    assert_eq!(ask(&mut m, 1, "waitend", &[]), Reply::Err(4));
    assert_eq!(m.display().gone, 3);
}

#[test]
fn ranges() {
    let fault = Fault { kind: 2, line: 1, column: 14 };
    let keymap = b"keycode 30 = aogonek\n".to_vec();
    assert_eq!(Machine::new(&Start { keymap, ..start() }).err(), Some(Error::Keymap(fault)));
    for bad in [
        Start { rows: 0, ..start() },
        Start { cols: 256, ..start() },
        Start { consoles: vec![0, 1], ..start() },
        Start { consoles: vec![1, 64], ..start() },
        Start { front: 3, ..start() },
        Start { keyboards: 5, ..start() },
        Start { events: 1_000_001, ..start() },
        Start { processes: vec![Process::default(); 65], ..start() },
    ] {
        assert_eq!(Machine::new(&bad).err(), Some(Error::Range), "{bad:?}");
    }
    let mut m = machine();
    for (caller, name, numbers, held) in [
        (68, "exit", &[][..], &b""[..]),
        (1, "opens", &[1], b""),
        (1, "open", &[], b""),
        (1, "open", &[1], b"x"),
        (0, "scan", &[], b""),
        (1, "ex\0it", &[], b""),
    ] {
        assert_eq!(m.call(caller, name, numbers, held), Err(Error::Range), "{name:?}");
    }
    assert_eq!((m.console(3), m.cells(1, 3), m.wait(68)), (Err(Error::Range), Err(Error::Range), Err(Error::Range)));
    assert_eq!(m.display().entries, 0);
}

#[test]
fn admissions() {
    let mut m = machine();
    let other = Process { home: 1, privileged: false };
    assert_eq!(m.admit(2, &other), Ok(()));
    ask(&mut m, 2, "open", &[2]);
    assert_eq!(ask(&mut m, 2, "activate", &[0, 2]), Reply::Err(1));
    assert_eq!(
        (m.admit(2, &other), m.admit(0, &other), m.admit(3, &other)),
        (Err(Error::InUse), Err(Error::Range), Err(Error::Range))
    );
}

#[test]
fn threads() {
    let mut m = machine();
    let m = thread::spawn(move || m.call(1, "open", &[1], b"").map(|_| m)).join().expect("a thread").expect("a call");
    let wanted = (m.journal(), m.cells(1, 0), m.redraw(1), m.marks(), m.display());
    thread::scope(|scope| {
        for _ in 0..8 {
            scope.spawn(|| {
                for _ in 0..100 {
                    assert_eq!((m.journal(), m.cells(1, 0), m.redraw(1), m.marks(), m.display()), wanted);
                }
            });
        }
    });
}
