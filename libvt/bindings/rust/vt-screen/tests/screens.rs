//! What is wanted comes from console_codes(4).
use std::thread;
use vt_screen::{Cell, Colour, Cursor, Error, Event, KeyModes, Screen};

fn screen(rows: u32, cols: u32) -> Screen {
    Screen::new(rows, cols).expect("a screen")
}

fn heard(screen: &mut Screen, text: &[u8]) -> Vec<Event> {
    let mut events = Vec::new();
    screen.feed(text, |event| events.push(event)).expect("a text is drawn");
    events
}

#[test]
fn rows_and_cursor() {
    let mut s = screen(2, 5);
    assert_eq!(heard(&mut s, b"abcdefghijk"), []);
    assert_eq!(s.row_text(0).as_deref(), Ok("fghij"));
    assert_eq!(s.row_text(1).as_deref(), Ok("k    "));
    assert_eq!(s.row_text(2), Err(Error::Range));
    assert_eq!(s.size(), (2, 5));
    assert_eq!(s.cursor(), Cursor { row: 1, column: 1, visible: true });
}

#[test]
fn cells() {
    let mut s = screen(1, 6);
    s.write("\x1b[1;31;44ma\x1b[0;5m中".as_bytes()).expect("a text is drawn");
    let first = s.cell(0, 0).expect("a cell");
    assert_eq!(first, Cell { code: 97, attribute: 0x1C });
    assert_eq!((first.colour(), first.background(), first.blinks()), (12, 1, false));
    let characters: Vec<_> = s.cells(0).expect("cells").into_iter().map(Cell::character).collect();
    assert_eq!(characters, [Some('a'), Some('中'), None, Some(' '), Some(' '), Some(' ')]);
    assert_eq!(s.cell(0, 6), Err(Error::Range));
    assert_eq!(s.cells(1), Err(Error::Range));
}

#[test]
fn rows_that_fall_out() {
    let mut s = screen(2, 3);
    let (mut events, mut rows) = (Vec::new(), Vec::new());
    let text = b"ab\x07\r\nc\x1b[7md\r\nefgh";
    s.feed_rows(text, |event| events.push(event), |row| rows.push(row)).expect("a text is drawn");
    let cell = |code: char, attribute| Cell { code: code as u32, attribute };
    assert_eq!(events, [Event::Bell]);
    assert_eq!(rows[0], [cell('a', 7), cell('b', 7), cell(' ', 7)]);
    assert_eq!(rows[1], [cell('c', 7), cell('d', 0x70), cell(' ', 7)]);
    assert_eq!((rows.len(), s.row_text(1).as_deref()), (2, Ok("h  ")));
    let mut count = 0;
    s.feed_rows(&[b'\n'; 1000], |_| {}, |_| count += 1).expect("a text is drawn");
    assert_eq!(count, 1000);
}

#[test]
fn events() {
    let asking = b"\x07\x1b[6n\x1b[c\x1b[2q\x1b[12;7]\x1b[15]";
    let wanted = [
        Event::Bell,
        Event::Report(b"\x1b[1;1R".to_vec()),
        Event::Report(b"\x1b[?6c".to_vec()),
        Event::Lights(2),
        Event::SwitchTo(7),
        Event::SwitchLast,
    ];
    let mut s = screen(25, 80);
    assert_eq!(heard(&mut s, asking), wanted);
    let many: Vec<_> = wanted.iter().cycle().take(6000).cloned().collect();
    assert_eq!(heard(&mut s, &asking.repeat(1000)), many);
    let one_by_one: Vec<_> = asking.iter().flat_map(|&byte| heard(&mut s, &[byte])).collect();
    assert_eq!(one_by_one, wanted);
}

#[test]
fn modes_and_sizes() {
    let mut s = screen(3, 3);
    assert_eq!(s.key_modes(), KeyModes::default());
    s.write(b"\x1b[?1h\x1b=\x1b[20h\x1b[?8l\x1b[?25l\x1b[?5h").expect("a text is drawn");
    assert_eq!(s.key_modes(), KeyModes { cursor_keys: true, keypad: true, repeat: false, newline: true });
    assert!(s.is_reversed() && !s.cursor().visible);
    for (rows, cols) in [(0, 5), (5, 0), (256, 5), (5, 256), (u32::MAX, 5)] {
        assert_eq!(s.resize(rows, cols), Err(Error::Range));
        assert_eq!(Screen::new(rows, cols).err(), Some(Error::Range));
    }
    s.resize(255, 255).expect("a size");
    assert_eq!(s.size(), (255, 255));
}

#[test]
fn changes() {
    let mut s = screen(3, 4);
    assert_eq!(s.changed_rows(), [true, true, true]);
    s.mark().expect("memory");
    assert_eq!(s.changed_rows(), [false, false, false]);
    s.write(b"\x1b[2;1Hx").expect("a text is drawn");
    assert_eq!(s.changed_rows(), [false, true, false]);
    let mut other = screen(3, 4);
    other.write(&s.redraw_changes().expect("a text")).expect("a text is drawn");
    assert_eq!(other.row_text(1).as_deref(), Ok("x   "));
}

#[test]
fn colours() {
    let mut s = screen(1, 2);
    assert_eq!(s.palette()[1], Colour { red: 170, green: 0, blue: 0 });
    let other = Colour { red: 1, green: 2, blue: 3 };
    assert_eq!(s.set_colour(1, other), Ok(()));
    assert_eq!(s.palette()[..2], [Colour { red: 0, green: 0, blue: 0 }, other]);
    assert_eq!(s.set_colour(16, other), Err(Error::Range));
    s.set_user(&[0x3B1; 256]).expect("a table");
    s.write(b"\x1b%@\x1b(Ka").expect("a text is drawn");
    assert_eq!(s.row_text(0).as_deref(), Ok("α "));
}

#[test]
fn redraw() {
    let (mut s, mut other) = (screen(3, 9), screen(3, 9));
    s.write("\x1b[32mgrün\x1b[2;2H中\x1b[7m".as_bytes()).expect("a text is drawn");
    other.write(b"\x1b[2;3rwrong").expect("a text is drawn");
    other.write(&s.redraw().expect("a text")).expect("a text is drawn");
    for row in 0..3 {
        assert_eq!(s.cells(row), other.cells(row));
    }
    assert_eq!(s.cursor(), other.cursor());
    s.write(b"\x1b%@\x1b[3h\x01").expect("a text is drawn");
    assert_eq!(s.redraw(), Err(Error::NotDrawable));
    assert_eq!((s.left_out(), other.left_out()), (1, 0));
    other.write(&s.redraw_near().expect("a text")).expect("a text is drawn");
    assert_eq!(other.row_text(1), s.row_text(1).map(|row| row.replace('?', "\u{FFFD}")));
    s.mark().expect("memory");
    s.write(b"\x1b[3;1Hx").expect("a text is drawn");
    other.write(&s.redraw_changes_near().expect("a text")).expect("a text is drawn");
    assert_eq!(other.row_text(2), s.row_text(2));
}

#[test]
fn columns() {
    assert_eq!(['a', '中', '\u{301}'].map(vt_screen::columns), [1, 2, 0]);
}

#[test]
fn another_thread() {
    let mut s = screen(2, 5);
    let s = thread::spawn(move || s.write(b"ab").map(|()| s)).join().expect("a thread").expect("a text is drawn");
    assert_eq!(s.row_text(0).as_deref(), Ok("ab   "));
}

#[test]
fn readers_at_once() {
    let mut s = screen(2, 5);
    s.write(b"ab").expect("a text is drawn");
    let wanted = (s.row_text(0), s.cells(0), s.redraw(), s.picture());
    thread::scope(|scope| {
        for _ in 0..8 {
            scope.spawn(|| {
                for _ in 0..100 {
                    assert_eq!((s.row_text(0), s.cells(0), s.redraw(), s.picture()), wanted);
                }
            });
        }
    });
}
