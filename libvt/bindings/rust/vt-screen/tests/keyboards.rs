//! What is wanted comes from keymaps(5) and ioctl_console(2).
use vt_screen::{Action, Error, Fault, KeyEvent, KeyModes, KeyState, Keyboard, Mode};

const KEYMAP: &[u8] = b"keymaps 0-1\nkeycode 30 = a A\nkeycode 42 = Shift\nkeycode 59 = F1\nkeycode 60 = Console_2
keycode 61 = Last_Console\nkeycode 62 = Incr_Console\nkeycode 63 = Decr_Console\nkeycode 64 = KeyboardSignal
keycode 65 = SAK\nkeycode 103 = Up\nstring F1 = \"one\"\n";

fn keyboard() -> Keyboard {
    Keyboard::new(KEYMAP, &[]).expect("a keymap")
}

fn typed_with(state: &mut KeyState, keyboard: &mut Keyboard, scans: &[u8]) -> Vec<KeyEvent> {
    let mut scan = |&byte| keyboard.scan(byte, KeyModes::default(), state).expect("a state");
    scans.iter().filter_map(&mut scan).collect()
}

fn typed(keyboard: &mut Keyboard, scans: &[u8]) -> Vec<KeyEvent> {
    typed_with(&mut KeyState::default(), keyboard, scans)
}

fn bytes(text: &[u8]) -> KeyEvent {
    KeyEvent::Bytes(text.to_vec())
}

#[test]
fn typing() {
    let mut k = keyboard();
    assert_eq!(typed(&mut k, &[30, 158, 42, 30, 158, 170, 59]), [bytes(b"a"), bytes(b"A"), bytes(b"one")]);
    let asked =
        [KeyEvent::Switch(2), KeyEvent::Last, KeyEvent::Next, KeyEvent::Previous, KeyEvent::Spawn, KeyEvent::Attention];
    assert_eq!(typed(&mut k, &[60, 61, 62, 63, 64, 65]), asked);
    assert_eq!(typed(&mut k, &[0xE0, 0x48]), [bytes(b"\x1b[A")]);
    assert_eq!(typed(&mut k, &[0xE0]), []);
    let modes = KeyModes { cursor_keys: true, ..KeyModes::default() };
    assert_eq!(k.scan(0x48, modes, &mut KeyState::default()), Ok(Some(bytes(b"\x1bOA"))));
    assert_eq!(typed(&mut k, &[42, 30]), [bytes(b"A")]);
    k.release();
    assert_eq!(typed(&mut k, &[30]), [bytes(b"a")]);
}

#[test]
fn faults_and_includes() {
    let fault = Fault { kind: 2, line: 1, column: 14 };
    assert_eq!(Keyboard::new(b"keycode 30 = aogonek\n", &[]).err(), Some(Error::Keymap(fault)));
    let missing = Fault { kind: 7, line: 1, column: 9 };
    assert_eq!(Keyboard::new(b"include \"x\"\n", &[]).err(), Some(Error::Keymap(missing)));
    let mut k = Keyboard::new(b"include \"x\"\n", &[(b"y", b""), (b"x", b"keycode 30 = b\n")]).expect("a keymap");
    assert_eq!(typed(&mut k, &[30]), [bytes(b"b")]);
    assert!(Keyboard::new(b"", &[]).is_ok());
}

#[test]
fn state() {
    let mut k = keyboard();
    let mut state = KeyState { mode: Mode::MediumRaw, ..KeyState::default() };
    assert_eq!(typed_with(&mut state, &mut k, &[30, 158]), [bytes(b"\x1e"), bytes(b"\x9e")]);
    state = KeyState { locks: 1, lights: Some(1), ..KeyState::default() };
    let before = state;
    assert_eq!(typed_with(&mut state, &mut k, &[30, 158]), [bytes(b"A")]);
    assert_eq!(state, before);
    state = KeyState { sticky: 1, ..KeyState::default() };
    assert_eq!(typed_with(&mut state, &mut k, &[30, 158, 30, 158]), [bytes(b"A"), bytes(b"a")]);
    assert_eq!(state, KeyState::default());
    for bad in [
        KeyState { flags: 8, ..KeyState::default() },
        KeyState { defaults: 8, ..KeyState::default() },
        KeyState { lights: Some(255), ..KeyState::default() },
    ] {
        let mut state = bad;
        assert_eq!(k.scan(30, KeyModes::default(), &mut state), Err(Error::Range));
        assert_eq!(state, bad);
    }
}

// Keycodes are those of linux/input-event-codes.h, kinds those of docs/reference/keys.md, "Actions": 1 is a character.
#[test]
fn keycodes_and_entries() {
    let (mut k, mut state) = (keyboard(), KeyState::default());
    let mut press = |k: &mut Keyboard, code| k.key(code, true, KeyModes::default(), &mut state);
    assert_eq!(press(&mut k, 30), Ok(Some(bytes(b"a"))));
    assert_eq!(press(&mut k, 103), Ok(Some(bytes(b"\x1b[A"))));
    assert_eq!(press(&mut k, 0), Err(Error::Range));
    assert_eq!(press(&mut k, 256), Err(Error::Range));
    assert_eq!((k.keycode(44), k.set_keycode(44, 30), k.keycode(44)), (Ok(44), Ok(()), Ok(30)));
    assert_eq!((k.keycode(128), k.set_keycode(44, 256)), (Err(Error::Range), Err(Error::Range)));
    let b = Action { kind: 1, value: 98 };
    assert_eq!((k.entry(0, 30), k.entry(2, 30)), (Ok(Some(Action { kind: 1, value: 97 })), Ok(None)));
    assert_eq!((k.set_entry(0, 30, b), k.entry(0, 30)), (Ok(()), Ok(Some(b))));
    assert_eq!((k.set_entry(2, 30, b), k.entry(0, 0)), (Err(Error::Range), Err(Error::Range)));
    assert_eq!(typed(&mut k, &[44]), [bytes(b"b")]);
}

#[test]
fn pairs() {
    let mut k = Keyboard::new(b"compose '`' 'a' to U+00E0\n", &[]).expect("a keymap");
    assert_eq!(k.pairs(), Ok(vec![(0x60, 0x61, 0xE0)]));
    assert_eq!(k.set_pairs(&[(1, 2, 65536)]), Err(Error::Range));
    assert_eq!((k.set_pairs(&[(1, 2, 3), (4, 5, 6)]), k.pairs()), (Ok(()), Ok(vec![(1, 2, 3), (4, 5, 6)])));
    assert_eq!(k.set_pairs(&[(1, 2, 3); 257]), Err(Error::Range));
}

#[test]
fn strings() {
    let mut k = keyboard();
    assert_eq!(k.string(0).as_deref(), Ok(&b"one"[..]));
    assert_eq!(k.set_string(0, &[7; 255]), Ok(()));
    assert_eq!(typed(&mut k, &[59]), [bytes(&[7; 255])]);
    assert_eq!(k.set_string(0, &[7; 256]), Err(Error::Range));
    assert_eq!(k.set_string(256, b""), Err(Error::Range));
    assert_eq!(k.string(256), Err(Error::Range));
}
