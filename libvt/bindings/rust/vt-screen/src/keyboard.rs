use crate::error::{checked, text_of, Error, Fault};
use std::ptr;

/// A keymap (keymaps(5)) and a keyboard that types by it into any console.
pub struct Keyboard {
    handle: vt_sys::vt_keys,
}

// As of a screen.
unsafe impl Send for Keyboard {}
unsafe impl Sync for Keyboard {}

/// A keyboard mode (KDSKBMODE).
#[derive(Clone, Copy, Debug, PartialEq, Eq)]
pub enum Mode {
    Raw,
    Xlate,
    MediumRaw,
    Unicode,
    Off,
}

/// The key state of a console: keep one for each. Flags and lights are sums of Scroll Lock 1, Num Lock 2, Caps Lock 4;
/// modifiers are sums of the weights of keymaps(5).
#[derive(Clone, Copy, Debug, PartialEq, Eq)]
pub struct KeyState {
    pub mode: Mode,
    /// Whether Meta sends ESC before the character, or sets its high bit.
    pub is_escape_prefix: bool,
    /// Those that are on, 0 to 7.
    pub flags: u8,
    /// Those that a reset gives, 0 to 7.
    pub defaults: u8,
    /// What the lights show, 0 to 7; None if they show the flags.
    pub lights: Option<u8>,
    /// The locked modifiers.
    pub locks: u8,
    /// The modifiers for the next key.
    pub sticky: u8,
}

impl Default for KeyState {
    /// That of a new console.
    fn default() -> KeyState {
        KeyState {
            mode: Mode::Unicode,
            is_escape_prefix: true,
            flags: 0,
            defaults: 0,
            lights: None,
            locks: 0,
            sticky: 0,
        }
    }
}

/// The modes of a screen that keys depend on: DECCKM, DECPAM, DECARM, LNM.
#[derive(Clone, Copy, Debug, PartialEq, Eq)]
pub struct KeyModes {
    pub cursor_keys: bool,
    pub keypad: bool,
    pub repeat: bool,
    pub newline: bool,
}

impl Default for KeyModes {
    /// Those of a new screen.
    fn default() -> KeyModes {
        KeyModes { cursor_keys: false, keypad: false, repeat: true, newline: false }
    }
}

/// The action of a key: a kind and a value (docs/reference/keys.md, "Actions").
#[derive(Clone, Copy, Debug, PartialEq, Eq)]
pub struct Action {
    pub kind: u16,
    pub value: u16,
}

/// An accent, a letter and the character that they make.
pub type Pair = (u32, u32, u32);

/// What a key sends or asks for.
#[derive(Clone, Debug, PartialEq, Eq)]
pub enum KeyEvent {
    /// Bytes for the program's input.
    Bytes(Vec<u8>),
    /// The console of this number has to come to the front.
    Switch(u32),
    /// The console that was in front before.
    Last,
    /// The next console.
    Next,
    /// The console before this one.
    Previous,
    /// KeyboardSignal: a signal to the process that accepts it.
    Spawn,
    /// The secure attention key.
    Attention,
}

impl Keyboard {
    /// Compiles a keymap with the texts that it may include, each with its name.
    pub fn new(keymap: &[u8], includes: &[(&[u8], &[u8])]) -> Result<Keyboard, Error> {
        let texts: Vec<vt_sys::vt_text> = includes
            .iter()
            .map(|(name, text)| vt_sys::vt_text {
                name: name.as_ptr(),
                name_length: name.len(),
                text: text.as_ptr(),
                text_length: text.len(),
            })
            .collect();
        let mut handle = vt_sys::vt_keys { at: ptr::null_mut() };
        let mut fault = vt_sys::vt_fault::default();
        let code = unsafe {
            vt_sys::vt_keys_new(&mut handle, keymap.as_ptr(), keymap.len(), texts.as_ptr(), texts.len(), &mut fault)
        };
        if code == vt_sys::VT_FAULT {
            let vt_sys::vt_fault { kind, line, column, .. } = fault;
            return Err(Error::Keymap(Fault { kind, line, column }));
        }
        checked(code)?;
        Ok(Keyboard { handle })
    }

    /// Types one byte of a keyboard of scan code set 1 into the console with this state and these modes.
    pub fn scan(&mut self, byte: u8, modes: KeyModes, state: &mut KeyState) -> Result<Option<KeyEvent>, Error> {
        typed(state, |state, key| unsafe {
            vt_sys::vt_keys_scan(&mut self.handle, byte, &modes.into(), state, key)
        })
    }

    /// The same for a key by its keycode, 1 to 255, as evdev has it.
    pub fn key(
        &mut self,
        keycode: u32,
        is_down: bool,
        modes: KeyModes,
        state: &mut KeyState,
    ) -> Result<Option<KeyEvent>, Error> {
        typed(state, |state, key| unsafe {
            vt_sys::vt_keys_key(&mut self.handle, keycode, is_down.into(), &modes.into(), state, key)
        })
    }

    /// Releases the keys as if the keyboard were unplugged: none of them sends anything.
    pub fn release(&mut self) {
        unsafe { vt_sys::vt_keys_release(&mut self.handle) };
    }

    /// The string of a function key, 0 to 255.
    pub fn string(&self, number: u32) -> Result<Vec<u8>, Error> {
        text_of(255, |at, room, length| unsafe { vt_sys::vt_keys_string(&self.handle, number, at, room, length) })
    }

    /// Sets the string of a function key to at most 255 bytes.
    pub fn set_string(&mut self, number: u32, text: &[u8]) -> Result<(), Error> {
        checked(unsafe { vt_sys::vt_keys_set_string(&mut self.handle, number, text.as_ptr(), text.len()) })
    }

    /// The action of a keycode in a table: its kind and its value (docs/reference/keys.md, "Actions"); None if there is
    /// no such table.
    pub fn entry(&self, table: u32, keycode: u32) -> Result<Option<Action>, Error> {
        let mut action = vt_sys::vt_action::default();
        checked(unsafe { vt_sys::vt_keys_entry(&self.handle, table, keycode, &mut action) })?;
        let vt_sys::vt_action { kind, value } = action;
        Ok((kind != vt_sys::VT_ACTION_NO_TABLE).then_some(Action { kind, value }))
    }

    /// Sets the action of a keycode in a table.
    pub fn set_entry(&mut self, table: u32, keycode: u32, action: Action) -> Result<(), Error> {
        let Action { kind, value } = action;
        let action = vt_sys::vt_action { kind, value };
        checked(unsafe { vt_sys::vt_keys_set_entry(&mut self.handle, table, keycode, &action) })
    }

    /// The keycode of a scan number, or 0: 1 to 127, and 129 to 255 for 1 to 127 after E0.
    pub fn keycode(&self, scan: u32) -> Result<u32, Error> {
        let mut keycode = 0;
        checked(unsafe { vt_sys::vt_keys_keycode(&self.handle, scan, &mut keycode) })?;
        Ok(keycode)
    }

    /// Sets the keycode of a scan number, 0 to 255; 0 is none.
    pub fn set_keycode(&mut self, scan: u32, keycode: u32) -> Result<(), Error> {
        checked(unsafe { vt_sys::vt_keys_set_keycode(&mut self.handle, scan, keycode) })
    }
}

/// The pairs of compose keys, each an accent, a letter and the character that they make.
impl Keyboard {
    pub fn pairs(&self) -> Result<Vec<Pair>, Error> {
        let mut pairs = [vt_sys::vt_pair::default(); 256];
        let mut count = 0;
        checked(unsafe { vt_sys::vt_keys_pairs(&self.handle, pairs.as_mut_ptr(), pairs.len(), &mut count) })?;
        Ok(pairs[..count].iter().map(|pair| (pair.accent, pair.base, pair.result)).collect())
    }

    /// Sets the pairs: at most 256, of numbers up to 65535.
    pub fn set_pairs(&mut self, pairs: &[Pair]) -> Result<(), Error> {
        let own = |&(accent, base, result): &Pair| vt_sys::vt_pair { accent, base, result };
        let pairs: Vec<_> = pairs.iter().map(own).collect();
        checked(unsafe { vt_sys::vt_keys_set_pairs(&mut self.handle, pairs.as_ptr(), pairs.len()) })
    }
}

impl Drop for Keyboard {
    fn drop(&mut self) {
        unsafe { vt_sys::vt_keys_free(&mut self.handle) }
    }
}

impl From<KeyModes> for vt_sys::vt_modes {
    fn from(modes: KeyModes) -> vt_sys::vt_modes {
        let KeyModes { cursor_keys, keypad, repeat, newline } = modes;
        vt_sys::vt_modes {
            cursor_keys: cursor_keys.into(),
            keypad: keypad.into(),
            repeat: repeat.into(),
            newline_mode: newline.into(),
            spare: [0; 4],
        }
    }
}

/// Types by a call, which changes the state.
fn typed(
    state: &mut KeyState,
    call: impl FnOnce(&mut vt_sys::vt_key_state, &mut vt_sys::vt_key) -> u8,
) -> Result<Option<KeyEvent>, Error> {
    let mut own = vt_sys::vt_key_state {
        mode: number(state.mode),
        meta: if state.is_escape_prefix { vt_sys::VT_ESCPREFIX } else { vt_sys::VT_METABIT },
        flags: state.flags,
        defaults: state.defaults,
        lights: lights_of(state.lights),
        locks: state.locks,
        sticky: state.sticky,
        spare: [0; 9],
    };
    let mut key = vt_sys::vt_key { kind: 0, spare: 0, length: 0, number: 0, bytes: [0; 512] };
    checked(call(&mut own, &mut key))?;
    state.flags = own.flags;
    state.defaults = own.defaults;
    state.lights = (own.lights != vt_sys::VT_LIGHTS_FOLLOW).then_some(own.lights);
    state.locks = own.locks;
    state.sticky = own.sticky;
    Ok(event(&key))
}

/// 8 is out of range, as every number above 7 that isn't VT_LIGHTS_FOLLOW.
fn lights_of(lights: Option<u8>) -> u8 {
    lights.map_or(vt_sys::VT_LIGHTS_FOLLOW, |number| number.min(8))
}

fn event(key: &vt_sys::vt_key) -> Option<KeyEvent> {
    match key.kind {
        vt_sys::VT_KEY_BYTES => Some(KeyEvent::Bytes(key.bytes[..usize::from(key.length)].to_vec())),
        vt_sys::VT_KEY_SWITCH => Some(KeyEvent::Switch(key.number)),
        vt_sys::VT_KEY_LAST => Some(KeyEvent::Last),
        vt_sys::VT_KEY_NEXT => Some(KeyEvent::Next),
        vt_sys::VT_KEY_PREV => Some(KeyEvent::Previous),
        vt_sys::VT_KEY_SPAWN => Some(KeyEvent::Spawn),
        vt_sys::VT_KEY_ATTENTION => Some(KeyEvent::Attention),
        _ => None,
    }
}

fn number(mode: Mode) -> u8 {
    match mode {
        Mode::Raw => vt_sys::VT_RAW,
        Mode::Xlate => vt_sys::VT_XLATE,
        Mode::MediumRaw => vt_sys::VT_MEDIUMRAW,
        Mode::Unicode => vt_sys::VT_UNICODE,
        Mode::Off => vt_sys::VT_OFF,
    }
}
