//! The calls of libvt as C has them; vt.h and vt(3) describe each. `vt-screen` and `vt-machine` have safe types over
//! them.
#![no_std]
#![allow(non_camel_case_types)]

use core::ffi::{c_char, c_void};

/// The version of vt.h that this file follows.
pub const VT_VERSION: u32 = 0x01_00_00;

pub const VT_OK: u8 = 0;
pub const VT_MADE: u8 = 1;
pub const VT_RANGE: u8 = 2;
pub const VT_NO_MEMORY: u8 = 3;
pub const VT_NOTHING: u8 = 4;
pub const VT_NO_ROOM: u8 = 5;
pub const VT_FAULT: u8 = 6;
pub const VT_NOT_DRAWABLE: u8 = 7;
pub const VT_FULL: u8 = 8;

pub const VT_REPORT: u8 = 1;
pub const VT_SWITCH_TO: u8 = 2;
pub const VT_SWITCH_LAST: u8 = 3;
pub const VT_LIGHTS: u8 = 4;
pub const VT_BELL: u8 = 5;

pub const VT_HALF: u32 = 0x11_0000;
pub const VT_FONT: u32 = 0xF000;

pub const VT_RAW: u8 = 0;
pub const VT_XLATE: u8 = 1;
pub const VT_MEDIUMRAW: u8 = 2;
pub const VT_UNICODE: u8 = 3;
pub const VT_OFF: u8 = 4;

pub const VT_METABIT: u8 = 3;
pub const VT_ESCPREFIX: u8 = 4;

pub const VT_SCROLL_LOCK: u8 = 1;
pub const VT_NUM_LOCK: u8 = 2;
pub const VT_CAPS_LOCK: u8 = 4;
pub const VT_LIGHTS_FOLLOW: u8 = 255;

pub const VT_KEY_NOTHING: u8 = 0;
pub const VT_KEY_BYTES: u8 = 1;
pub const VT_KEY_SWITCH: u8 = 2;
pub const VT_KEY_LAST: u8 = 3;
pub const VT_KEY_NEXT: u8 = 4;
pub const VT_KEY_PREV: u8 = 5;
pub const VT_KEY_SPAWN: u8 = 6;
pub const VT_KEY_ATTENTION: u8 = 7;

pub const VT_ACTION_NO_TABLE: u16 = 14;

pub const VT_REPLY_OK: u8 = 0;
pub const VT_REPLY_NUM: u8 = 1;
pub const VT_REPLY_STATE: u8 = 2;
pub const VT_REPLY_BYTES: u8 = 3;
pub const VT_REPLY_MODE: u8 = 4;
pub const VT_REPLY_ACT: u8 = 5;
pub const VT_REPLY_WAIT: u8 = 6;
pub const VT_REPLY_SIGS: u8 = 7;
pub const VT_REPLY_ERR: u8 = 8;

pub const VT_MARK_ASKED: u8 = 1;
pub const VT_MARK_RAISED: u8 = 2;
pub const VT_MARK_HOPPED: u8 = 3;
pub const VT_MARK_ENDED: u8 = 4;

pub const VT_WAIT_NONE: u8 = 0;
pub const VT_WAIT_OPEN: u8 = 1;
pub const VT_WAIT_DONE: u8 = 2;
pub const VT_WAIT_BROKEN: u8 = 3;

#[repr(C)]
pub struct vt_screen {
    pub at: *mut c_void,
}

#[repr(C)]
#[derive(Clone, Copy, Default)]
pub struct vt_out {
    pub kind: u8,
    pub length: u8,
    pub number: u16,
    pub text: [u8; 16],
    pub spare: [u32; 3],
}

#[repr(C)]
#[derive(Clone, Copy, Default)]
pub struct vt_fed {
    pub taken: usize,
    pub outs: usize,
    pub rows: usize,
    pub spare: [usize; 1],
}

#[repr(C)]
#[derive(Clone, Copy, Default)]
pub struct vt_cell {
    pub code: u32,
    pub attr: u8,
    pub spare: [u8; 3],
}

#[repr(C)]
#[derive(Clone, Copy)]
pub struct vt_modes {
    pub cursor_keys: u8,
    pub keypad: u8,
    pub repeat: u8,
    pub newline_mode: u8,
    pub spare: [u8; 4],
}

impl Default for vt_modes {
    /// `VT_MODES_START`.
    fn default() -> vt_modes {
        vt_modes { cursor_keys: 0, keypad: 0, repeat: 1, newline_mode: 0, spare: [0; 4] }
    }
}

#[repr(C)]
#[derive(Clone, Copy, Default)]
pub struct vt_state {
    pub rows: u16,
    pub cols: u16,
    pub y: u16,
    pub x: u16,
    pub visible: u8,
    pub reverse: u8,
    pub origin: u8,
    pub autowrap: u8,
    pub insert: u8,
    pub controls: u8,
    pub modes: vt_modes,
    pub spare: [u8; 10],
}

#[repr(C)]
#[derive(Clone, Copy, Default)]
pub struct vt_colour {
    pub red: u8,
    pub green: u8,
    pub blue: u8,
    pub spare: u8,
}

#[repr(C)]
pub struct vt_keys {
    pub at: *mut c_void,
}

#[repr(C)]
#[derive(Clone, Copy, Default)]
pub struct vt_fault {
    pub line: u32,
    pub column: u32,
    pub kind: u32,
    pub spare: u32,
}

#[repr(C)]
#[derive(Clone, Copy)]
pub struct vt_text {
    pub name: *const u8,
    pub name_length: usize,
    pub text: *const u8,
    pub text_length: usize,
}

#[repr(C)]
#[derive(Clone, Copy)]
pub struct vt_key_state {
    pub mode: u8,
    pub meta: u8,
    pub flags: u8,
    pub defaults: u8,
    pub lights: u8,
    pub locks: u8,
    pub sticky: u8,
    pub spare: [u8; 9],
}

impl Default for vt_key_state {
    /// `VT_KEY_STATE_START`.
    fn default() -> vt_key_state {
        vt_key_state {
            mode: VT_UNICODE,
            meta: VT_ESCPREFIX,
            flags: 0,
            defaults: 0,
            lights: VT_LIGHTS_FOLLOW,
            locks: 0,
            sticky: 0,
            spare: [0; 9],
        }
    }
}

#[repr(C)]
#[derive(Clone, Copy)]
pub struct vt_key {
    pub kind: u8,
    pub spare: u8,
    pub length: u16,
    pub number: u32,
    pub bytes: [u8; 512],
}

#[repr(C)]
#[derive(Clone, Copy, Debug, Default, PartialEq, Eq)]
pub struct vt_action {
    pub kind: u16,
    pub value: u16,
}

#[repr(C)]
#[derive(Clone, Copy, Debug, Default, PartialEq, Eq)]
pub struct vt_pair {
    pub accent: u32,
    pub base: u32,
    pub result: u32,
}

#[repr(C)]
pub struct vt_machine {
    pub at: *mut c_void,
}

#[repr(C)]
#[derive(Clone, Copy, Default)]
pub struct vt_start {
    pub consoles: u64,
    pub bytes: u64,
    pub events: u32,
    pub rows: u16,
    pub cols: u16,
    pub front: u8,
    pub keyboards: u8,
    pub spare: [u8; 22],
}

#[repr(C)]
#[derive(Clone, Copy, Default)]
pub struct vt_seat {
    pub home: u8,
    pub privileged: u8,
    pub spare: [u8; 6],
}

#[repr(C)]
#[derive(Clone, Copy, Default)]
pub struct vt_reply {
    pub mask: u64,
    pub length: u32,
    pub number: u32,
    pub words: [u16; 6],
    pub kind: u8,
    pub spare: [u8; 19],
}

#[repr(C)]
#[derive(Clone, Copy, Default)]
pub struct vt_mark {
    pub kind: u8,
    pub a: u8,
    pub b: u8,
    pub cause: u8,
    pub spare: [u8; 4],
}

#[repr(C)]
#[derive(Clone, Copy, Default)]
pub struct vt_display {
    pub hops: u64,
    pub gone: u64,
    pub entries: u32,
    pub front: u8,
    pub pending: u8,
    pub locked: u8,
    pub spare: [u8; 17],
}

#[repr(C)]
#[derive(Clone, Copy, Default)]
pub struct vt_console {
    pub bells: u32,
    pub queued: u32,
    pub rows: u16,
    pub cols: u16,
    pub y: u16,
    pub x: u16,
    pub owner: u8,
    pub graphics: u8,
    pub visible: u8,
    pub spare: [u8; 13],
}

extern "C" {
    pub fn vt_version() -> u32;
    pub fn vt_columns(code: u32) -> u8;

    pub fn vt_screen_new(s: *mut vt_screen, rows: u32, cols: u32) -> u8;
    pub fn vt_screen_free(s: *mut vt_screen);
    pub fn vt_screen_feed(
        s: *mut vt_screen,
        bytes: *const u8,
        n: usize,
        outs: *mut vt_out,
        room: usize,
        fed: *mut vt_fed,
    ) -> u8;
    pub fn vt_screen_feed_rows(
        s: *mut vt_screen,
        bytes: *const u8,
        n: usize,
        outs: *mut vt_out,
        room: usize,
        cells: *mut vt_cell,
        cells_room: usize,
        fed: *mut vt_fed,
    ) -> u8;
    pub fn vt_screen_write(s: *mut vt_screen, bytes: *const u8, n: usize) -> u8;
    pub fn vt_screen_resize(s: *mut vt_screen, rows: u32, cols: u32) -> u8;
    pub fn vt_screen_state(s: *const vt_screen, state: *mut vt_state) -> u8;
    pub fn vt_screen_cell(s: *const vt_screen, row: u32, col: u32, cell: *mut vt_cell) -> u8;
    pub fn vt_screen_row(s: *const vt_screen, row: u32, cells: *mut vt_cell, room: usize) -> u8;
    pub fn vt_screen_cells(s: *const vt_screen, cells: *mut vt_cell, room: usize) -> u8;
    pub fn vt_screen_row_text(s: *const vt_screen, row: u32, text: *mut u8, room: usize, length: *mut usize) -> u8;
    pub fn vt_screen_mark(s: *mut vt_screen) -> u8;
    pub fn vt_screen_changed(s: *const vt_screen, rows: *mut u8, room: usize) -> u8;
    pub fn vt_screen_palette(s: *const vt_screen, colours: *mut vt_colour, room: usize) -> u8;
    pub fn vt_screen_set_colour(s: *mut vt_screen, number: u32, red: u8, green: u8, blue: u8) -> u8;
    pub fn vt_screen_set_user(s: *mut vt_screen, words: *const u16) -> u8;
    pub fn vt_screen_redraw(s: *const vt_screen, text: *mut u8, room: usize, length: *mut usize) -> u8;
    pub fn vt_screen_redraw_changes(s: *const vt_screen, text: *mut u8, room: usize, length: *mut usize) -> u8;
    pub fn vt_screen_redraw_near(s: *const vt_screen, text: *mut u8, room: usize, length: *mut usize) -> u8;
    pub fn vt_screen_redraw_changes_near(s: *const vt_screen, text: *mut u8, room: usize, length: *mut usize) -> u8;
    pub fn vt_screen_left_out(s: *const vt_screen, parts: *mut u32) -> u8;
    pub fn vt_screen_picture(s: *const vt_screen, text: *mut u8, room: usize, length: *mut usize) -> u8;

    pub fn vt_keys_new(
        k: *mut vt_keys,
        text: *const u8,
        n: usize,
        texts: *const vt_text,
        count: usize,
        fault: *mut vt_fault,
    ) -> u8;
    pub fn vt_keys_free(k: *mut vt_keys);
    pub fn vt_keys_scan(
        k: *mut vt_keys,
        byte: u8,
        modes: *const vt_modes,
        state: *mut vt_key_state,
        key: *mut vt_key,
    ) -> u8;
    pub fn vt_keys_key(
        k: *mut vt_keys,
        keycode: u32,
        is_down: u8,
        modes: *const vt_modes,
        state: *mut vt_key_state,
        key: *mut vt_key,
    ) -> u8;
    pub fn vt_keys_release(k: *mut vt_keys) -> u8;
    pub fn vt_keys_string(k: *const vt_keys, number: u32, text: *mut u8, room: usize, length: *mut usize) -> u8;
    pub fn vt_keys_set_string(k: *mut vt_keys, number: u32, text: *const u8, n: usize) -> u8;
    pub fn vt_keys_entry(k: *const vt_keys, table: u32, keycode: u32, action: *mut vt_action) -> u8;
    pub fn vt_keys_set_entry(k: *mut vt_keys, table: u32, keycode: u32, action: *const vt_action) -> u8;
    pub fn vt_keys_keycode(k: *const vt_keys, scan: u32, keycode: *mut u32) -> u8;
    pub fn vt_keys_set_keycode(k: *mut vt_keys, scan: u32, keycode: u32) -> u8;
    pub fn vt_keys_pairs(k: *const vt_keys, pairs: *mut vt_pair, room: usize, count: *mut usize) -> u8;
    pub fn vt_keys_set_pairs(k: *mut vt_keys, pairs: *const vt_pair, count: usize) -> u8;

    pub fn vt_machine_new(
        m: *mut vt_machine,
        start: *const vt_start,
        seats: *const vt_seat,
        count: usize,
        keymap: *const u8,
        n: usize,
        fault: *mut vt_fault,
    ) -> u8;
    pub fn vt_machine_free(m: *mut vt_machine);
    pub fn vt_machine_admit(m: *mut vt_machine, process: u32, seat: *const vt_seat) -> u8;
    pub fn vt_machine_call(
        m: *mut vt_machine,
        caller: u32,
        name: *const c_char,
        numbers: *const u16,
        count: usize,
        held: *const u8,
        n: usize,
        reply: *mut vt_reply,
        bytes: *mut u8,
        room: usize,
    ) -> u8;
    pub fn vt_machine_forget(m: *mut vt_machine) -> u8;
    pub fn vt_machine_marks(m: *const vt_machine, marks: *mut vt_mark, room: usize, count: *mut usize) -> u8;
    pub fn vt_machine_wait(m: *const vt_machine, caller: u32, wait: *mut u8) -> u8;
    pub fn vt_machine_display(m: *const vt_machine, display: *mut vt_display) -> u8;
    pub fn vt_machine_console(m: *const vt_machine, n: u32, console: *mut vt_console) -> u8;
    pub fn vt_machine_row(m: *const vt_machine, n: u32, row: u32, cells: *mut vt_cell, room: usize) -> u8;
    pub fn vt_machine_cells(m: *const vt_machine, n: u32, cells: *mut vt_cell, room: usize) -> u8;
    pub fn vt_machine_redraw(m: *const vt_machine, n: u32, text: *mut u8, room: usize, length: *mut usize) -> u8;
    pub fn vt_machine_redraw_changes(
        m: *const vt_machine,
        n: u32,
        shown: *const vt_cell,
        count: usize,
        cols: u32,
        text: *mut u8,
        room: usize,
        length: *mut usize,
    ) -> u8;
    pub fn vt_machine_redraw_near(m: *const vt_machine, n: u32, text: *mut u8, room: usize, length: *mut usize) -> u8;
    pub fn vt_machine_redraw_changes_near(
        m: *const vt_machine,
        n: u32,
        shown: *const vt_cell,
        count: usize,
        cols: u32,
        text: *mut u8,
        room: usize,
        length: *mut usize,
    ) -> u8;
    pub fn vt_machine_picture(m: *const vt_machine, n: u32, text: *mut u8, room: usize, length: *mut usize) -> u8;
    pub fn vt_machine_entry(m: *const vt_machine, index: u32, text: *mut u8, room: usize, length: *mut usize) -> u8;
    pub fn vt_machine_journal(m: *const vt_machine, text: *mut u8, room: usize, length: *mut usize) -> u8;
}
