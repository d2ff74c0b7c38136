//! A client in Rust. Plays a note list through the library, and compares each frame with those of the WAVE file that
//! `sfbank play` wrote: frames BANK NOTES WAVE. Prints the number of equal frames.
use std::ffi::c_void;
use std::{env, fs, ptr};

/// A bank or a player, as `sfbank.h` declares them.
#[repr(C)]
struct Handle {
    is_open: bool,
    at: *mut c_void,
}

extern "C" {
    fn sfbank_abi_open(file: *const u8, length: usize, bank: *mut Handle, banks: usize) -> i32;
    fn sfbank_abi_close(bank: *mut Handle, banks: usize) -> i32;
    fn sfbank_abi_player(player: *mut Handle, players: usize) -> i32;
    fn sfbank_abi_start(
        player: *mut Handle,
        players: usize,
        bank: *mut Handle,
        banks: usize,
        preset_bank: u16,
        preset: u16,
        key: u8,
        velocity: u8,
        length: u32,
    ) -> i32;
    fn sfbank_abi_block(player: *mut Handle, players: usize, out: *mut i16, values: usize) -> i32;
    fn sfbank_abi_close_player(player: *mut Handle, players: usize) -> i32;
}

/// The bytes before the frames of a WAVE file.
const HEAD: usize = 44;
/// The frames of one block.
const BLOCK: usize = 64;

fn closed() -> Handle {
    Handle { is_open: false, at: ptr::null_mut() }
}

/// Stops the client if a call failed.
fn check(call: &str, error: i32) {
    assert_eq!(error, 0, "{call}: error {error}");
}

/// Reads the notes in the order of their starts; those that start together stay in order.
fn read_notes(text: &str) -> Vec<[u32; 6]> {
    let fields = |line: &str| {
        let numbers = line.split('#').next()?.split_whitespace().map(|it| it.parse().ok());
        numbers.collect::<Option<Vec<u32>>>()?.try_into().ok()
    };
    let mut notes: Vec<[u32; 6]> = text.lines().filter_map(fields).collect();
    notes.sort_by_key(|note| note[0]);
    notes
}

/// Plays as many frames in blocks, and appends their values.
fn play(player: &mut Handle, frames: usize, values: &mut Vec<i16>) {
    let mut block = [0i16; 2 * BLOCK];
    let mut left = frames;
    while left > 0 {
        let count = left.min(BLOCK);
        // The buffer has at least as many values, and the player is open.
        check("block", unsafe { sfbank_abi_block(player, 1, block.as_mut_ptr(), 2 * count) });
        values.extend_from_slice(&block[..2 * count]);
        left -= count;
    }
}

fn main() {
    let words: Vec<String> = env::args().collect();
    let [_, bank_path, notes_path, wave_path] = &words[..] else { panic!("usage: frames BANK NOTES WAVE") };
    let file = fs::read(bank_path).unwrap();
    let wave = fs::read(wave_path).unwrap();
    let wanted: Vec<i16> = wave[HEAD..].chunks_exact(2).map(|it| i16::from_le_bytes([it[0], it[1]])).collect();
    let (mut bank, mut player) = (closed(), closed());
    // The file stays until both handles are closed.
    check("open", unsafe { sfbank_abi_open(file.as_ptr(), file.len(), &mut bank, 1) });
    check("player", unsafe { sfbank_abi_player(&mut player, 1) });
    let mut values = Vec::new();
    for [start, length, preset_bank, preset, key, velocity] in read_notes(&fs::read_to_string(notes_path).unwrap()) {
        let before = start as usize - values.len() / 2;
        play(&mut player, before, &mut values);
        let (numbers, key, velocity) = ((preset_bank as u16, preset as u16), key as u8, velocity as u8);
        check("start", unsafe {
            sfbank_abi_start(&mut player, 1, &mut bank, 1, numbers.0, numbers.1, key, velocity, length)
        });
    }
    let rest = wanted.len() / 2 - values.len() / 2;
    play(&mut player, rest, &mut values);
    check("close_player", unsafe { sfbank_abi_close_player(&mut player, 1) });
    check("close", unsafe { sfbank_abi_close(&mut bank, 1) });
    assert!(values == wanted, "frame {:?} differs", values.iter().zip(&wanted).position(|(a, b)| a != b));
    println!("{}", wanted.len() / 2);
}
