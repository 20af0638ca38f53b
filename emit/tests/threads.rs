// SPDX-License-Identifier: Apache-2.0 OR GPL-2.0-or-later
// Threads that log as PEs do, each into the file peN.text of a directory:
//
//     threads apart DIRECTORY     four PEs, each with its buffer, that move blocks of one tree under its lock
//     threads shared DIRECTORY    two threads that log into one buffer
//     threads small DIRECTORY     one PE, whose buffer is too small for the last two of its events
#[path = "../bbm_emit.rs"]
mod bbm_emit;

use bbm_emit::{here, Barrier, Buffer, Kind, Label, Slot, Tickets, TlbiAt, LINE_BYTES};
use std::fs;
use std::io::Result;
use std::path::Path;
use std::sync::Mutex;

const NONE: Label = Label::NONE;
const PES: u8 = 4;
const ROUNDS: u64 = 2000;
const LOCK: u16 = 5;
const PAGE: u64 = 0x4000_0000;
const BLOCK: u64 = 0x8000_0701;

fn slots(count: usize) -> Vec<Slot> {
    (0..count).map(|_| Slot::new()).collect()
}

fn declare(buffer: &Buffer, lock: Option<u16>) {
    buffer.init(PAGE, here!());
    buffer.root(Kind::El2, lock, PAGE, here!());
}

/// Moves the block of one descriptor.
fn move_block(buffer: &Buffer, index: u64, value: u64) {
    let place = PAGE + 8 * index;
    buffer.write(place, 0, Label::new("move:break"));
    buffer.dsb(Barrier::Ishst, NONE);
    buffer.tlbi_at(TlbiAt::Vae2is, index << 18, NONE);
    buffer.dsb(Barrier::Ish, NONE);
    buffer.write(place, value, Label::new("move:make"));
}

fn save(buffer: &Buffer, directory: &Path, pe: u8) -> Result<()> {
    buffer.close();
    let mut lines = Vec::new();
    let mut text = [0; 8 * LINE_BYTES];
    loop {
        match buffer.read(&mut text) {
            0 => return fs::write(directory.join(format!("pe{pe}.text")), lines),
            used => lines.extend_from_slice(&text[..used]),
        }
    }
}

fn apart(directory: &Path) -> Result<()> {
    let (tickets, tree) = (Tickets::new(), Mutex::new(()));
    let room: Vec<Vec<Slot>> = (0..PES).map(|_| slots(1 << 15)).collect();
    let buffers: Vec<Buffer> = (0..PES).map(|pe| Buffer::new(&tickets, &room[usize::from(pe)], pe)).collect();
    declare(&buffers[0], Some(LOCK));
    std::thread::scope(|scope| {
        for (index, buffer) in (0..).zip(&buffers) {
            let tree = &tree;
            scope.spawn(move || {
                for round in 0..ROUNDS {
                    let guard = tree.lock().expect("no thread panics");
                    buffer.lock(LOCK, here!());
                    move_block(buffer, index, BLOCK + (round << 30));
                    buffer.unlock(LOCK, here!());
                    drop(guard);
                }
            });
        }
    });
    (0..PES).try_for_each(|pe| save(&buffers[usize::from(pe)], directory, pe))
}

fn shared(directory: &Path) -> Result<()> {
    let (tickets, room) = (Tickets::new(), slots(1 << 15));
    let buffer = Buffer::new(&tickets, &room, 0);
    declare(&buffer, None);
    std::thread::scope(|scope| {
        for index in 0..2 {
            let buffer = &buffer;
            scope.spawn(move || (0..ROUNDS).for_each(|round| move_block(buffer, index, BLOCK + (round << 30))));
        }
    });
    save(&buffer, directory, 0)
}

fn small(directory: &Path) -> Result<()> {
    let (tickets, room) = (Tickets::new(), slots(7));
    let buffer = Buffer::new(&tickets, &room, 0);
    declare(&buffer, None);
    buffer.write(PAGE, BLOCK, here!());
    move_block(&buffer, 0, BLOCK + 0x4000_0000);
    assert_eq!(buffer.lost(), 2);
    save(&buffer, directory, 0)
}

fn main() -> Result<()> {
    let words: Vec<String> = std::env::args().collect();
    let directory = Path::new(&words[2]);
    match words[1].as_str() {
        "apart" => apart(directory),
        "shared" => shared(directory),
        "small" => small(directory),
        other => panic!("there is no test {other}"),
    }
}
