// SPDX-License-Identifier: Apache-2.0 OR GPL-2.0-or-later
//! Keeps the events of a bbm log in a kernel or a hypervisor in Rust. It needs `core` alone, and has no `unsafe`.
//!
//! Each PE has a `Buffer` of its own. Each event takes a ticket, one number for all PEs, and a slot of its buffer. A
//! buffer is got out as text, by `Buffer::read`, or as its slots lie in memory, and `merge` puts the events of all
//! buffers into one log, by their tickets. Tickets are dense, and `Buffer::close` says how many were taken: so `merge`
//! sees each event that is missing.
//!
//! Where to call each method, before or after the instruction that it tells of, is in docs/LOGGING.md.
//!
//! A call takes no memory and no lock, and may be made in any context: an interrupt handler and another PE may log into
//! the buffer in which a call is under way, since each call first has its slot alone and then fills it.
//!
//! Slots have the layout of those of bbm_emit.h, and text is the same to the byte.

#[cfg(not(target_pointer_width = "64"))]
compile_error!("bbm_emit is for 64 bits");

use core::fmt::{self, Write};
use core::sync::atomic::{AtomicU64, Ordering};

/// The longest label.
pub const LABEL_BYTES: usize = 32;
/// Room for any line of a dump.
pub const LINE_BYTES: usize = 128;

const PAGE_BYTES: u64 = 4096;
const TABLE_ENTRIES: u64 = 512;

/// An enumeration of words: a variant's number is that of a slot, and its text that of a log.
macro_rules! words {
    ($(#[$about:meta])* $name:ident { $($variant:ident $text:literal,)* }) => {
        $(#[$about])*
        #[derive(Clone, Copy, Debug, PartialEq, Eq)]
        #[repr(u8)]
        pub enum $name { $($variant),* }

        impl $name {
            /// All of them, in the order of their numbers.
            pub const ALL: &'static [$name] = &[$($name::$variant),*];
            const TEXTS: &'static [&'static str] = &[$($text),*];
        }
    };
}

words! {
    /// The kind of a root.
    Kind { El2 "el2", S2 "s2", Ttbr0 "ttbr0", Ttbr1 "ttbr1", }
}

words! {
    /// The option of a DSB or a DMB.
    Barrier {
        Sy "sy", St "st", Ld "ld",
        Ish "ish", Ishst "ishst", Ishld "ishld",
        Osh "osh", Oshst "oshst", Oshld "oshld",
        Nsh "nsh", Nshst "nshst", Nshld "nshld",
    }
}

words! {
    /// A TLBI that has no operand.
    Tlbi {
        Alle2 "alle2", Alle2is "alle2is",
        Alle1 "alle1", Alle1is "alle1is",
        Vmalle1 "vmalle1", Vmalle1is "vmalle1is",
        Vmalls12e1 "vmalls12e1", Vmalls12e1is "vmalls12e1is",
    }
}

words! {
    /// A TLBI that has one: for a page, for an ASID, and for a range of pages (which only logs of version 4 or later have).
    TlbiAt {
        Vae2 "vae2", Vae2is "vae2is", Vale2 "vale2", Vale2is "vale2is",
        Ipas2e1 "ipas2e1", Ipas2e1is "ipas2e1is", Ipas2le1 "ipas2le1", Ipas2le1is "ipas2le1is",
        Vae1 "vae1", Vae1is "vae1is", Vale1 "vale1", Vale1is "vale1is",
        Vaae1 "vaae1", Vaae1is "vaae1is", Vaale1 "vaale1", Vaale1is "vaale1is",
        Aside1 "aside1", Aside1is "aside1is",
        Rvae2 "rvae2", Rvae2is "rvae2is", Rvale2 "rvale2", Rvale2is "rvale2is",
        Ripas2e1 "ripas2e1", Ripas2e1is "ripas2e1is", Ripas2le1 "ripas2le1", Ripas2le1is "ripas2le1is",
        Rvae1 "rvae1", Rvae1is "rvae1is", Rvale1 "rvale1", Rvale1is "rvale1is",
        Rvaae1 "rvaae1", Rvaae1is "rvaae1is", Rvaale1 "rvaale1", Rvaale1is "rvaale1is",
    }
}

words! {
    /// A root register.
    Register { Ttbr0El2 "ttbr0_el2", VttbrEl2 "vttbr_el2", Ttbr0El1 "ttbr0_el1", Ttbr1El1 "ttbr1_el1", }
}

words! {
    /// What a slot tells. `Close` is no event: it ends the dump of a buffer.
    Word {
        Nothing "nothing", Init "init", Null "null", Root "root", Unroot "unroot", W "w", Dsb "dsb", Dmb "dmb",
        Isb "isb", Tlbi "tlbi", TlbiAt "tlbi", Msr "msr", Lock "lock", Unlock "unlock", Close "close",
    }
}

/// Where an event comes from: a text of at most 32 bytes, or nothing.
#[derive(Clone, Copy, Debug, Default, PartialEq, Eq)]
pub struct Label([u8; LABEL_BYTES]);

impl Label {
    pub const NONE: Label = Label([0; LABEL_BYTES]);

    /// The label of a text. Of a longer one it is the last 32 bytes. Bytes that a label can't have are told as `_`.
    pub const fn new(text: &str) -> Label {
        let from = text.as_bytes();
        let start = from.len().saturating_sub(LABEL_BYTES);
        let mut label = Label::NONE;
        let mut i = start;
        while i < from.len() {
            label.0[i - start] = from[i];
            i += 1;
        }
        label
    }

    /// Its bytes as a slot keeps them.
    fn parts(&self) -> [u64; 4] {
        let mut parts = [0; 4];
        for (part, bytes) in parts.iter_mut().zip(self.0.chunks_exact(8)) {
            *part = bytes.iter().rev().fold(0, |sum, byte| sum << 8 | u64::from(*byte));
        }
        parts
    }
}

/// The label of this line of the source: the path of its file and its number. `Label` has to be in scope.
#[allow(unused_macros)]
macro_rules! here {
    () => {{
        const HERE: Label = Label::new(concat!(file!(), ":", line!()));
        HERE
    }};
}
#[allow(unused_imports)]
pub(crate) use here;

/// The tickets: one object for all PEs.
#[derive(Debug, Default)]
pub struct Tickets(AtomicU64);

/// In the tickets: the log is closed.
const STOPPED: u64 = 1 << 63;

impl Tickets {
    pub const fn new() -> Tickets {
        Tickets(AtomicU64::new(0))
    }

    /// The next ticket, or nothing once the log is closed.
    fn take(&self) -> Option<u64> {
        let next = |ticket: u64| (ticket & STOPPED == 0).then(|| ticket + 1);
        self.0.fetch_update(Ordering::SeqCst, Ordering::SeqCst, next).ok()
    }

    /// From now on there is no ticket. The number of those that were taken.
    fn stop(&self) -> u64 {
        self.0.fetch_or(STOPPED, Ordering::SeqCst) & !STOPPED
    }
}

/// One event: 64 bytes, zero while it is empty. Its parts are those of `struct bbm_slot`: the mark; word, PE, detail and
/// lock; the first and the second number; the label.
#[derive(Debug, Default)]
#[repr(transparent)]
pub struct Slot([AtomicU64; 8]);

const MARK: usize = 0;
const WHAT: usize = 1;
const FIRST: usize = 2;
const SECOND: usize = 3;
const LABEL: usize = 4;

/// What an event tells, besides its ticket and its PE.
#[derive(Clone, Copy)]
struct Told {
    word: Word,
    detail: u8,
    lock: i32,
    first: u64,
    second: u64,
}

impl Told {
    const fn new(word: Word) -> Told {
        Told { word, detail: 0, lock: 0, first: 0, second: 0 }
    }

    const fn at(word: Word, first: u64) -> Told {
        Told { first, ..Told::new(word) }
    }
}

/// The lock of a root whose writers hold none, in a slot.
const NO_LOCK: i32 = -1;

/// What arrays are made of.
#[allow(clippy::declare_interior_mutable_const)]
const ZERO: AtomicU64 = AtomicU64::new(0);

impl Slot {
    /// An empty one. For an array of them: `const EMPTY: Slot = Slot::new();` and `[EMPTY; 16384]`.
    pub const fn new() -> Slot {
        Slot([ZERO; 8])
    }

    /// Its parts as they lie in memory.
    pub fn parts(&self) -> [u64; 8] {
        core::array::from_fn(|i| self.0[i].load(Ordering::Relaxed))
    }

    /// The mark comes last, so that nobody reads a slot that isn't whole.
    fn fill(&self, ticket: u64, pe: u8, told: Told, label: Label) {
        let word = u64::from(told.word as u8) | u64::from(pe) << 8 | u64::from(told.detail) << 16;
        self.0[WHAT].store(word | u64::from(told.lock as u32) << 32, Ordering::Relaxed);
        self.0[FIRST].store(told.first, Ordering::Relaxed);
        self.0[SECOND].store(told.second, Ordering::Relaxed);
        for (part, value) in self.0[LABEL..].iter().zip(label.parts()) {
            part.store(value, Ordering::Relaxed);
        }
        self.0[MARK].store(ticket + 1, Ordering::Release);
    }
}

/// The buffer of one PE, a ring of slots. Its methods need no exclusive reference: handlers and threads may share it.
#[derive(Debug)]
pub struct Buffer<'a> {
    tickets: &'a Tickets,
    slots: &'a [Slot],
    pe: u8,
    next: AtomicU64,
    read: AtomicU64,
    lost: AtomicU64,
}

impl<'a> Buffer<'a> {
    /// The buffer of the PE of this number, 0 to 127. The slots are empty. The last free one is kept for the closing line.
    pub const fn new(tickets: &'a Tickets, slots: &'a [Slot], pe: u8) -> Buffer<'a> {
        Buffer { tickets, slots, pe, next: ZERO, read: ZERO, lost: ZERO }
    }

    /// The events that found no slot. With one of them `merge` gives no log.
    pub fn lost(&self) -> u64 {
        self.lost.load(Ordering::Acquire)
    }

    /// A slot for this call alone, which leaves at least `spare` others free.
    fn take_slot(&self, spare: u64) -> Option<&'a Slot> {
        let room = self.slots.len() as u64;
        let free = |next: u64| {
            let taken = next + spare;
            (taken < self.read.load(Ordering::Acquire) + room).then(|| next + 1)
        };
        let next = self.next.fetch_update(Ordering::SeqCst, Ordering::SeqCst, free).ok()?;
        self.slots.get((next % room) as usize)
    }

    /// Keeps one event.
    fn keep(&self, told: Told, label: Label) {
        let Some(ticket) = self.tickets.take() else { return };
        match self.take_slot(1) {
            Some(slot) => slot.fill(ticket, self.pe, told, label),
            None => self.count_lost(),
        }
    }

    fn count_lost(&self) {
        self.lost.fetch_add(1, Ordering::AcqRel);
    }

    /// The page is about to be made zero, to become a table.
    pub fn init(&self, page: u64, label: Label) {
        self.keep(Told::at(Word::Init, page), label);
    }

    /// The page stays empty, as a base that means no walk: of TTBR0_EL1, and under version 5 of each root register.
    pub fn null(&self, page: u64, label: Label) {
        self.keep(Told::at(Word::Null, page), label);
    }

    /// The page is the first of a root, whose writers hold the lock, 0 to 1023, or none.
    pub fn root(&self, kind: Kind, lock: Option<u16>, page: u64, label: Label) {
        let lock = lock.map_or(NO_LOCK, i32::from);
        self.keep(Told { detail: kind as u8, lock, ..Told::at(Word::Root, page) }, label);
    }

    /// The root with this first page is given up.
    pub fn unroot(&self, page: u64, label: Label) {
        self.keep(Told::at(Word::Unroot, page), label);
    }

    /// A descriptor is about to be stored at this physical address.
    pub fn write(&self, place: u64, value: u64, label: Label) {
        self.keep(Told { second: value, ..Told::at(Word::W, place) }, label);
    }

    /// A DSB has completed.
    pub fn dsb(&self, option: Barrier, label: Label) {
        self.keep(Told { detail: option as u8, ..Told::new(Word::Dsb) }, label);
    }

    /// A DMB, which has no effect.
    pub fn dmb(&self, option: Barrier, label: Label) {
        self.keep(Told { detail: option as u8, ..Told::new(Word::Dmb) }, label);
    }

    /// An ISB, an exception entry or an exception return has happened.
    pub fn isb(&self, label: Label) {
        self.keep(Told::new(Word::Isb), label);
    }

    /// A TLBI without an operand is about to be issued.
    pub fn tlbi(&self, op: Tlbi, label: Label) {
        self.keep(Told { detail: op as u8, ..Told::new(Word::Tlbi) }, label);
    }

    /// A TLBI is about to be issued with this value of its register.
    pub fn tlbi_at(&self, op: TlbiAt, operand: u64, label: Label) {
        self.keep(Told { detail: op as u8, ..Told::at(Word::TlbiAt, operand) }, label);
    }

    /// A root register is about to be written.
    pub fn msr(&self, register: Register, value: u64, label: Label) {
        self.keep(Told { detail: register as u8, ..Told::at(Word::Msr, value) }, label);
    }

    /// The lock was just taken; called inside of it.
    pub fn lock(&self, lock: u16, label: Label) {
        self.keep(Told { lock: i32::from(lock), ..Told::new(Word::Lock) }, label);
    }

    /// The lock is about to be given back; called inside of it.
    pub fn unlock(&self, lock: u16, label: Label) {
        self.keep(Told { lock: i32::from(lock), ..Told::new(Word::Unlock) }, label);
    }

    /// Ends the log, for all PEs: from the first call on no event takes a ticket. Then puts into this buffer how many
    /// tickets were taken, and how many of its events were lost. To be called once for each buffer, by any PE.
    pub fn close(&self) {
        let taken = self.tickets.stop();
        if let Some(slot) = self.take_slot(0) {
            slot.fill(taken, self.pe, Told { second: self.lost(), ..Told::at(Word::Close, taken) }, Label::NONE);
        }
    }

    /// Writes what the buffer has, oldest first, as whole lines of text, gives their slots back, and tells the number of
    /// bytes: 0 where there is nothing now, or no room for a line (`LINE_BYTES` are enough). It stops at a slot that is
    /// being filled. Any PE may read while others log, but one at a time.
    pub fn read(&self, text: &mut [u8]) -> usize {
        let mut used = 0;
        while text.len() - used >= LINE_BYTES {
            let read = self.read.load(Ordering::Acquire);
            let Some(slot) = self.slots.get((read % self.slots.len().max(1) as u64) as usize) else { break };
            if slot.0[MARK].load(Ordering::Acquire) == 0 {
                break;
            }
            let mut line = Text { bytes: &mut text[used..], used: 0 };
            // A line has fewer bytes than there is room for.
            let _ = write_line(&mut line, &slot.parts());
            used += line.used;
            slot.0[MARK].store(0, Ordering::Release);
            self.read.store(read + 1, Ordering::Release);
        }
        used
    }
}

/// A tree of tables that stands before logging begins.
#[derive(Clone, Copy, Debug)]
pub struct Tree {
    pub kind: Kind,
    pub lock: Option<u16>,
    /// The first page of its root.
    pub page: u64,
    /// How many pages its root has: 1, but for stage 2.
    pub pages: u64,
    /// The level at which walks start.
    pub start: u8,
}

/// A descriptor of a tree could not be read.
#[derive(Clone, Copy, Debug, PartialEq, Eq)]
pub struct Unreadable;

const LAST_LEVEL: u8 = 3;
const DESCRIPTOR_TYPE: u64 = 3;
const DESCRIPTOR_TABLE: u64 = 3;
const DESCRIPTOR_NEXT: u64 = 0xffff_ffff_f000;

impl Buffer<'_> {
    /// Logs a tree as if it had just been built: each of its pages as a fresh one, and then its root. Nothing may change
    /// the tree meanwhile. `descriptor` reads at a physical address; where it can't, that counts as a lost event.
    pub fn tree(
        &self,
        tree: &Tree,
        descriptor: &mut dyn FnMut(u64) -> Option<u64>,
        label: Label,
    ) -> Result<(), Unreadable> {
        for page in 0..tree.pages {
            self.table(tree.page + page * PAGE_BYTES, tree.start, descriptor, label)?;
        }
        self.root(tree.kind, tree.lock, tree.page, label);
        Ok(())
    }

    /// Logs the page of a table and those below it. It calls itself once a level.
    fn table(
        &self,
        page: u64,
        level: u8,
        descriptor: &mut dyn FnMut(u64) -> Option<u64>,
        label: Label,
    ) -> Result<(), Unreadable> {
        self.init(page, label);
        for place in (0..TABLE_ENTRIES).map(|i| page + 8 * i) {
            let Some(value) = descriptor(place) else {
                self.count_lost();
                return Err(Unreadable);
            };
            if value != 0 {
                self.write(place, value, label);
            }
            if level < LAST_LEVEL && value & DESCRIPTOR_TYPE == DESCRIPTOR_TABLE {
                self.table(value & DESCRIPTOR_NEXT, level + 1, descriptor, label)?;
            }
        }
        Ok(())
    }
}

/// Text in the making.
struct Text<'a> {
    bytes: &'a mut [u8],
    used: usize,
}

impl Write for Text<'_> {
    fn write_str(&mut self, text: &str) -> fmt::Result {
        let end = self.used + text.len();
        let room = self.bytes.get_mut(self.used..end).ok_or(fmt::Error)?;
        room.copy_from_slice(text.as_bytes());
        self.used = end;
        Ok(())
    }
}

/// The line of a slot, by its parts.
fn write_line(line: &mut Text<'_>, parts: &[u64; 8]) -> fmt::Result {
    let what = parts[WHAT];
    let (word, pe, detail) = (what as u8, (what >> 8) as u8, (what >> 16) as u8 as usize);
    let (lock, first, second) = ((what >> 32) as i32, parts[FIRST], parts[SECOND]);
    let Some(word) = Word::ALL.get(usize::from(word)) else { return Err(fmt::Error) };
    write!(line, "{} {} {pe}", parts[MARK] - 1, Word::TEXTS[*word as usize])?;
    match word {
        Word::Nothing | Word::Isb => {}
        Word::Init | Word::Null | Word::Unroot => write!(line, " {first:#x}")?,
        Word::Root if lock == NO_LOCK => write!(line, " {} - {first:#x}", Kind::TEXTS[detail])?,
        Word::Root => write!(line, " {} {lock} {first:#x}", Kind::TEXTS[detail])?,
        Word::W => write!(line, " {first:#x} {second:#x}")?,
        Word::Dsb | Word::Dmb => write!(line, " {}", Barrier::TEXTS[detail])?,
        Word::Tlbi => write!(line, " {}", Tlbi::TEXTS[detail])?,
        Word::TlbiAt => write!(line, " {} {first:#x}", TlbiAt::TEXTS[detail])?,
        Word::Msr => write!(line, " {} {first:#x}", Register::TEXTS[detail])?,
        Word::Lock | Word::Unlock => write!(line, " {lock}")?,
        Word::Close => write!(line, " tickets {first} lost {second}")?,
    }
    write_label(line, &parts[LABEL..])?;
    line.write_char('\n')
}

fn write_label(line: &mut Text<'_>, parts: &[u64]) -> fmt::Result {
    let bytes = parts.iter().flat_map(|part| (0..8).map(move |i| (part >> (8 * i)) as u8));
    for (i, byte) in bytes.take_while(|byte| *byte != 0).enumerate() {
        if i == 0 {
            line.write_str(" @")?;
        }
        let c = char::from(byte);
        line.write_char(if c.is_ascii_alphanumeric() || "./:_-".contains(c) { c } else { '_' })?;
    }
    Ok(())
}

/// The level at which walks start, and the pages of a root.
#[derive(Clone, Copy, Debug, PartialEq, Eq)]
pub struct Walk {
    pub start: u8,
    pub pages: u64,
}

const PAGE_BITS: u32 = 12;
/// Of an address, that a table takes.
const TABLE_BITS: u32 = 9;
const MOST_BITS: u32 = 48;
/// At most 16 pages of a stage 2 root.
const JOINED_BITS: u32 = 4;

/// The bits of an input address that the tables from this level on leave to those above them.
const fn bits_below(level: u8) -> u32 {
    PAGE_BITS + TABLE_BITS * (LAST_LEVEL - level) as u32
}

impl Walk {
    /// Of stage 1 with TxSZ, with the 4 KiB granule and at most 48 bits; nothing where the profile has no such walk.
    pub fn stage1(txsz: u32) -> Option<Walk> {
        let bits = 64u32.checked_sub(txsz).filter(|bits| *bits <= MOST_BITS)?;
        let start = (0..LAST_LEVEL).find(|level| bits > bits_below(*level))?;
        Some(Walk { start, pages: 1 })
    }

    /// Of stage 2 by T0SZ and SL0 of VTCR_EL2, likewise.
    pub fn stage2(t0sz: u32, sl0: u32) -> Option<Walk> {
        let bits = 64u32.checked_sub(t0sz).filter(|bits| *bits <= MOST_BITS)?;
        let start = 2u32.checked_sub(sl0)? as u8;
        let over = bits.checked_sub(bits_below(start)).filter(|over| (1..=TABLE_BITS + JOINED_BITS).contains(over))?;
        Some(Walk { start, pages: 1 << over.saturating_sub(TABLE_BITS) })
    }
}

/// The version of a log.
#[derive(Clone, Copy, Debug, PartialEq, Eq)]
pub enum Version {
    Four,
    /// A draft.
    Five(Words),
}

/// What a header of version 5 may say besides.
#[derive(Clone, Copy, Debug, Default, PartialEq, Eq)]
pub struct Words {
    /// A root may be given up while TLBs may keep what was read through it.
    pub unflushed: bool,
    /// A kernel's root registers come into use in the order of their writes.
    pub inorder: bool,
    /// No guest may reach a hypervisor's tables, which is judged.
    pub isolated: bool,
}

impl Version {
    fn number(self) -> u32 {
        if self == Version::Four { 4 } else { 5 }
    }

    /// What stands behind the numbers of a header.
    fn write_words(self, cnp: bool, f: &mut fmt::Formatter<'_>) -> fmt::Result {
        let (is_field, words) = match self {
            Version::Four => (true, Words::default()),
            Version::Five(words) => (false, words),
        };
        let said = [
            (cnp, " cnp"),
            (is_field && !cnp, " -"),
            (words.unflushed, " unflushed"),
            (words.inorder, " inorder"),
            (words.isolated, " isolated"),
        ];
        said.into_iter().filter(|(is_said, _)| *is_said).try_for_each(|(_, word)| f.write_str(word))
    }
}

/// The header of a log.
#[derive(Clone, Copy, Debug, PartialEq, Eq)]
pub enum Header {
    Kernel { version: Version, pes: u32, lower: Walk, upper: Walk, asid_from: Register, cnp: bool },
    Hyp { version: Version, pes: u32, own: Walk, guests: Walk, cnp: bool },
}

impl fmt::Display for Header {
    fn fmt(&self, f: &mut fmt::Formatter<'_>) -> fmt::Result {
        match *self {
            Header::Kernel { version, pes, lower, upper, asid_from, cnp } => {
                let from = if asid_from == Register::Ttbr1El1 { "ttbr1" } else { "ttbr0" };
                write!(f, "bbmlog {} kernel {pes} {} {} {from}", version.number(), lower.start, upper.start)?;
                version.write_words(cnp, f)
            }
            Header::Hyp { version, pes, own, guests, cnp } => {
                write!(f, "bbmlog {} hyp {pes} {} {} {}", version.number(), own.start, guests.start, guests.pages)?;
                version.write_words(cnp, f)
            }
        }
    }
}

/// `bits` bits of a register from `shift` on.
const fn field(value: u64, shift: u32, bits: u32) -> u32 {
    (value >> shift) as u32 & ((1 << bits) - 1)
}

const TXSZ_BITS: u32 = 6;
const TG_BITS: u32 = 2;
/// The 4 KiB granule: the two fields have numbers of their own.
const TG0_4K: u32 = 0;
const TG1_4K: u32 = 2;

impl Header {
    /// That of a kernel, by TCR_EL1; `cnp` says whether any root register has CnP. The error is what the profile doesn't
    /// have, as a sentence.
    pub fn kernel(pes: u32, tcr_el1: u64, cnp: bool) -> Result<Header, &'static str> {
        let t1sz = field(tcr_el1, 16, TXSZ_BITS);
        if !(1..=128).contains(&pes) {
            return Err("a log has 1 to 128 PEs");
        }
        if field(tcr_el1, 14, TG_BITS) != TG0_4K || field(tcr_el1, 30, TG_BITS) != TG1_4K {
            return Err("a granule of TCR_EL1 isn't 4 KiB");
        }
        if field(tcr_el1, 59, 1) != 0 {
            return Err("TCR_EL1.DS is set: descriptors have 52-bit addresses");
        }
        let (Some(lower), Some(upper)) = (Walk::stage1(field(tcr_el1, 0, TXSZ_BITS)), Walk::stage1(t1sz)) else {
            return Err("T0SZ or T1SZ of TCR_EL1 has no start level of 0, 1 or 2");
        };
        if 64 - t1sz != bits_below(upper.start) + TABLE_BITS {
            return Err("T1SZ of TCR_EL1 isn't 16, 25 or 34: the first table of the upper range isn't a whole page");
        }
        let asid_from = if field(tcr_el1, 22, 1) != 0 { Register::Ttbr1El1 } else { Register::Ttbr0El1 };
        Ok(Header::Kernel { version: Version::Four, pes, lower, upper, asid_from, cnp })
    }

    /// That of a hypervisor, by TCR_EL2 and VTCR_EL2, likewise.
    pub fn hyp(pes: u32, tcr_el2: u64, vtcr_el2: u64, cnp: bool) -> Result<Header, &'static str> {
        if !(1..=128).contains(&pes) {
            return Err("a log has 1 to 128 PEs");
        }
        if field(tcr_el2, 14, TG_BITS) != TG0_4K || field(vtcr_el2, 14, TG_BITS) != TG0_4K {
            return Err("a granule of TCR_EL2 or VTCR_EL2 isn't 4 KiB");
        }
        if field(tcr_el2, 32, 1) != 0 || field(vtcr_el2, 32, 1) != 0 {
            return Err("DS of TCR_EL2 or VTCR_EL2 is set: descriptors have 52-bit addresses");
        }
        let own = Walk::stage1(field(tcr_el2, 0, TXSZ_BITS)).ok_or("T0SZ of TCR_EL2 has no start level of 0, 1 or 2")?;
        let guests = Walk::stage2(field(vtcr_el2, 0, TXSZ_BITS), field(vtcr_el2, 6, 2))
            .ok_or("T0SZ and SL0 of VTCR_EL2 don't go together, or start at level 3")?;
        Ok(Header::Hyp { version: Version::Four, pes, own, guests, cnp })
    }

    /// This header, as one of version 5. The error is what the profile doesn't have, as a sentence.
    pub fn version_5(mut self, words: Words) -> Result<Header, &'static str> {
        if words.inorder && matches!(self, Header::Hyp { .. }) {
            return Err("the word inorder is of kernels alone");
        }
        if words.isolated && matches!(self, Header::Kernel { .. }) {
            return Err("the word isolated is of hypervisors alone");
        }
        let (Header::Kernel { version, .. } | Header::Hyp { version, .. }) = &mut self;
        *version = Version::Five(words);
        Ok(self)
    }
}
