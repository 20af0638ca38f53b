// SPDX-License-Identifier: Apache-2.0 OR GPL-2.0-or-later
// Logs the events of a story, which demo.c tells too, and writes the dumps of the two PEs:
//
//     demo STORY DIRECTORY
//
// The files and the stories are those of demo.c.
mod bbm_emit;

use bbm_emit::{Barrier, Buffer, Header, Kind, Label, Register, Slot, Tickets, Tlbi, TlbiAt, Tree, Words, LINE_BYTES};
use std::fs;
use std::path::Path;

const NONE: Label = Label::NONE;
const EL2_PAGE: u64 = 0x4000_0000;
const S2_PAGE: u64 = 0x4001_0000;
const KERNEL_PAGE: u64 = 0x4002_0000;
const USER_PAGE: u64 = 0x4003_0000;

/// Tables that stand before logging begins: an EL2 root, a table below it, and one block in it.
fn descriptor(place: u64) -> Option<u64> {
    Some(match place - EL2_PAGE {
        0x8 => EL2_PAGE + 0x1003,
        0x1010 => 0x8040_0701,
        _ => 0,
    })
}

/// Replaces the block by another.
fn remap(one: &Buffer, place: u64, page: u64, value: u64) {
    one.lock(3, Label::new("remap"));
    one.write(place, 0, Label::new("remap/break"));
    one.dsb(Barrier::Ishst, Label::new("remap/publish"));
    one.tlbi_at(TlbiAt::Vae2is, page, Label::new("remap/flush"));
    one.dsb(Barrier::Ish, Label::new("remap/wait"));
    one.write(place, value, Label::new("remap/make"));
    one.unlock(3, Label::new("remap"));
}

/// A guest whose stage 2 root has two pages: a block is made, and moved in two steps.
fn run_guest(two: &Buffer) {
    two.init(S2_PAGE, NONE);
    two.init(S2_PAGE + 0x1000, NONE);
    two.root(Kind::S2, None, S2_PAGE, NONE);
    two.msr(Register::VttbrEl2, S2_PAGE | 1 << 48, NONE);
    two.isb(NONE);
    two.write(S2_PAGE + 0x1008, 0x8000_07fd, NONE);
    two.dmb(Barrier::Ish, NONE);
    two.write(S2_PAGE + 0x1008, 0, NONE);
    two.dsb(Barrier::Ish, NONE);
    two.tlbi_at(TlbiAt::Ipas2e1is, 0x80_4000_0000 >> 12, NONE);
    two.dsb(Barrier::Ish, NONE);
    two.tlbi(Tlbi::Vmalle1is, NONE);
    two.dsb(Barrier::Ish, NONE);
    two.write(S2_PAGE + 0x1008, 0xc000_07fd, NONE);
    two.msr(Register::VttbrEl2, 0, NONE);
    two.isb(NONE);
    two.tlbi(Tlbi::Alle1is, NONE);
    two.dsb(Barrier::Ish, NONE);
    two.unroot(S2_PAGE, Label::new("guest/gone"));
}

fn hyp(one: &Buffer, two: &Buffer) {
    let tree = Tree { kind: Kind::El2, lock: Some(3), page: EL2_PAGE, pages: 1, start: 1 };
    one.tree(&tree, &mut descriptor, Label::new("before")).expect("each descriptor can be read");
    one.msr(Register::Ttbr0El2, EL2_PAGE, NONE);
    one.isb(NONE);
    remap(one, EL2_PAGE + 0x1010, 0x4040_0000 >> 12, 0x8060_0701);
    run_guest(two);
}

/// A process under ASID 1, a page of it, and the page taken away.
fn kernel(one: &Buffer, two: &Buffer) {
    let (null_page, asid) = (KERNEL_PAGE + 0x1000, 1 << 48);
    one.init(KERNEL_PAGE, NONE);
    one.root(Kind::Ttbr1, None, KERNEL_PAGE, NONE);
    one.init(null_page, NONE);
    one.null(null_page, NONE);
    one.msr(Register::Ttbr0El1, null_page, NONE);
    one.msr(Register::Ttbr1El1, KERNEL_PAGE | asid, NONE);
    one.isb(NONE);
    two.init(USER_PAGE, NONE);
    two.root(Kind::Ttbr0, None, USER_PAGE, NONE);
    one.msr(Register::Ttbr0El1, USER_PAGE, NONE);
    one.isb(NONE);
    one.write(USER_PAGE + 8, 0x8000_0f41, Label::new("set_pte"));
    two.write(USER_PAGE + 8, 0, Label::new("ptep_get_and_clear"));
    two.dsb(Barrier::Ishst, NONE);
    two.tlbi_at(TlbiAt::Vale1is, asid | 0x4000_0000 >> 12, Label::new("flush_tlb_page"));
    two.dsb(Barrier::Ish, NONE);
    one.write(USER_PAGE + 8, 0xc000_0f41, Label::new("set_pte"));
}

/// Each word, option, operation and register.
fn words(one: &Buffer, two: &Buffer) {
    one.init(EL2_PAGE, NONE);
    one.null(EL2_PAGE, NONE);
    one.unroot(0xffff_ffff_f000, NONE);
    one.write(0xffff_ffff_fff8, u64::MAX, NONE);
    one.write(0, 0, NONE);
    for (i, kind) in Kind::ALL.iter().enumerate() {
        one.root(*kind, if i == 0 { Some(1023) } else { None }, EL2_PAGE, NONE);
    }
    for option in Barrier::ALL {
        one.dsb(*option, NONE);
        two.dmb(*option, NONE);
    }
    for op in Tlbi::ALL {
        one.tlbi(*op, NONE);
    }
    for op in TlbiAt::ALL {
        two.tlbi_at(*op, 0x1234_5678_9abc_def0, NONE);
    }
    for register in Register::ALL {
        one.msr(*register, u64::MAX, NONE);
    }
    two.lock(0, NONE);
    two.unlock(1023, NONE);
    two.isb(NONE);
}

fn labels(one: &Buffer, two: &Buffer) {
    let texts = [
        "",
        "a",
        "mm/map.c:88",
        "0123456789abcdef0123456789ABCDEF",
        "arch/arm64/kvm/hyp/nvhe/mem_protect.c:1234",
        "two words",
        "1 w 0 0x0 0x0\n2 isb 0\r",
        "tab\tbell\x07@#\"'\\~^",
        "größer.c:7",
    ];
    for text in texts {
        one.isb(Label::new(text));
    }
    two.isb(Label::new("arch/arm64/kvm/hyp/nvhe/mem_protect.c:1234"));
    two.isb(Label::new("0123456789abcdef0123456789ABCDEF"));
    two.isb(Label::new("a\nb"));
    two.isb(Label::new(""));
}

/// The headers of registers: some that kernels and hypervisors have, and some that the profile doesn't.
fn headers() {
    let tcr_el1 = [
        0x51_00f5_b550_3510,
        0x100_0000_b519_3519,
        0x100_0000_b5a2_35a2,
        0x100_0000_b51c_351c,
        0x1000_0000_b519_7519,
        0x100_0000_b519_3511,
        0x80_0000_b510_3510,
        0x800_0000_b510_3510,
    ];
    let el2 = [
        (0x8082_3510, 0x8004_3594),
        (0x8082_3519, 0x8002_3558),
        (0x8082_3522, 0x8002_355b),
        (0x8082_3519, 0x8002_351e),
        (0x8082_3519, 0x8002_3518),
        (0x8082_7519, 0x8002_3558),
        (0x8082_3519, 0x8002_35d9),
        (0x8082_3519, 0x1_0002_3558),
    ];
    let kernels = tcr_el1.iter().enumerate().map(|(i, tcr)| Header::kernel(4, *tcr, i % 2 == 0));
    let hyps = el2.iter().enumerate().map(|(i, (tcr, vtcr))| Header::hyp(4, *tcr, *vtcr, i % 2 == 0));
    let later = (0..16).flat_map(|i| {
        let (cnp, words) = (i % 2 == 1, Words { unflushed: i / 2 % 2 == 1, inorder: i / 4 % 2 == 1, isolated: i / 8 == 1 });
        [Header::kernel(4, tcr_el1[1], cnp), Header::hyp(4, el2[1].0, el2[1].1, cnp)]
            .map(|header| header.and_then(|header| header.version_5(words)))
    });
    for header in kernels.chain(hyps).chain([Header::kernel(129, tcr_el1[0], false)]).chain(later) {
        match header {
            Ok(header) => println!("{header}"),
            Err(wrong) => println!("{wrong}"),
        }
    }
}

/// The slots first: reading the lines gives them back.
fn save(buffer: &Buffer, slots: &[Slot], directory: &Path, name: &str) -> std::io::Result<()> {
    buffer.close();
    let memory: Vec<u8> = slots.iter().flat_map(|slot| slot.parts().map(u64::to_ne_bytes)).flatten().collect();
    fs::write(directory.join(format!("{name}.slots")), memory)?;
    let mut lines = Vec::new();
    let mut text = [0; 4 * LINE_BYTES];
    loop {
        match buffer.read(&mut text) {
            0 => return fs::write(directory.join(format!("{name}.text")), lines),
            used => lines.extend_from_slice(&text[..used]),
        }
    }
}

fn main() -> std::io::Result<()> {
    let tickets = Tickets::default();
    let slots = [(); 2].map(|()| (0..4096).map(|_| Slot::default()).collect::<Vec<_>>());
    let (one, two) = (Buffer::new(&tickets, &slots[0], 0), Buffer::new(&tickets, &slots[1], 1));
    let words_of_command: Vec<String> = std::env::args().collect();
    match words_of_command[1].as_str() {
        "hyp" => hyp(&one, &two),
        "kernel" => kernel(&one, &two),
        "words" => words(&one, &two),
        "labels" => labels(&one, &two),
        "headers" => headers(),
        other => panic!("there is no story {other}"),
    }
    let directory = Path::new(&words_of_command[2]);
    save(&one, &slots[0], directory, "pe0")?;
    save(&two, &slots[1], directory, "pe1")
}
