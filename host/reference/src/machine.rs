//! The frame machine: document 01, "Frames" and refusals 16 to 23 of "When the bridge says no", with
//! what document 02 changes: No. 1, AIX; No. 8, the floor under the stack pointer; No. 9, leaves. The
//! state has the words of the C surface, so that any state at all can be handed in, also one that no
//! calls lead to. Every function tests first and changes afterwards, so that a refused call changes
//! nothing. Addresses are computed in 128 bits, where no sum of theirs can wrap.

use crate::{Convention, Refusal};

const MOST_FRAMES: u64 = 32;
const LONGEST_WRITE: usize = 256;
/// CR fields 2 to 4 of the 32-bit word whose top four bits are field 0.
const SAVED_CR_FIELDS: u64 = 0x00ff_f000;

#[derive(Clone, Copy, Debug, PartialEq, Eq)]
pub struct Registers {
    pub gpr: [u64; 32],
    pub fpr: [u64; 32],
    pub lr: u64,
    pub cr: u64,
}

/// What an enter asks for, and the record that is kept of it.
#[derive(Clone, Copy, Debug, Default, PartialEq, Eq)]
pub struct Request {
    /// Document 01's g: r(g) up to the last one are saved.
    pub first_gpr: u64,
    /// Document 01's m: f(m) up to the last one are saved.
    pub first_fpr: u64,
    pub saves_cr: u64,
    /// Document 01's L.
    pub locals: u64,
    /// Document 01's P.
    pub outgoing: u64,
    /// 02, No. 9: 1 for a leaf, which has no frame.
    pub leaf: u64,
}

#[derive(Clone, Debug, PartialEq, Eq)]
pub struct Machine {
    /// 1 PPC64, 2 Z, 3 AIX; no other is a convention.
    pub convention: u64,
    pub base: u64,
    pub size: u64,
    pub depth: u64,
    pub registers: Registers,
    pub frames: [Request; 32],
}

/// What a save slot holds.
#[derive(Clone, Copy, Debug, PartialEq, Eq)]
pub enum Saved {
    Gpr(usize),
    Fpr(usize),
    Cr,
    Lr,
}

impl Saved {
    /// The slot's bytes: a general register's and LR's are a word of the convention.
    pub fn width(self, convention: Convention) -> usize {
        match self {
            Saved::Gpr(_) | Saved::Lr => convention.word(),
            Saved::Fpr(_) => 8,
            Saved::Cr => 4,
        }
    }
}

/// What the frames of PPC64 and AIX differ in, beside the width of a word.
struct PowerPc {
    header: u64,
    least_outgoing: u64,
    /// Where CR and LR are saved, from the caller's stack pointer.
    cr: u64,
    lr: u64,
    /// The first general register that is saved where asked.
    first_gpr: u64,
    floor: u64,
    /// How far below the memory's end the start's stack pointer is.
    start: u64,
}

const PPC64: PowerPc = PowerPc {
    header: 48,
    least_outgoing: 64,
    cr: 8,
    lr: 16,
    first_gpr: 14,
    floor: 288,
    start: 112,
};

/// 02, No. 1: "Header 24 bytes, CR at 4, LR at 8. Saves start at r13"; "24 + max(32, P) + L"; "start is
/// at B + N - 64". No. 8: "220 on AIX".
const AIX: PowerPc = PowerPc {
    header: 24,
    least_outgoing: 32,
    cr: 4,
    lr: 8,
    first_gpr: 13,
    floor: 220,
    start: 64,
};

/// The numbers of a convention that is not Z.
fn powerpc(convention: Convention) -> Option<&'static PowerPc> {
    match convention {
        // 02, No. 12: code 4 is "PPC64 with that rule", which is none of frames
        Convention::Ppc64 | Convention::Ppc64b => Some(&PPC64),
        Convention::Aix => Some(&AIX),
        Convention::Z => None,
    }
}

/// The largest number that a general register or LR holds, and that a memory may end at.
fn largest_word(convention: Convention) -> u64 {
    match convention {
        Convention::Ppc64 | Convention::Z | Convention::Ppc64b => u64::MAX,
        Convention::Aix => 0xffff_ffff,
    }
}

/// The areas that a frame may write.
#[derive(Clone, Copy, Debug, PartialEq, Eq)]
pub enum AreaKind {
    Locals,
    OwnOutgoing,
    CallersOutgoing,
    /// The floor's bytes below a leaf's saves.
    Floor,
}

/// Bytes of memory from `start` up to, not including, `end`.
#[derive(Clone, Copy, Debug, PartialEq, Eq)]
pub struct Area {
    pub kind: AreaKind,
    pub start: u128,
    pub end: u128,
}

/// Starts a machine on this memory. A refused start gives a machine all the same: "registers as
/// handed in, base, size, depth and records 0". Of CR an accepted start takes the low 32 bits, on AIX
/// of general registers and LR too: "Start clears the high halves of GPRs and LR".
pub fn start(
    convention: Convention,
    registers: &Registers,
    base: u64,
    memory: &mut [u8],
) -> (Machine, Result<(), Refusal>) {
    let mut machine = Machine {
        convention: u64::from(convention.code()),
        base: 0,
        size: 0,
        depth: 0,
        registers: *registers,
        frames: [Request::default(); 32],
    };
    let size = memory.len() as u64;
    if !memory_allowed(convention, base, size) {
        return (machine, refuse(16));
    }
    machine.registers.cr &= 0xffff_ffff;
    machine.registers.lr &= largest_word(convention);
    for gpr in &mut machine.registers.gpr {
        *gpr &= largest_word(convention);
    }
    machine.base = base;
    machine.size = size;
    let pointer = first_pointer(convention, base, size) as u64;
    machine.registers.gpr[pointer_register(convention)] = pointer;
    machine.put(memory, u128::from(pointer), 0, convention.word());
    (machine, Ok(()))
}

impl Machine {
    pub fn enter(&mut self, request: &Request, memory: &mut [u8]) -> Result<(), Refusal> {
        let convention = self.tested(memory)?;
        if !request_allowed(convention, request) {
            return refuse(17);
        }
        // 02, No. 9: "Enter above a leaf gives new refusal 28, tested after 17"
        if self.top().is_some_and(Request::is_leaf) {
            return refuse(28);
        }
        if self.depth == MOST_FRAMES {
            return refuse(18);
        }
        let caller = self.pointer(convention);
        let size = u128::from(frame_size(convention, request));
        // 02, No. 8: the floor must be free under the new stack pointer
        if caller < lowest_pointer(convention, self.base) + size {
            return refuse(19);
        }
        let pointer = caller - size;

        for (saved, at) in save_slots(convention, request, caller) {
            let value = match saved {
                Saved::Gpr(n) => self.registers.gpr[n],
                Saved::Fpr(n) => self.registers.fpr[n],
                Saved::Cr => self.registers.cr,
                Saved::Lr => self.registers.lr,
            };
            self.put(memory, at, value, saved.width(convention));
        }
        // the back chain, which a leaf has none of
        if !request.is_leaf() {
            self.put(memory, pointer, caller as u64, convention.word());
        }
        self.registers.gpr[pointer_register(convention)] = pointer as u64;
        self.frames[self.depth as usize] = *request;
        self.depth += 1;
        Ok(())
    }

    /// Banks: 0 general, 1 floating, 2 LR (which has no number: any is as good), 3 a field of CR.
    pub fn write_register(
        &mut self,
        bank: u64,
        number: u64,
        value: u64,
        memory: &[u8],
    ) -> Result<(), Refusal> {
        let convention = self.tested(memory)?;
        if !register_writable(convention, self.top(), bank, number, value) {
            return refuse(20);
        }
        match bank {
            0 => self.registers.gpr[number as usize] = value,
            1 => self.registers.fpr[number as usize] = value,
            2 => self.registers.lr = value,
            _ => {
                // field 0 is the word's top four bits
                let shift = 28 - 4 * number;
                let others = self.registers.cr & !(0xf << shift);
                self.registers.cr = others | value << shift;
            }
        }
        Ok(())
    }

    pub fn write_memory(
        &mut self,
        address: u64,
        bytes: &[u8],
        memory: &mut [u8],
    ) -> Result<(), Refusal> {
        let convention = self.tested(memory)?;
        if bytes.is_empty() || bytes.len() > LONGEST_WRITE {
            return refuse(20);
        }
        let start = u128::from(address);
        let end = start + bytes.len() as u128;
        let areas = self.areas(convention);
        if !areas
            .iter()
            .any(|area| area.start <= start && end <= area.end)
        {
            return refuse(20);
        }
        let at = (start - u128::from(self.base)) as usize;
        memory[at..at + bytes.len()].copy_from_slice(bytes);
        Ok(())
    }

    pub fn leave(&mut self, memory: &[u8]) -> Result<(), Refusal> {
        let convention = self.tested(memory)?;
        let Some(request) = self.top().copied() else {
            return refuse(22);
        };
        let pointer = self.pointer(convention);
        let caller = pointer + u128::from(frame_size(convention, &request));
        let chain_at = match convention {
            Convention::Ppc64 | Convention::Aix | Convention::Ppc64b => pointer,
            // the slot of r15
            Convention::Z => caller + 8 * 15,
        };
        // "Leave skips the back chain test for a leaf"
        let chain = self.number(memory, chain_at, convention.word());
        if !request.is_leaf() && u128::from(chain) != caller {
            return refuse(21);
        }

        for (saved, at) in save_slots(convention, &request, caller) {
            let value = self.number(memory, at, saved.width(convention));
            match saved {
                Saved::Gpr(n) => self.registers.gpr[n] = value,
                Saved::Fpr(n) => self.registers.fpr[n] = value,
                Saved::Lr => self.registers.lr = value,
                Saved::Cr => {
                    let kept = self.registers.cr & !SAVED_CR_FIELDS;
                    self.registers.cr = kept | value & SAVED_CR_FIELDS;
                }
            }
        }
        self.registers.gpr[pointer_register(convention)] = caller as u64;
        self.depth -= 1;
        self.frames[self.depth as usize] = Request::default();
        Ok(())
    }

    /// The tests of every call after the start: 23, then 16.
    fn tested(&self, memory: &[u8]) -> Result<Convention, Refusal> {
        let Some(convention) = self.possible() else {
            return refuse(23);
        };
        if memory.len() as u64 != self.size {
            return refuse(16);
        }
        Ok(convention)
    }

    /// The convention of a state whose numbers can be; nothing where they cannot.
    pub fn possible(&self) -> Option<Convention> {
        let convention = Convention::of_code(self.convention)?;
        // 02, No. 1: "a state holding one", a GPR or LR over 2^32 - 1, gives 23
        let largest = largest_word(convention);
        if self.registers.gpr.iter().any(|&gpr| gpr > largest) || self.registers.lr > largest {
            return None;
        }
        if self.registers.cr > 0xffff_ffff
            || self.depth > MOST_FRAMES
            || !memory_allowed(convention, self.base, self.size)
        {
            return None;
        }
        let entered = &self.frames[..self.depth as usize];
        if !entered
            .iter()
            .all(|frame| request_allowed(convention, frame))
        {
            return None;
        }
        // 02, No. 9: "a state with a leaf below the top gives 23"
        if let [below @ .., _] = entered {
            if below.iter().any(Request::is_leaf) {
                return None;
            }
        }
        let sizes = entered
            .iter()
            .map(|frame| u128::from(frame_size(convention, frame)));
        let pointer = self.pointer(convention);
        // 02, No. 8: "less room than this counts as below B"
        if pointer < lowest_pointer(convention, self.base)
            || pointer + sizes.sum::<u128>() != first_pointer(convention, self.base, self.size)
        {
            return None;
        }
        Some(convention)
    }

    fn pointer(&self, convention: Convention) -> u128 {
        u128::from(self.registers.gpr[pointer_register(convention)])
    }

    /// The record of the frame that was entered last and not left.
    fn top(&self) -> Option<&Request> {
        match self.depth {
            0 => None,
            depth => Some(&self.frames[depth as usize - 1]),
        }
    }

    /// Where memory may be written, in a state that can be. "At the start nothing counts as saved,
    /// with no locals, P 0 and no caller."
    pub fn areas(&self, convention: Convention) -> Vec<Area> {
        let pointer = self.pointer(convention);
        let Some(top) = self.top() else {
            return vec![outgoing(convention, AreaKind::OwnOutgoing, pointer, 0)];
        };
        let caller = pointer + u128::from(frame_size(convention, top));
        let callers_outgoing = match self.depth {
            1 => 0,
            depth => self.frames[depth as usize - 2].outgoing,
        };
        if top.is_leaf() {
            // "the bytes of the floor area of No. 8 that aren't its saves, and the caller's
            // outgoing area"
            let floor = Area {
                kind: AreaKind::Floor,
                start: pointer - u128::from(floor(convention)),
                end: pointer - u128::from(saves_below_caller(convention, top)),
            };
            let kind = AreaKind::CallersOutgoing;
            let callers = outgoing(convention, kind, pointer, callers_outgoing);
            return vec![floor, callers];
        }
        let own = outgoing(convention, AreaKind::OwnOutgoing, pointer, top.outgoing);
        // "all between the outgoing area and the saves"
        let locals = Area {
            kind: AreaKind::Locals,
            start: own.end,
            end: caller - u128::from(saves_below_caller(convention, top)),
        };
        let callers = outgoing(
            convention,
            AreaKind::CallersOutgoing,
            caller,
            callers_outgoing,
        );
        vec![locals, own, callers]
    }

    /// Puts the low bytes of a number, this many, at an address.
    fn put(&self, memory: &mut [u8], address: u128, value: u64, width: usize) {
        let at = (address - u128::from(self.base)) as usize;
        memory[at..at + width].copy_from_slice(&value.to_be_bytes()[8 - width..]);
    }

    /// The number that this many bytes at an address are.
    fn number(&self, memory: &[u8], address: u128, width: usize) -> u64 {
        let at = (address - u128::from(self.base)) as usize;
        let bytes = memory[at..at + width].iter();
        bytes.fold(0, |number, &byte| number << 8 | u64::from(byte))
    }
}

impl Request {
    pub fn is_leaf(&self) -> bool {
        self.leaf == 1
    }
}

/// Whether refusal 16 has nothing against this base and size. 02, No. 8: "Start gives 16 unless the
/// start pointer has that room"; No. 1: on AIX "B + N over 2^32 - 1 gives 16".
fn memory_allowed(convention: Convention, base: u64, size: u64) -> bool {
    size % 16 == 0
        && (256..=65_536).contains(&size)
        && base % 16 == 0
        && u128::from(base) + u128::from(size) <= u128::from(largest_word(convention))
        && lowest_pointer(convention, base) <= first_pointer(convention, base, size)
}

/// The free bytes that interrupt code trusts to be under the stack pointer: 02, No. 8.
pub fn floor(convention: Convention) -> u64 {
    powerpc(convention).map_or(0, |powerpc| powerpc.floor)
}

/// The lowest stack pointer that has the floor under it in a memory at this base.
pub fn lowest_pointer(convention: Convention, base: u64) -> u128 {
    u128::from(base) + u128::from(floor(convention))
}

/// Whether refusal 17 has nothing against this request.
pub fn request_allowed(convention: Convention, request: &Request) -> bool {
    let of_the_convention = match powerpc(convention) {
        Some(powerpc) => {
            (powerpc.first_gpr..=32).contains(&request.first_gpr)
                && (14..=32).contains(&request.first_fpr)
                && request.saves_cr <= 1
        }
        None => {
            (6..=14).contains(&request.first_gpr)
                && (8..=16).contains(&request.first_fpr)
                && request.saves_cr == 0
        }
    };
    // 02, No. 9: "PPC64 and AIX only; a leaf request on Z, or with L or P above 0, gives 17"
    let leaf_or_not = match request.leaf {
        0 => true,
        1 => convention != Convention::Z && request.locals == 0 && request.outgoing == 0,
        _ => false,
    };
    of_the_convention
        && leaf_or_not
        && request.locals <= 32_000
        && request.outgoing <= 32_776
        && request.outgoing % 8 == 0
}

/// The bytes that a frame takes, for a request that is allowed: none for a leaf.
pub fn frame_size(convention: Convention, request: &Request) -> u64 {
    if request.is_leaf() {
        return 0;
    }
    let Request {
        locals, outgoing, ..
    } = *request;
    let saves = saves_below_caller(convention, request);
    match powerpc(convention) {
        Some(powerpc) => {
            let outgoing = outgoing.max(powerpc.least_outgoing);
            (powerpc.header + outgoing + locals + saves).div_ceil(16) * 16
        }
        None => (160 + outgoing + locals + saves).div_ceil(8) * 8,
    }
}

/// Each register that an enter saves and a leave restores, with its slot's address, where the
/// caller's stack pointer is S.
pub fn save_slots(convention: Convention, request: &Request, caller: u128) -> Vec<(Saved, u128)> {
    let s = caller;
    let g = request.first_gpr as usize;
    let m = request.first_fpr as usize;
    let mut slots = Vec::new();
    match powerpc(convention) {
        Some(powerpc) => {
            let room_for_fprs = 8 * (32 - m) as u128;
            let word = convention.word() as u128;
            for n in m..32 {
                slots.push((Saved::Fpr(n), s - 8 * (32 - n) as u128));
            }
            for n in g..32 {
                slots.push((Saved::Gpr(n), s - room_for_fprs - word * (32 - n) as u128));
            }
            if request.saves_cr == 1 {
                slots.push((Saved::Cr, s + u128::from(powerpc.cr)));
            }
            // "LR is not saved" by a leaf
            if !request.is_leaf() {
                slots.push((Saved::Lr, s + u128::from(powerpc.lr)));
            }
        }
        None => {
            for n in g..16 {
                slots.push((Saved::Gpr(n), s + 8 * n as u128));
            }
            for n in m..16 {
                slots.push((Saved::Fpr(n), s - 8 * (16 - n) as u128));
            }
        }
    }
    slots
}

/// The bytes just below the caller's stack pointer that hold saved registers.
fn saves_below_caller(convention: Convention, request: &Request) -> u64 {
    let word = convention.word() as u64;
    match convention {
        Convention::Ppc64 | Convention::Aix | Convention::Ppc64b => {
            8 * (32 - request.first_fpr) + word * (32 - request.first_gpr)
        }
        // the general registers are saved above it
        Convention::Z => 8 * (16 - request.first_fpr),
    }
}

/// The outgoing area of the frame at this stack pointer. "Outgoing areas start at 48, at least 64
/// long, on PPC64; at 160 on Z"; on AIX "at 24, at least 32 long".
fn outgoing(convention: Convention, kind: AreaKind, pointer: u128, length: u64) -> Area {
    let (start, length) = match powerpc(convention) {
        Some(powerpc) => (
            pointer + u128::from(powerpc.header),
            length.max(powerpc.least_outgoing),
        ),
        None => (pointer + 160, length),
    };
    Area {
        kind,
        start,
        end: start + u128::from(length),
    }
}

/// The register that is the stack pointer.
pub fn pointer_register(convention: Convention) -> usize {
    match convention {
        Convention::Ppc64 | Convention::Aix | Convention::Ppc64b => 1,
        Convention::Z => 15,
    }
}

/// The stack pointer that a start sets, for a memory of 256 bytes or more.
pub fn first_pointer(convention: Convention, base: u64, size: u64) -> u128 {
    let below_end = powerpc(convention).map_or(160, |powerpc| powerpc.start);
    u128::from(base) + u128::from(size) - u128::from(below_end)
}

/// Whether the top frame, or the start where there is none, may write this register.
fn register_writable(
    convention: Convention,
    top: Option<&Request>,
    bank: u64,
    number: u64,
    value: u64,
) -> bool {
    let saves_from = |first: Option<u64>| first.is_some_and(|first| number >= first);
    let saved_gpr = saves_from(top.map(|request| request.first_gpr));
    let saved_fpr = saves_from(top.map(|request| request.first_fpr));
    let saved_cr = top.is_some_and(|request| request.saves_cr == 1);
    // 02, No. 1: "a GPR or LR write over 2^32 - 1 gives 20"
    if matches!(bank, 0 | 2) && value > largest_word(convention) {
        return false;
    }
    match (powerpc(convention), bank) {
        (Some(powerpc), 0) => match number {
            0 | 3..=12 => true,
            // r13 on AIX alone: "with r13 among the saved"
            13..=31 => number >= powerpc.first_gpr && saved_gpr,
            _ => false,
        },
        (Some(_), 1) => match number {
            0..=13 => true,
            14..=31 => saved_fpr,
            _ => false,
        },
        // a leaf does not save it "and so may not" write it
        (Some(_), 2) => !top.is_some_and(Request::is_leaf),
        (Some(_), 3) => {
            value <= 15
                && match number {
                    0 | 1 | 5 | 6 | 7 => true,
                    2..=4 => saved_cr,
                    _ => false,
                }
        }
        (None, 0) => match number {
            0..=5 | 14 => true,
            6..=13 => saved_gpr,
            _ => false,
        },
        (None, 1) => match number {
            0..=7 => true,
            8..=15 => saved_fpr,
            _ => false,
        },
        _ => false,
    }
}

fn refuse<T>(number: u64) -> Result<T, Refusal> {
    Err(Refusal::without_place(number))
}

#[cfg(test)]
mod tests {
    use super::*;

    const BASE: u64 = 0x1_0000;

    /// Registers that each hold a value of their own.
    fn registers() -> Registers {
        let mut registers = Registers {
            gpr: [0; 32],
            fpr: [0; 32],
            lr: 0x3000_0000_0000_0003,
            cr: 0x8765_4321,
        };
        for n in 0..32 {
            registers.gpr[n] = 0x1111_0000_0000_0000 + n as u64;
            registers.fpr[n] = 0x2222_0000_0000_0000 + n as u64;
        }
        registers
    }

    fn request(g: u64, m: u64, cr: u64, locals: u64, outgoing: u64) -> Request {
        Request {
            first_gpr: g,
            first_fpr: m,
            saves_cr: cr,
            locals,
            outgoing,
            leaf: 0,
        }
    }

    fn leaf(g: u64, m: u64, cr: u64) -> Request {
        Request {
            leaf: 1,
            ..request(g, m, cr, 0, 0)
        }
    }

    /// Bytes that are told apart by their place.
    fn pattern(length: usize) -> Vec<u8> {
        (0..length).map(|at| (11 * at + 5) as u8).collect()
    }

    fn started(convention: Convention, length: usize) -> (Machine, Vec<u8>) {
        let mut memory = pattern(length);
        let (machine, answer) = start(convention, &registers(), BASE, &mut memory);
        assert_eq!(answer, Ok(()));
        (machine, memory)
    }

    fn ppc64() -> (Machine, Vec<u8>) {
        started(Convention::Ppc64, 4096)
    }

    fn z() -> (Machine, Vec<u8>) {
        started(Convention::Z, 4096)
    }

    fn aix() -> (Machine, Vec<u8>) {
        started(Convention::Aix, 4096)
    }

    /// The registers that a start on AIX makes of these, but for the stack pointer.
    fn low_halves(mut registers: Registers) -> Registers {
        registers.lr &= 0xffff_ffff;
        for gpr in &mut registers.gpr {
            *gpr &= 0xffff_ffff;
        }
        registers
    }

    /// The doubleword at an address.
    fn at(memory: &[u8], address: u64) -> u64 {
        let at = (address - BASE) as usize;
        u64::from_be_bytes(memory[at..at + 8].try_into().unwrap())
    }

    fn refused(answer: Result<(), Refusal>, number: u64) {
        assert_eq!(answer, Err(Refusal::without_place(number)));
    }

    #[test]
    fn the_frame_sizes_of_the_document() {
        let size = |convention, request: Request| frame_size(convention, &request);
        assert_eq!(size(Convention::Ppc64, request(29, 30, 0, 20, 64)), 176);
        assert_eq!(size(Convention::Ppc64, request(14, 14, 0, 0, 0)), 400);
        assert_eq!(size(Convention::Z, request(6, 8, 0, 1, 8)), 240);
        // the smallest
        assert_eq!(size(Convention::Ppc64, request(32, 32, 1, 0, 0)), 112);
        assert_eq!(size(Convention::Z, request(14, 16, 0, 0, 0)), 160);
        assert_eq!(size(Convention::Aix, request(32, 32, 1, 0, 0)), 64);
        // 003's example: szdsa, "8*nfprs+4*ngprs+linkarea+argarea", is 276 and takes 288
        assert_eq!(size(Convention::Aix, request(13, 14, 1, 0, 32)), 288);
        assert_eq!(size(Convention::Aix, request(29, 30, 0, 20, 64)), 144);
        assert_eq!(size(Convention::Aix, request(32, 32, 0, 9, 0)), 80);
    }

    #[test]
    fn start_sets_the_stack_pointer_and_writes_a_zero_word_there() {
        for (convention, length, below_end, pointer) in [
            (Convention::Ppc64, 400, 112, 1),
            (Convention::Z, 256, 160, 15),
            (Convention::Aix, 288, 64, 1),
        ] {
            let (machine, memory) = started(convention, length);
            let size = length as u64;
            let mut expected_registers = match convention {
                Convention::Aix => low_halves(registers()),
                _ => registers(),
            };
            expected_registers.gpr[pointer] = BASE + size - below_end as u64;
            assert_eq!(machine.registers, expected_registers);
            assert_eq!((machine.base, machine.size, machine.depth), (BASE, size, 0));
            assert_eq!(machine.frames, [Request::default(); 32]);
            let mut expected = pattern(length);
            expected[length - below_end..][..convention.word()].fill(0);
            assert_eq!(memory, expected);
        }
    }

    #[test]
    fn start_takes_the_low_half_of_cr() {
        let mut handed = registers();
        handed.cr = 0x9_8765_4321;
        let (machine, _) = start(Convention::Z, &handed, BASE, &mut [0; 256]);
        assert_eq!(machine.registers.cr, 0x8765_4321);
    }

    #[test]
    fn refusal_16_at_the_start() {
        let cases = [
            (BASE, 255),
            (BASE, 240),
            (BASE, 264),
            (BASE, 65_552),
            (BASE + 8, 256),
            // B + N is 2^64
            (u64::MAX - 255, 256),
            (u64::MAX - 15, 256),
        ];
        // all 64 bits of CR's word come back
        let mut handed = registers();
        handed.cr = 0x9_8765_4321;
        for (base, length) in cases {
            let mut memory = pattern(length);
            let (machine, answer) = start(Convention::Z, &handed, base, &mut memory);
            refused(answer, 16);
            assert_eq!(memory, pattern(length));
            assert_eq!((machine.convention, machine.registers), (2, handed));
            assert_eq!((machine.base, machine.size, machine.depth), (0, 0, 0));
            // what is left can do nothing
            refused(machine.clone().leave(&memory), 23);
        }
        // the largest memory, and the highest
        let mut memory = pattern(65_536);
        let (_, answer) = start(Convention::Z, &registers(), 0, &mut memory);
        assert_eq!(answer, Ok(()));
        let (machine, answer) = start(
            Convention::Ppc64,
            &registers(),
            u64::MAX - 15 - 400,
            &mut memory[..400],
        );
        assert_eq!(answer, Ok(()));
        assert_eq!(machine.possible(), Some(Convention::Ppc64));
    }

    #[test]
    fn on_aix_a_memory_ends_at_2_to_the_32_less_1_at_most() {
        // the highest end that is a multiple of 16, and 2^32 itself
        for (end, yes) in [
            (0xffff_fff0, true),
            (0x1_0000_0000, false),
            (1 << 40, false),
        ] {
            for length in [288, 4096, 65_536] {
                let mut memory = pattern(length);
                let base = end - length as u64;
                let (machine, answer) = start(Convention::Aix, &registers(), base, &mut memory);
                assert_eq!(answer.is_ok(), yes);
                if yes {
                    assert_eq!(machine.registers.gpr[1], end - 64);
                    assert_eq!(machine.possible(), Some(Convention::Aix));
                } else {
                    refused(answer, 16);
                    // the registers come back as they were handed in
                    assert_eq!((machine.convention, machine.registers), (3, registers()));
                    assert_eq!(memory, pattern(length));
                }
            }
        }
        // a start needs 220 bytes under its pointer: 288 - 64 is 224, and 272 - 64 is 208
        for (length, yes) in [(256, false), (272, false), (287, false), (288, true)] {
            let mut memory = pattern(length);
            let (_, answer) = start(Convention::Aix, &registers(), BASE, &mut memory);
            assert_eq!(answer.is_ok(), yes);
        }
    }

    #[test]
    fn a_start_on_ppc64_needs_the_floor_under_its_pointer() {
        // 400 - 112 is 288; the next smaller length leaves 272
        for base in [0, BASE, u64::MAX - 15 - 400] {
            for (length, yes) in [(256, false), (384, false), (399, false), (400, true)] {
                let mut memory = pattern(length);
                let (_, answer) = start(Convention::Ppc64, &registers(), base, &mut memory);
                assert_eq!(answer.is_ok(), yes);
                assert_eq!(memory == pattern(length), !yes);
                if !yes {
                    refused(answer, 16);
                }
            }
        }
    }

    #[test]
    fn enter_on_ppc64_saves_where_the_document_says() {
        let (mut machine, mut memory) = ppc64();
        let s = machine.registers.gpr[1];
        assert_eq!(s, BASE + 4096 - 112);
        let before = machine.clone();
        let frame = request(29, 30, 1, 20, 64);
        assert_eq!(machine.enter(&frame, &mut memory), Ok(()));

        let old = registers();
        assert_eq!(at(&memory, s - 8), old.fpr[31]);
        assert_eq!(at(&memory, s - 16), old.fpr[30]);
        assert_eq!(at(&memory, s - 24), old.gpr[31]);
        assert_eq!(at(&memory, s - 32), old.gpr[30]);
        assert_eq!(at(&memory, s - 40), old.gpr[29]);
        assert_eq!(at(&memory, s + 8) >> 32, old.cr);
        assert_eq!(at(&memory, s + 16), old.lr);
        assert_eq!(at(&memory, s - 176), s);
        // and nothing else
        let mut expected = pattern(4096);
        let top = (s - BASE) as usize;
        expected[top..top + 8].fill(0);
        for (from, until) in [(top - 40, top), (top + 8, top + 12), (top + 16, top + 24)] {
            expected[from..until].copy_from_slice(&memory[from..until]);
        }
        expected[top - 176..][..8].copy_from_slice(&s.to_be_bytes());
        assert_eq!(memory, expected);

        let mut expected = before;
        expected.registers.gpr[1] = s - 176;
        expected.depth = 1;
        expected.frames[0] = frame;
        assert_eq!(machine, expected);
    }

    #[test]
    fn enter_on_z_saves_where_the_document_says() {
        let (mut machine, mut memory) = z();
        let s = machine.registers.gpr[15];
        assert_eq!(s, BASE + 4096 - 160);
        assert_eq!(machine.enter(&request(6, 8, 0, 1, 8), &mut memory), Ok(()));

        let old = registers();
        let mut expected = pattern(4096);
        let top = (s - BASE) as usize;
        expected[top..top + 8].fill(0);
        for n in 6..15 {
            expected[top + 8 * n..][..8].copy_from_slice(&old.gpr[n].to_be_bytes());
        }
        expected[top + 120..][..8].copy_from_slice(&s.to_be_bytes());
        for n in 8..16 {
            expected[top + 8 * n - 128..][..8].copy_from_slice(&old.fpr[n].to_be_bytes());
        }
        expected[top - 240..][..8].copy_from_slice(&s.to_be_bytes());
        assert_eq!(memory, expected);
        assert_eq!(machine.registers.gpr[15], s - 240);
    }

    #[test]
    fn enter_on_aix_saves_where_the_document_says() {
        let (mut machine, mut memory) = aix();
        let s = machine.registers.gpr[1];
        assert_eq!(s, BASE + 4096 - 64);
        let before = machine.clone();
        let frame = request(29, 30, 1, 20, 40);
        assert_eq!(machine.enter(&frame, &mut memory), Ok(()));

        let old = low_halves(registers());
        let mut expected = pattern(4096);
        let top = (s - BASE) as usize;
        expected[top..top + 4].fill(0);
        for (n, below) in [(31, 8), (30, 16)] {
            expected[top - below..][..8].copy_from_slice(&old.fpr[n].to_be_bytes());
        }
        for (n, below) in [(31, 20), (30, 24), (29, 28)] {
            expected[top - below..][..4].copy_from_slice(&(old.gpr[n] as u32).to_be_bytes());
        }
        expected[top + 4..][..4].copy_from_slice(&(old.cr as u32).to_be_bytes());
        expected[top + 8..][..4].copy_from_slice(&(old.lr as u32).to_be_bytes());
        // 24, 40, 20 and 28 are 112
        expected[top - 112..][..4].copy_from_slice(&(s as u32).to_be_bytes());
        assert_eq!(memory, expected);

        let mut expected = before;
        expected.registers.gpr[1] = s - 112;
        expected.depth = 1;
        expected.frames[0] = frame;
        assert_eq!(machine, expected);
        // every slot of 003's save routines: r13 at -76 and f14 at -144, one below the other
        let all = save_slots(Convention::Aix, &request(13, 14, 0, 0, 0), 1000);
        assert!(all.contains(&(Saved::Fpr(14), 1000 - 144)));
        assert!(all.contains(&(Saved::Gpr(13), 1000 - 144 - 76)));
        assert!(all.contains(&(Saved::Gpr(31), 1000 - 144 - 4)));
        assert_eq!(all.len(), 18 + 19 + 1);
    }

    #[test]
    fn on_aix_leave_takes_words_and_their_high_halves_are_zero() {
        let (mut machine, mut memory) = aix();
        let s = machine.registers.gpr[1];
        assert_eq!(
            machine.enter(&request(30, 32, 1, 0, 0), &mut memory),
            Ok(())
        );
        let top = (s - BASE) as usize;
        memory[top - 8..top - 4].fill(0xaa);
        memory[top - 4..top].fill(0xbb);
        memory[top + 4..top + 8].fill(0xcc);
        memory[top + 8..top + 12].fill(0xdd);
        assert_eq!(machine.leave(&memory), Ok(()));
        assert_eq!(machine.registers.gpr[30], 0xaaaa_aaaa);
        assert_eq!(machine.registers.gpr[31], 0xbbbb_bbbb);
        assert_eq!(machine.registers.lr, 0xdddd_dddd);
        assert_eq!(machine.registers.cr, 0x87cc_c321);
        assert_eq!(machine.registers.gpr[1], s);
    }

    #[test]
    fn on_aix_the_back_chain_is_a_word() {
        let (mut machine, mut memory) = aix();
        assert_eq!(
            machine.enter(&request(32, 32, 0, 0, 0), &mut memory),
            Ok(())
        );
        let chain = (machine.registers.gpr[1] - BASE) as usize;
        for byte in chain..chain + 4 {
            memory[byte] ^= 1;
            refused(machine.leave(&memory), 21);
            memory[byte] ^= 1;
        }
        memory[chain + 4..chain + 8].fill(0xff);
        assert_eq!(machine.leave(&memory), Ok(()));
    }

    #[test]
    fn on_aix_a_general_register_and_lr_hold_32_bits() {
        let (mut machine, mut memory) = aix();
        for (value, yes) in [
            (0xffff_ffff, true),
            (0x1_0000_0000, false),
            (u64::MAX, false),
        ] {
            for bank in [0, 2] {
                let answer = machine.clone().write_register(bank, 3, value, &memory);
                assert_eq!(answer.is_ok(), yes);
                if !yes {
                    refused(answer, 20);
                }
            }
        }
        // a floating register holds any 64
        assert_eq!(machine.write_register(1, 3, u64::MAX, &memory), Ok(()));
        // and a state with one that holds more cannot be
        let possible = machine.clone();
        for n in 0..32 {
            let mut machine = possible.clone();
            machine.registers.gpr[n] |= 1 << 32;
            refuses_all(&machine, &mut memory, 23);
        }
        let mut machine = possible.clone();
        machine.registers.lr |= 1 << 63;
        refuses_all(&machine, &mut memory, 23);
        let mut machine = possible;
        machine.registers.fpr[0] = u64::MAX;
        machine.registers.gpr[0] = 0xffff_ffff;
        assert_eq!(machine.possible(), Some(Convention::Aix));
    }

    #[test]
    fn the_registers_that_may_be_written_on_aix() {
        let (mut machine, mut memory) = aix();
        let volatile: Vec<u64> = [0].into_iter().chain(3..=12).collect();
        assert_eq!(writable(&machine, &memory, 0), volatile);
        assert_eq!(writable(&machine, &memory, 1), (0..=13).collect::<Vec<_>>());
        assert_eq!(writable(&machine, &memory, 3), [0, 1, 5, 6, 7]);
        assert_eq!(
            machine.enter(&request(13, 31, 1, 0, 0), &mut memory),
            Ok(())
        );
        // r13 is among the saved
        let saved: Vec<u64> = (13..=31).collect();
        assert_eq!(
            writable(&machine, &memory, 0),
            [&volatile[..], &saved].concat()
        );
        assert_eq!(
            writable(&machine, &memory, 1),
            (0..=13).chain([31]).collect::<Vec<_>>()
        );
        assert_eq!(writable(&machine, &memory, 3), (0..=7).collect::<Vec<_>>());
        assert_eq!(
            machine.enter(&request(14, 32, 0, 0, 0), &mut memory),
            Ok(())
        );
        let saved: Vec<u64> = (14..=31).collect();
        assert_eq!(
            writable(&machine, &memory, 0),
            [&volatile[..], &saved].concat()
        );
    }

    #[test]
    fn the_bytes_that_may_be_written_on_aix() {
        let (mut machine, mut memory) = aix();
        let s = machine.registers.gpr[1];
        assert_eq!(open_bytes(&machine, &mut memory, s), [(24, 56)]);
        assert_eq!(
            machine.enter(&request(29, 30, 1, 20, 40), &mut memory),
            Ok(())
        );
        let own = machine.registers.gpr[1];
        // outgoing 24 to 64, locals 64 to 84, saves to 112, the caller's outgoing area
        let runs = [(24, 84), (112 + 24, 112 + 56)];
        assert_eq!(open_bytes(&machine, &mut memory, own), runs);
        refused(machine.write_memory(own + 63, &[1; 2], &mut memory), 20);
        // a leaf above it: 220 bytes of floor, of which r13 to r31 take 76
        assert_eq!(machine.enter(&leaf(13, 32, 0), &mut memory), Ok(()));
        let runs = [(0, 144), (220 + 24, 220 + 64)];
        assert_eq!(open_bytes(&machine, &mut memory, own - 220), runs);
        assert_eq!(machine.leave(&memory), Ok(()));
        // all that can be saved fills the floor: "18*8 (for FPRs) + 19*4 (for GPRs) = 220"
        assert_eq!(machine.enter(&leaf(13, 14, 0), &mut memory), Ok(()));
        let runs = [(220 + 24, 220 + 64)];
        assert_eq!(open_bytes(&machine, &mut memory, own - 220), runs);
    }

    #[test]
    fn on_aix_enter_needs_220_bytes_under_the_new_pointer() {
        // 368 - 64 is 304: the smallest frame leaves 240, the next 224, and one byte more 208
        let (mut machine, mut memory) = started(Convention::Aix, 368);
        refused(machine.enter(&request(32, 32, 0, 25, 0), &mut memory), 19);
        assert_eq!(
            machine.enter(&request(32, 32, 0, 24, 0), &mut memory),
            Ok(())
        );
        assert_eq!(machine.registers.gpr[1], BASE + 224);
    }

    #[test]
    fn leave_gives_back_what_enter_found() {
        for (convention, frame) in [
            (Convention::Ppc64, request(14, 14, 1, 100, 72)),
            (Convention::Z, request(6, 8, 0, 100, 72)),
            (Convention::Aix, request(13, 14, 1, 100, 72)),
        ] {
            let (mut machine, mut memory) = started(convention, 4096);
            let before = machine.clone();
            assert_eq!(machine.enter(&frame, &mut memory), Ok(()));
            let pointer = pointer_register(convention);
            for n in 0..32 {
                if n != pointer {
                    machine.registers.gpr[n] ^= largest_word(convention);
                }
                machine.registers.fpr[n] ^= u64::MAX;
            }
            machine.registers.lr = 7;
            machine.registers.cr ^= 0xffff_ffff;
            let changed = machine.registers;
            let lent = memory.clone();
            assert_eq!(machine.leave(&memory), Ok(()));
            assert_eq!(memory, lent);

            let mut expected = before;
            let (first, last) = match convention {
                Convention::Ppc64 | Convention::Ppc64b => (14, 32),
                Convention::Z => (6, 16),
                Convention::Aix => (13, 32),
            };
            let old = expected.registers;
            expected.registers = changed;
            expected.registers.gpr[first..last].copy_from_slice(&old.gpr[first..last]);
            expected.registers.gpr[pointer] = old.gpr[pointer];
            match convention {
                Convention::Ppc64 | Convention::Aix | Convention::Ppc64b => {
                    expected.registers.fpr[14..].copy_from_slice(&old.fpr[14..]);
                    expected.registers.lr = old.lr;
                    // fields 2 to 4 of 0x87654321; the others stay as they were changed
                    expected.registers.cr = 0x7865_4cde;
                }
                Convention::Z => expected.registers.fpr[8..16].copy_from_slice(&old.fpr[8..16]),
            }
            assert_eq!(machine, expected);
        }
    }

    #[test]
    fn a_leaf_saves_below_the_pointer_that_stays() {
        let (mut machine, mut memory) = ppc64();
        let s = machine.registers.gpr[1];
        let before = machine.clone();
        let frame = leaf(29, 30, 1);
        assert_eq!(machine.enter(&frame, &mut memory), Ok(()));

        let old = registers();
        let mut expected = pattern(4096);
        let top = (s - BASE) as usize;
        expected[top..top + 8].fill(0);
        for (n, below) in [(31, 8), (30, 16)] {
            expected[top - below..][..8].copy_from_slice(&old.fpr[n].to_be_bytes());
        }
        for (n, below) in [(31, 24), (30, 32), (29, 40)] {
            expected[top - below..][..8].copy_from_slice(&old.gpr[n].to_be_bytes());
        }
        expected[top + 8..][..4].copy_from_slice(&(old.cr as u32).to_be_bytes());
        assert_eq!(memory, expected);
        let mut expected = before.clone();
        expected.depth = 1;
        expected.frames[0] = frame;
        assert_eq!(machine, expected);

        machine.registers.gpr[29..].fill(7);
        machine.registers.fpr[30..].fill(7);
        machine.registers.cr = 0;
        // LR is not restored, and the word at the pointer is not looked at
        machine.registers.lr = 7;
        memory[top..top + 8].fill(0xff);
        assert_eq!(machine.leave(&memory), Ok(()));
        let mut expected = before;
        expected.registers.lr = 7;
        expected.registers.cr = 0x0065_4000;
        assert_eq!(machine, expected);
    }

    #[test]
    fn the_bytes_that_a_leaf_may_write() {
        let (mut machine, mut memory) = ppc64();
        let s = machine.registers.gpr[1];
        // all that can be saved fills the floor: 18 and 18 doublewords
        assert_eq!(machine.enter(&leaf(14, 14, 0), &mut memory), Ok(()));
        assert_eq!(open_bytes(&machine, &mut memory, s - 288), [(336, 400)]);
        assert_eq!(machine.leave(&memory), Ok(()));
        assert_eq!(machine.enter(&leaf(32, 32, 0), &mut memory), Ok(()));
        let runs = [(0, 288), (336, 400)];
        assert_eq!(open_bytes(&machine, &mut memory, s - 288), runs);
        assert_eq!(machine.leave(&memory), Ok(()));
        // under a frame, whose outgoing area is the caller's
        let frame = request(29, 30, 1, 20, 72);
        assert_eq!(machine.enter(&frame, &mut memory), Ok(()));
        let s = machine.registers.gpr[1];
        assert_eq!(machine.enter(&leaf(31, 31, 0), &mut memory), Ok(()));
        let runs = [(0, 272), (336, 408)];
        assert_eq!(open_bytes(&machine, &mut memory, s - 288), runs);
        // in the smallest memory too
        let (mut machine, mut memory) = started(Convention::Ppc64, 400);
        refused(machine.enter(&request(32, 32, 0, 0, 0), &mut memory), 19);
        assert_eq!(machine.enter(&leaf(14, 14, 1), &mut memory), Ok(()));
        assert_eq!(machine.leave(&memory), Ok(()));
        assert_eq!(machine.enter(&leaf(32, 32, 1), &mut memory), Ok(()));
        assert_eq!(open_bytes(&machine, &mut memory, BASE)[0], (0, 288));
    }

    #[test]
    fn the_registers_that_a_leaf_may_write() {
        let (mut machine, mut memory) = ppc64();
        assert_eq!(machine.enter(&leaf(30, 31, 1), &mut memory), Ok(()));
        let volatile: Vec<u64> = [0].into_iter().chain(3..=12).collect();
        assert_eq!(
            writable(&machine, &memory, 0),
            [&volatile[..], &[30, 31]].concat()
        );
        assert_eq!(
            writable(&machine, &memory, 1),
            (0..=13).chain([31]).collect::<Vec<_>>()
        );
        assert_eq!(writable(&machine, &memory, 2), []);
        assert_eq!(writable(&machine, &memory, 3), (0..=7).collect::<Vec<_>>());
    }

    #[test]
    fn a_leaf_request_out_of_range_gives_17() {
        for (convention, request) in [
            (
                Convention::Z,
                Request {
                    leaf: 1,
                    ..request(14, 16, 0, 0, 0)
                },
            ),
            (
                Convention::Ppc64,
                Request {
                    leaf: 1,
                    ..request(32, 32, 0, 1, 0)
                },
            ),
            (
                Convention::Ppc64,
                Request {
                    leaf: 1,
                    ..request(32, 32, 0, 0, 8)
                },
            ),
            (
                Convention::Ppc64,
                Request {
                    leaf: 2,
                    ..request(32, 32, 0, 0, 0)
                },
            ),
            (Convention::Ppc64, leaf(13, 32, 0)),
            (Convention::Aix, leaf(12, 32, 0)),
            (
                Convention::Aix,
                Request {
                    leaf: 1,
                    ..request(32, 32, 0, 0, 8)
                },
            ),
            (Convention::Ppc64, leaf(32, 33, 0)),
            (Convention::Ppc64, leaf(32, 32, 2)),
        ] {
            assert!(!request_allowed(convention, &request));
        }
        assert!(request_allowed(Convention::Ppc64, &leaf(14, 32, 1)));
        assert!(request_allowed(Convention::Aix, &leaf(13, 32, 1)));
    }

    #[test]
    fn refusal_28_is_an_enter_above_a_leaf() {
        let (mut machine, mut memory) = ppc64();
        for depth in 0..=31 {
            machine.depth = 0;
            machine.registers.gpr[1] = BASE + 4096 - 112;
            let mut memory = pattern(8192);
            let (mut machine, _) = start(Convention::Ppc64, &registers(), BASE, &mut memory);
            for _ in 0..depth {
                let frame = request(32, 32, 0, 0, 0);
                assert_eq!(machine.enter(&frame, &mut memory), Ok(()));
            }
            assert_eq!(machine.enter(&leaf(32, 32, 0), &mut memory), Ok(()));
            // after 17, and before 18 and 19
            refused(machine.enter(&request(13, 32, 0, 0, 0), &mut memory), 17);
            refused(machine.enter(&request(32, 32, 0, 0, 0), &mut memory), 28);
            refused(
                machine.enter(&request(32, 32, 0, 32_000, 0), &mut memory),
                28,
            );
            refused(machine.enter(&leaf(32, 32, 0), &mut memory), 28);
            assert_eq!(machine.leave(&memory), Ok(()));
            assert_eq!(machine.depth, depth);
        }
        // a leaf counts among the 32
        let mut memory_of_32 = pattern(8192);
        let (mut full, _) = start(Convention::Ppc64, &registers(), BASE, &mut memory_of_32);
        for _ in 0..32 {
            let frame = request(32, 32, 0, 0, 0);
            assert_eq!(full.enter(&frame, &mut memory_of_32), Ok(()));
        }
        refused(full.enter(&leaf(32, 32, 0), &mut memory_of_32), 18);
        // a state with a leaf below the top
        machine.depth = 2;
        machine.frames[0] = leaf(32, 32, 0);
        machine.frames[1] = request(32, 32, 0, 0, 0);
        machine.registers.gpr[1] = BASE + 4096 - 112 - 112;
        assert_eq!(machine.possible(), None);
        machine.frames.swap(0, 1);
        assert_eq!(machine.possible(), Some(Convention::Ppc64));
        machine.frames[1].leaf = 2;
        assert_eq!(machine.possible(), None);
        machine.frames[1].leaf = 1;
        assert_eq!(machine.leave(&memory), Ok(()));
        memory.fill(0);
        refused(machine.leave(&memory), 21);
    }

    #[test]
    fn leave_without_saved_cr_leaves_cr_alone() {
        let (mut machine, mut memory) = ppc64();
        assert_eq!(
            machine.enter(&request(32, 32, 0, 0, 0), &mut memory),
            Ok(())
        );
        machine.registers.cr = 0;
        assert_eq!(machine.leave(&memory), Ok(()));
        assert_eq!(machine.registers.cr, 0);
    }

    #[test]
    fn leave_works_from_the_lent_bytes() {
        let (mut machine, mut memory) = ppc64();
        let s = machine.registers.gpr[1];
        assert_eq!(
            machine.enter(&request(31, 32, 1, 0, 0), &mut memory),
            Ok(())
        );
        let top = (s - BASE) as usize;
        memory[top - 8..top].fill(0xaa);
        memory[top + 8..top + 12].fill(0xbb);
        memory[top + 16..top + 24].fill(0xcc);
        assert_eq!(machine.leave(&memory), Ok(()));
        assert_eq!(machine.registers.gpr[31], 0xaaaa_aaaa_aaaa_aaaa);
        assert_eq!(machine.registers.lr, 0xcccc_cccc_cccc_cccc);
        assert_eq!(machine.registers.cr, 0x87bb_b321);
    }

    #[test]
    fn refusal_17_is_a_request_out_of_range() {
        let allowed = |convention, request| request_allowed(convention, &request);
        for g in 0..40 {
            let yes = (14..=32).contains(&g);
            assert_eq!(allowed(Convention::Ppc64, request(g, 32, 0, 0, 0)), yes);
            assert_eq!(allowed(Convention::Ppc64, request(32, g, 0, 0, 0)), yes);
            assert_eq!(allowed(Convention::Aix, request(32, g, 0, 0, 0)), yes);
            let yes = (13..=32).contains(&g);
            assert_eq!(allowed(Convention::Aix, request(g, 32, 0, 0, 0)), yes);
            let yes = (6..=14).contains(&g);
            assert_eq!(allowed(Convention::Z, request(g, 16, 0, 0, 0)), yes);
            let yes = (8..=16).contains(&g);
            assert_eq!(allowed(Convention::Z, request(14, g, 0, 0, 0)), yes);
        }
        for (convention, g, m, most_cr) in [
            (Convention::Ppc64, 32, 32, 1),
            (Convention::Z, 14, 16, 0),
            (Convention::Aix, 32, 32, 1),
        ] {
            assert!(allowed(convention, request(g, m, most_cr, 32_000, 32_776)));
            assert!(!allowed(convention, request(g, m, most_cr + 1, 0, 0)));
            assert!(!allowed(convention, request(g, m, 0, 32_001, 0)));
            assert!(!allowed(convention, request(g, m, 0, 0, 32_784)));
            assert!(!allowed(convention, request(g, m, 0, 0, 12)));
        }
        let (mut machine, mut memory) = ppc64();
        refused(machine.enter(&request(13, 32, 0, 0, 0), &mut memory), 17);
    }

    #[test]
    fn refusal_18_is_a_frame_after_the_32nd() {
        for (convention, g, m) in [
            (Convention::Ppc64, 32, 32),
            (Convention::Z, 14, 16),
            (Convention::Aix, 32, 32),
        ] {
            let (mut machine, mut memory) = started(convention, 8192);
            for depth in 1..=32 {
                assert_eq!(machine.enter(&request(g, m, 0, 0, 0), &mut memory), Ok(()));
                assert_eq!(machine.depth, depth);
            }
            refused(machine.enter(&request(g, m, 0, 0, 0), &mut memory), 18);
            // 17 is tested before, 19 after
            refused(machine.enter(&request(g, m, 2, 0, 0), &mut memory), 17);
            refused(machine.enter(&request(g, m, 0, 32_000, 0), &mut memory), 18);
            for depth in (0..32).rev() {
                assert_eq!(machine.leave(&memory), Ok(()));
                assert_eq!(machine.depth, depth);
            }
            refused(machine.leave(&memory), 22);
        }
    }

    #[test]
    fn refusal_19_is_a_stack_pointer_below_the_memory() {
        // 544 - 112 leaves 432: the floor, the smallest frame and two steps more
        let (mut machine, mut memory) = started(Convention::Ppc64, 544);
        refused(machine.enter(&request(32, 32, 0, 33, 0), &mut memory), 19);
        assert_eq!(
            machine.enter(&request(32, 32, 0, 32, 0), &mut memory),
            Ok(())
        );
        assert_eq!(machine.registers.gpr[1], BASE + 288);
        // 336 - 160 leaves 176
        let (mut machine, mut memory) = started(Convention::Z, 336);
        refused(machine.enter(&request(14, 16, 0, 17, 0), &mut memory), 19);
        assert_eq!(
            machine.enter(&request(14, 16, 0, 16, 0), &mut memory),
            Ok(())
        );
        assert_eq!(machine.registers.gpr[15], BASE);
        // a memory at address 0
        let (mut machine, _) = start(Convention::Z, &registers(), 0, &mut memory);
        refused(machine.enter(&request(14, 16, 0, 17, 0), &mut memory), 19);
    }

    /// The numbers of a bank that may be written.
    fn writable(machine: &Machine, memory: &[u8], bank: u64) -> Vec<u64> {
        (0..70)
            .filter(|&number| {
                machine
                    .clone()
                    .write_register(bank, number, 9, memory)
                    .is_ok()
            })
            .collect()
    }

    #[test]
    fn the_registers_that_may_be_written() {
        let (mut machine, mut memory) = ppc64();
        let volatile: Vec<u64> = [0].into_iter().chain(3..=12).collect();
        assert_eq!(writable(&machine, &memory, 0), volatile);
        assert_eq!(writable(&machine, &memory, 1), (0..=13).collect::<Vec<_>>());
        assert_eq!(writable(&machine, &memory, 3), [0, 1, 5, 6, 7]);
        assert_eq!(writable(&machine, &memory, 4), []);
        assert_eq!(
            machine.enter(&request(30, 31, 1, 0, 0), &mut memory),
            Ok(())
        );
        assert_eq!(
            writable(&machine, &memory, 0),
            [&volatile[..], &[30, 31]].concat()
        );
        assert_eq!(
            writable(&machine, &memory, 1),
            (0..=13).chain([31]).collect::<Vec<_>>()
        );
        assert_eq!(writable(&machine, &memory, 3), (0..=7).collect::<Vec<_>>());
        // "saved" is the top frame's own request
        assert_eq!(
            machine.enter(&request(32, 32, 0, 0, 0), &mut memory),
            Ok(())
        );
        assert_eq!(writable(&machine, &memory, 0), volatile);
        assert_eq!(machine.write_register(2, 0, 5, &memory), Ok(()));
        assert_eq!(machine.registers.lr, 5);

        let (mut machine, mut memory) = z();
        assert_eq!(writable(&machine, &memory, 0), [0, 1, 2, 3, 4, 5, 14]);
        assert_eq!(writable(&machine, &memory, 1), (0..=7).collect::<Vec<_>>());
        assert_eq!(
            machine.enter(&request(13, 14, 0, 0, 0), &mut memory),
            Ok(())
        );
        assert_eq!(writable(&machine, &memory, 0), [0, 1, 2, 3, 4, 5, 13, 14]);
        assert_eq!(
            writable(&machine, &memory, 1),
            (0..=7).chain([14, 15]).collect::<Vec<_>>()
        );
        assert_eq!(writable(&machine, &memory, 2), []);
        assert_eq!(writable(&machine, &memory, 3), []);
    }

    #[test]
    fn a_field_of_cr_has_four_bits() {
        let (mut machine, memory) = ppc64();
        assert_eq!(machine.write_register(3, 0, 15, &memory), Ok(()));
        assert_eq!(machine.registers.cr, 0xf765_4321);
        assert_eq!(machine.write_register(3, 7, 0, &memory), Ok(()));
        assert_eq!(machine.registers.cr, 0xf765_4320);
        refused(machine.write_register(3, 0, 16, &memory), 20);
    }

    /// The bytes, counted from an address, that may be written alone.
    fn open_bytes(machine: &Machine, memory: &mut [u8], from: u64) -> Vec<(u64, u64)> {
        let mut runs: Vec<(u64, u64)> = Vec::new();
        for address in BASE..BASE + memory.len() as u64 {
            if machine.clone().write_memory(address, &[1], memory).is_err() {
                continue;
            }
            let offset = address.wrapping_sub(from);
            match runs.last_mut() {
                Some(run) if run.1 == offset => run.1 += 1,
                _ => runs.push((offset, offset + 1)),
            }
        }
        runs
    }

    #[test]
    fn the_bytes_that_may_be_written_on_ppc64() {
        let (mut machine, mut memory) = ppc64();
        let s = machine.registers.gpr[1];
        assert_eq!(open_bytes(&machine, &mut memory, s), [(48, 112)]);
        assert_eq!(
            machine.enter(&request(29, 30, 1, 20, 72), &mut memory),
            Ok(())
        );
        let own = machine.registers.gpr[1];
        assert_eq!(s - own, 192);
        // outgoing 48 to 120, locals 120 to 152, saves to 192, the caller's outgoing area
        let runs = [(48, 152), (192 + 48, 192 + 112)];
        assert_eq!(open_bytes(&machine, &mut memory, own), runs);
        // two areas that adjoin are not one
        assert_eq!(
            machine.write_memory(own + 48, &[1; 72], &mut memory),
            Ok(())
        );
        assert_eq!(
            machine.write_memory(own + 120, &[1; 32], &mut memory),
            Ok(())
        );
        refused(machine.write_memory(own + 119, &[1; 2], &mut memory), 20);
        refused(machine.write_memory(own + 47, &[1; 2], &mut memory), 20);
        refused(machine.write_memory(own + 151, &[1; 2], &mut memory), 20);
        // the caller of the next frame is this one
        assert_eq!(
            machine.enter(&request(32, 32, 0, 0, 0), &mut memory),
            Ok(())
        );
        let runs = [(48, 112), (112 + 48, 112 + 120)];
        assert_eq!(open_bytes(&machine, &mut memory, own - 112), runs);
    }

    #[test]
    fn the_bytes_that_may_be_written_on_z() {
        let (mut machine, mut memory) = z();
        assert_eq!(open_bytes(&machine, &mut memory, BASE), []);
        assert_eq!(machine.enter(&request(6, 8, 0, 1, 8), &mut memory), Ok(()));
        let own = machine.registers.gpr[15];
        // outgoing 160 to 168, locals 168 to 176, saves to 240; the start has no outgoing area
        assert_eq!(open_bytes(&machine, &mut memory, own), [(160, 176)]);
        assert_eq!(
            machine.enter(&request(14, 16, 0, 0, 0), &mut memory),
            Ok(())
        );
        // no area of its own, and the caller's outgoing area
        let next = own - 160;
        assert_eq!(open_bytes(&machine, &mut memory, next), [(320, 328)]);
    }

    #[test]
    fn a_write_has_1_to_256_bytes() {
        let (mut machine, mut memory) = ppc64();
        assert_eq!(
            machine.enter(&request(32, 32, 0, 1000, 0), &mut memory),
            Ok(())
        );
        let locals = machine.registers.gpr[1] + 112;
        refused(machine.write_memory(locals, &[], &mut memory), 20);
        refused(machine.write_memory(locals, &[1; 257], &mut memory), 20);
        let before = memory.clone();
        assert_eq!(machine.write_memory(locals, &[1; 256], &mut memory), Ok(()));
        let mut expected = before;
        expected[(locals - BASE) as usize..][..256].fill(1);
        assert_eq!(memory, expected);
        // an end above all addresses
        refused(machine.write_memory(u64::MAX, &[1; 2], &mut memory), 20);
    }

    #[test]
    fn refusal_21_is_a_broken_chain() {
        let (mut machine, mut memory) = ppc64();
        assert_eq!(
            machine.enter(&request(32, 32, 0, 0, 0), &mut memory),
            Ok(())
        );
        let chain = (machine.registers.gpr[1] - BASE) as usize;
        for byte in chain..chain + 8 {
            memory[byte] ^= 1;
            refused(machine.leave(&memory), 21);
            memory[byte] ^= 1;
        }
        assert_eq!(machine.leave(&memory), Ok(()));

        // on Z the slot of r15 counts, not the back chain
        let (mut machine, mut memory) = z();
        let slot = (machine.registers.gpr[15] - BASE) as usize + 120;
        assert_eq!(
            machine.enter(&request(14, 16, 0, 0, 0), &mut memory),
            Ok(())
        );
        let chain = (machine.registers.gpr[15] - BASE) as usize;
        memory[chain..chain + 8].fill(0xff);
        memory[slot + 7] ^= 1;
        refused(machine.leave(&memory), 21);
        memory[slot + 7] ^= 1;
        assert_eq!(machine.leave(&memory), Ok(()));
    }

    #[test]
    fn refusal_22_comes_before_21() {
        let (mut machine, mut memory) = ppc64();
        memory.fill(0xff);
        refused(machine.leave(&memory), 22);
    }

    /// Every call gives this refusal.
    fn refuses_all(machine: &Machine, memory: &mut [u8], number: u64) {
        let mut changed = machine.clone();
        // a request that 17 would refuse too
        refused(changed.enter(&Request::default(), memory), number);
        refused(changed.write_register(0, 1, 0, memory), number);
        refused(changed.write_memory(0, &[], memory), number);
        refused(changed.leave(memory), number);
        assert_eq!(&changed, machine);
    }

    #[test]
    fn refusal_23_is_a_state_that_cannot_be() {
        let (mut machine, mut memory) = ppc64();
        assert_eq!(
            machine.enter(&request(29, 30, 1, 20, 64), &mut memory),
            Ok(())
        );
        let possible = machine;
        let changes: [fn(&mut Machine); 18] = [
            |machine| machine.convention = 0,
            // the registers hold more than 32 bits
            |machine| machine.convention = 3,
            |machine| machine.convention = 5,
            // r15 is no stack pointer of this memory
            |machine| machine.convention = 2,
            |machine| machine.depth = 33,
            |machine| machine.depth = u64::MAX,
            |machine| machine.depth = 0,
            |machine| machine.depth = 2,
            |machine| machine.base += 8,
            |machine| machine.base += 16,
            |machine| machine.base = u64::MAX - 15,
            |machine| machine.size += 16,
            |machine| machine.size = 0,
            |machine| machine.registers.gpr[1] += 16,
            |machine| machine.registers.gpr[1] -= 176,
            |machine| machine.registers.cr += 1 << 32,
            |machine| machine.frames[0].saves_cr = 2,
            |machine| machine.frames[0].locals = u64::MAX,
        ];
        for change in changes {
            let mut machine = possible.clone();
            change(&mut machine);
            refuses_all(&machine, &mut memory, 23);
            // whatever memory is lent
            refuses_all(&machine, &mut memory[..16], 23);
        }
        // records at the depth and above are not looked at
        let mut machine = possible.clone();
        machine.frames[1] = request(1, 2, 3, 4, 5);
        assert_eq!(machine.leave(&memory), Ok(()));
    }

    #[test]
    fn refusal_23_is_a_stack_pointer_without_the_floor() {
        // the smallest frame under a pointer that has room for it and 272 bytes, then for 288
        for (length, answer) in [(496, None), (512, Some(Convention::Ppc64))] {
            let (mut machine, _) = started(Convention::Ppc64, length);
            machine.depth = 1;
            machine.frames[0] = request(32, 32, 0, 0, 0);
            machine.registers.gpr[1] -= 112;
            assert_eq!(machine.possible(), answer);
        }
        // a memory that no start takes
        let (mut machine, _) = started(Convention::Ppc64, 400);
        machine.size = 384;
        machine.registers.gpr[1] -= 16;
        assert_eq!(machine.possible(), None);
    }

    #[test]
    fn refusal_23_is_a_stack_pointer_below_the_memory() {
        // one frame of more than the memory has: the sum is right, below the base
        let (mut machine, mut memory) = ppc64();
        machine.depth = 1;
        machine.frames[0] = request(32, 32, 0, 8000, 0);
        machine.registers.gpr[1] -= 8112;
        refuses_all(&machine, &mut memory, 23);
    }

    #[test]
    fn refusal_16_is_a_memory_of_another_length() {
        let (machine, mut memory) = ppc64();
        refuses_all(&machine, &mut memory[..4080], 16);
        memory.push(0);
        refuses_all(&machine, &mut memory, 16);
    }
}
