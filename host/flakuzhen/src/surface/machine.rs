//! The frame machine's part of the C surface.

use super::Answer;

/// `fz_registers`
#[repr(C)]
#[derive(Clone, Copy, Debug, Default, PartialEq, Eq)]
pub struct Registers {
    pub gpr: [u64; 32],
    pub fpr: [u64; 32],
    pub lr: u64,
    pub cr: u64,
}

/// `fz_frame`
#[repr(C)]
#[derive(Clone, Copy, Debug, Default, PartialEq, Eq)]
pub struct Frame {
    pub first_gpr: u64,
    pub first_fpr: u64,
    pub saves_cr: u64,
    pub locals: u64,
    pub outgoing: u64,
    pub leaf: u64,
}

/// `fz_machine`: the state, without the memory.
#[repr(C)]
#[derive(Clone, Debug, Default, PartialEq, Eq)]
pub struct Machine {
    pub convention: u64,
    pub base: u64,
    pub size: u64,
    pub depth: u64,
    pub registers: Registers,
    pub frames: [Frame; 32],
}

extern "C" {
    fn fz_start_ppc64(
        machine: *mut Machine,
        registers: *const Registers,
        base: u64,
        memory: *mut u8,
        memory_length: usize,
    ) -> Answer;
    fn fz_start_z(
        machine: *mut Machine,
        registers: *const Registers,
        base: u64,
        memory: *mut u8,
        memory_length: usize,
    ) -> Answer;
    fn fz_start_aix(
        machine: *mut Machine,
        registers: *const Registers,
        base: u64,
        memory: *mut u8,
        memory_length: usize,
    ) -> Answer;
    fn fz_start_ppc64b(
        machine: *mut Machine,
        registers: *const Registers,
        base: u64,
        memory: *mut u8,
        memory_length: usize,
    ) -> Answer;
    fn fz_enter(
        machine: *mut Machine,
        request: *const Frame,
        memory: *mut u8,
        memory_length: usize,
    ) -> Answer;
    fn fz_write_register(
        machine: *mut Machine,
        bank: u64,
        number: u64,
        value: u64,
        memory: *const u8,
        memory_length: usize,
    ) -> Answer;
    fn fz_write_memory(
        machine: *const Machine,
        address: u64,
        bytes: *const u8,
        bytes_length: usize,
        memory: *mut u8,
        memory_length: usize,
    ) -> Answer;
    fn fz_leave(machine: *mut Machine, memory: *const u8, memory_length: usize) -> Answer;
}

// SAFETY, for all calls below: each reference and each slice names words or bytes that can be read
// for as long as the call lasts, and written where it is mutable; none of them overlap, since at
// most one of any two that overlap could be mutable here. The structs have the layout of the C
// ones. The functions ask for nothing more.

/// `fz_start_ppc64`
pub fn start_ppc64(
    machine: &mut Machine,
    registers: &Registers,
    base: u64,
    memory: &mut [u8],
) -> Answer {
    unsafe { fz_start_ppc64(machine, registers, base, memory.as_mut_ptr(), memory.len()) }
}

/// `fz_start_z`
pub fn start_z(
    machine: &mut Machine,
    registers: &Registers,
    base: u64,
    memory: &mut [u8],
) -> Answer {
    unsafe { fz_start_z(machine, registers, base, memory.as_mut_ptr(), memory.len()) }
}

/// `fz_start_aix`
pub fn start_aix(
    machine: &mut Machine,
    registers: &Registers,
    base: u64,
    memory: &mut [u8],
) -> Answer {
    unsafe { fz_start_aix(machine, registers, base, memory.as_mut_ptr(), memory.len()) }
}

/// `fz_start_ppc64b`
pub fn start_ppc64b(
    machine: &mut Machine,
    registers: &Registers,
    base: u64,
    memory: &mut [u8],
) -> Answer {
    unsafe { fz_start_ppc64b(machine, registers, base, memory.as_mut_ptr(), memory.len()) }
}

/// `fz_enter`
pub fn enter(machine: &mut Machine, request: &Frame, memory: &mut [u8]) -> Answer {
    unsafe { fz_enter(machine, request, memory.as_mut_ptr(), memory.len()) }
}

/// `fz_write_register`
pub fn write_register(
    machine: &mut Machine,
    bank: u64,
    number: u64,
    value: u64,
    memory: &[u8],
) -> Answer {
    unsafe { fz_write_register(machine, bank, number, value, memory.as_ptr(), memory.len()) }
}

/// `fz_write_memory`
pub fn write_memory(machine: &Machine, address: u64, bytes: &[u8], memory: &mut [u8]) -> Answer {
    unsafe {
        fz_write_memory(
            machine,
            address,
            bytes.as_ptr(),
            bytes.len(),
            memory.as_mut_ptr(),
            memory.len(),
        )
    }
}

/// `fz_leave`
pub fn leave(machine: &mut Machine, memory: &[u8]) -> Answer {
    unsafe { fz_leave(machine, memory.as_ptr(), memory.len()) }
}
