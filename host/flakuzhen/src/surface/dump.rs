//! The part of the C surface on dumps.

use super::Answer;

/// `fz_walked`
#[repr(C)]
#[derive(Clone, Copy, Debug, PartialEq, Eq)]
pub struct Walked {
    pub answer: Answer,
    pub count: u64,
}

extern "C" {
    fn fz_walk_dump_ppc64(
        memory: *const u8,
        memory_length: usize,
        base: u64,
        pointer: u64,
        list: *mut u64,
        list_length: usize,
    ) -> Walked;
    fn fz_walk_dump_z(
        memory: *const u8,
        memory_length: usize,
        base: u64,
        pointer: u64,
        list: *mut u64,
        list_length: usize,
    ) -> Walked;
    fn fz_walk_dump_aix(
        memory: *const u8,
        memory_length: usize,
        base: u64,
        pointer: u64,
        list: *mut u64,
        list_length: usize,
    ) -> Walked;
}

// SAFETY, for all calls below: the memory's bytes can be read and the list's numbers read and written
// for as long as the call lasts; they do not overlap, since the list is lent mutably. The functions
// ask for nothing more.

/// `fz_walk_dump_ppc64`
pub fn walk_dump_ppc64(memory: &[u8], base: u64, pointer: u64, list: &mut [u64]) -> Walked {
    unsafe {
        fz_walk_dump_ppc64(
            memory.as_ptr(),
            memory.len(),
            base,
            pointer,
            list.as_mut_ptr(),
            list.len(),
        )
    }
}

/// `fz_walk_dump_z`
pub fn walk_dump_z(memory: &[u8], base: u64, pointer: u64, list: &mut [u64]) -> Walked {
    unsafe {
        fz_walk_dump_z(
            memory.as_ptr(),
            memory.len(),
            base,
            pointer,
            list.as_mut_ptr(),
            list.len(),
        )
    }
}

/// `fz_walk_dump_aix`
pub fn walk_dump_aix(memory: &[u8], base: u64, pointer: u64, list: &mut [u64]) -> Walked {
    unsafe {
        fz_walk_dump_aix(
            memory.as_ptr(),
            memory.len(),
            base,
            pointer,
            list.as_mut_ptr(),
            list.len(),
        )
    }
}
