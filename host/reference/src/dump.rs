//! The walk of a dump: document 02, No. 13. Addresses are computed in 128 bits, where no sum of theirs
//! can wrap.

use crate::{Convention, Refusal};

/// "At most 4,096 frames".
pub const MOST_FRAMES: usize = 4096;

/// "wholly inside the dump with its header (48 bytes, AIX 24, Z 160)"
pub fn header(convention: Convention) -> usize {
    match convention {
        // code 4's dumps are PPC64's
        Convention::Ppc64 | Convention::Ppc64b => 48,
        Convention::Aix => 24,
        Convention::Z => 160,
    }
}

/// "aligned (to 16, on Z to 8)"
pub fn alignment(convention: Convention) -> u64 {
    match convention {
        Convention::Ppc64 | Convention::Aix | Convention::Ppc64b => 16,
        Convention::Z => 8,
    }
}

/// Lists the frames of a dump from a stack pointer on, and gives their count.
pub fn walk(
    convention: Convention,
    memory: &[u8],
    base: u64,
    pointer: u64,
    list: &mut [u64],
) -> Result<usize, Refusal> {
    let frames = frames(convention, memory, base, pointer)?;
    // "too short a slice is 32, tested after the whole walk and before any write"
    let Some(place) = list.get_mut(..frames.len()) else {
        return Err(Refusal::without_place(32));
    };
    place.copy_from_slice(&frames);
    Ok(frames.len())
}

fn frames(
    convention: Convention,
    memory: &[u8],
    base: u64,
    pointer: u64,
) -> Result<Vec<u64>, Refusal> {
    // "A base plus length over 2^64 - 1 gives 30 with the base, first of all."
    let end = u128::from(base) + memory.len() as u128;
    if end > u128::from(u64::MAX) {
        return Err(bad(base));
    }
    let mut frames: Vec<u64> = Vec::new();
    let mut address = pointer;
    loop {
        // "At most 4,096 frames, else 31, tested before the next address is."
        if frames.len() == MOST_FRAMES {
            return Err(Refusal::without_place(31));
        }
        let aligned = address % alignment(convention) == 0;
        let behind = u128::from(address) + header(convention) as u128;
        let inside = base <= address && behind <= end;
        let above = frames.last().map_or(true, |&before| before < address);
        if !(aligned && inside && above) {
            return Err(bad(address));
        }
        frames.push(address);
        // "a zero word (8 bytes, or 4 on AIX)"
        let at = (address - base) as usize;
        let word = &memory[at..at + convention.word()];
        match word.iter().fold(0, |sum, &byte| sum << 8 | u64::from(byte)) {
            0 => return Ok(frames),
            next => address = next,
        }
    }
}

/// "otherwise new refusal 30 with the bad address"
fn bad(address: u64) -> Refusal {
    Refusal {
        number: 30,
        place: address as usize,
        items: 0,
    }
}

#[cfg(test)]
mod tests {
    use super::*;

    /// Three frames of PPC64 at 0x100, 0x130 and 0x200, in a dump that ends with the last header.
    fn dump() -> Vec<u8> {
        let mut memory = vec![0xee; 0x130];
        for (at, chain) in [(0, 0x130u64), (0x30, 0x200), (0x100, 0)] {
            memory[at..at + 8].copy_from_slice(&chain.to_be_bytes());
        }
        memory
    }

    fn walked(
        memory: &[u8],
        pointer: u64,
        length: usize,
    ) -> (Result<usize, (u64, usize)>, Vec<u64>) {
        let mut list = vec![7; length];
        let answer = walk(Convention::Ppc64, memory, 0x100, pointer, &mut list);
        (
            answer.map_err(|refusal| (refusal.number, refusal.place)),
            list,
        )
    }

    #[test]
    fn three_frames() {
        let memory = dump();
        let frames = vec![0x100, 0x130, 0x200];
        assert_eq!(walked(&memory, 0x100, 3), (Ok(3), frames.clone()));
        assert_eq!(
            walked(&memory, 0x100, 4),
            (Ok(3), [frames, vec![7]].concat())
        );
        assert_eq!(walked(&memory, 0x100, 2), (Err((32, 0)), vec![7, 7]));
        assert_eq!(walked(&memory, 0x130, 2), (Ok(2), vec![0x130, 0x200]));
        assert_eq!(
            walked(&memory[..0x12f], 0x100, 2),
            (Err((30, 0x200)), vec![7, 7])
        );
        assert_eq!(walked(&memory, 0x108, 0).0, Err((30, 0x108)));
        assert_eq!(walked(&memory, 0xf0, 0).0, Err((30, 0xf0)));
    }
}
