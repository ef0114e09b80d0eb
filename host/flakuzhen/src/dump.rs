//! The frames in the memory of a program that hangs.

use crate::surface::dump as surface;
use crate::{accepted, Convention, Refusal};

/// The most frames that a walk finds.
const MOST_FRAMES: usize = 4096;

/// Follows the back chain of a dump, whose first byte has the address `base`, from a stack pointer to
/// its zero, and gives the addresses of the frames, the latest first.
///
/// ```
/// use flakuzhen::machine::{Frame, Machine, Registers};
/// use flakuzhen::{walk_dump, Convention};
///
/// let mut machine =
///     Machine::start(Convention::Ppc64, &Registers::default(), 0x1_0000, vec![0; 4096])?;
/// let start = machine.stack_pointer();
/// let frame = Frame { first_gpr: 32, first_fpr: 32, ..Frame::default() };
/// machine.enter(&frame)?;
///
/// let pointer = machine.stack_pointer();
/// let frames = walk_dump(Convention::Ppc64, machine.memory(), 0x1_0000, pointer)?;
/// assert_eq!(frames, [start - 112, start]);
///
/// // the stack pointer of another dump
/// let refusal = walk_dump(Convention::Ppc64, machine.memory(), 0x2_0000, pointer).unwrap_err();
/// assert_eq!((refusal.number, refusal.place), (30, pointer));
/// # Ok::<(), flakuzhen::Refusal>(())
/// ```
pub fn walk_dump(
    convention: Convention,
    memory: &[u8],
    base: u64,
    pointer: u64,
) -> Result<Vec<u64>, Refusal> {
    let mut list = vec![0; MOST_FRAMES];
    let walk = match convention {
        // the later edition changes no frame
        Convention::Ppc64 | Convention::Ppc64b => surface::walk_dump_ppc64,
        Convention::Z => surface::walk_dump_z,
        Convention::Aix => surface::walk_dump_aix,
    };
    let walked = walk(memory, base, pointer, &mut list);
    list.truncate(walked.count as usize);
    accepted(walked.answer, list)
}
