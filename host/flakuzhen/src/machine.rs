//! The frame machine: registers and a stack in memory, on which functions enter and leave frames
//! as their convention says.
//!
//! ```
//! use flakuzhen::machine::{Convention, Frame, Machine, Register, Registers};
//!
//! let mut machine =
//!     Machine::start(Convention::Ppc64, &Registers::default(), 0x1_0000, vec![0; 4096])?;
//! let before = machine.stack_pointer();
//!
//! // a function that saves r29 to r31 and f30 to f31, with 20 bytes of locals
//! machine.enter(&Frame {
//!     first_gpr: 29,
//!     first_fpr: 30,
//!     saves_cr: 0,
//!     locals: 20,
//!     outgoing: 64,
//!     leaf: 0,
//! })?;
//! assert_eq!(machine.stack_pointer(), before - 176);
//!
//! machine.write(Register::General(29), 0x1234)?;
//! let refusal = machine.write(Register::General(28), 0x1234).unwrap_err();
//! assert_eq!(refusal.number, 20);
//!
//! machine.leave()?;
//! assert_eq!(machine.stack_pointer(), before);
//! assert_eq!(machine.state().registers.gpr[29], 0);
//! # Ok::<(), flakuzhen::Refusal>(())
//! ```

use crate::surface;
use crate::{accepted, Refusal};

pub use crate::surface::machine::{Frame, Machine as State, Registers};
pub use crate::Convention;

/// A register, or a field of the condition register, whether or not there is one of that number.
#[derive(Clone, Copy, Debug, PartialEq, Eq)]
pub enum Register {
    General(u64),
    Floating(u64),
    Link,
    /// Field 0 is the top four bits.
    ConditionField(u64),
}

impl Register {
    /// The bank and number of the C surface.
    fn bank_and_number(self) -> (u64, u64) {
        match self {
            Register::General(number) => (0, number),
            Register::Floating(number) => (1, number),
            Register::Link => (2, 0),
            Register::ConditionField(number) => (3, number),
        }
    }
}

/// A state with the memory that it was started on.
#[derive(Clone, Debug, PartialEq, Eq)]
pub struct Machine {
    state: State,
    memory: Vec<u8>,
}

impl Machine {
    /// Starts a machine whose memory's first byte has the address `base`. It sets the stack pointer
    /// and writes a zero there, of eight bytes or on AIX of four; the other registers are as handed
    /// in, on AIX of general registers and LR the low halves.
    pub fn start(
        convention: Convention,
        registers: &Registers,
        base: u64,
        memory: Vec<u8>,
    ) -> Result<Machine, Refusal> {
        let mut machine = Machine::from_parts(State::default(), memory);
        let Machine { state, memory } = &mut machine;
        let answer = match convention {
            Convention::Ppc64 => surface::machine::start_ppc64(state, registers, base, memory),
            Convention::Z => surface::machine::start_z(state, registers, base, memory),
            Convention::Aix => surface::machine::start_aix(state, registers, base, memory),
            Convention::Ppc64b => surface::machine::start_ppc64b(state, registers, base, memory),
        };
        accepted(answer, machine)
    }

    /// A machine that was kept in two parts. Nothing is tested here: each call tests the state and
    /// the memory's length before all else, and refuses what cannot be (23 and 16).
    pub fn from_parts(state: State, memory: Vec<u8>) -> Machine {
        Machine { state, memory }
    }

    /// Enters a frame: saves what the request names, and moves the stack pointer.
    pub fn enter(&mut self, request: &Frame) -> Result<(), Refusal> {
        let answer = surface::machine::enter(&mut self.state, request, &mut self.memory);
        accepted(answer, ())
    }

    /// Writes a register, if the frame that was entered last may.
    pub fn write(&mut self, register: Register, value: u64) -> Result<(), Refusal> {
        let (bank, number) = register.bank_and_number();
        let answer =
            surface::machine::write_register(&mut self.state, bank, number, value, &self.memory);
        accepted(answer, ())
    }

    /// Writes 1 to 256 bytes of memory, if the frame that was entered last may.
    pub fn write_memory(&mut self, address: u64, bytes: &[u8]) -> Result<(), Refusal> {
        let answer = surface::machine::write_memory(&self.state, address, bytes, &mut self.memory);
        accepted(answer, ())
    }

    /// Leaves the frame that was entered last: restores what was saved, and the stack pointer.
    pub fn leave(&mut self) -> Result<(), Refusal> {
        let answer = surface::machine::leave(&mut self.state, &self.memory);
        accepted(answer, ())
    }

    /// The register that is the stack pointer: r1 on PPC64 and AIX, r15 on Z.
    pub fn stack_pointer(&self) -> u64 {
        match self.state.convention {
            2 => self.state.registers.gpr[15],
            _ => self.state.registers.gpr[1],
        }
    }

    pub fn state(&self) -> &State {
        &self.state
    }

    pub fn memory(&self) -> &[u8] {
        &self.memory
    }

    /// The state and the memory, for [`Machine::from_parts`].
    pub fn into_parts(self) -> (State, Vec<u8>) {
        (self.state, self.memory)
    }
}

#[cfg(test)]
mod tests {
    use super::*;

    const FRAME: Frame = Frame {
        first_gpr: 14,
        first_fpr: 16,
        saves_cr: 0,
        locals: 8,
        outgoing: 16,
        leaf: 0,
    };

    fn started() -> Machine {
        let registers = Registers {
            lr: 7,
            ..Registers::default()
        };
        Machine::start(Convention::Z, &registers, 0x2000, vec![0xee; 1024]).expect("a start")
    }

    fn refusal(number: u64) -> Refusal {
        Refusal {
            number,
            place: 0,
            items: 0,
        }
    }

    fn refused(answer: Result<(), Refusal>, number: u64) {
        assert_eq!(answer, Err(refusal(number)));
    }

    #[test]
    fn a_frame_there_and_back() {
        let mut machine = started();
        let pointer = 0x2000 + 1024 - 160;
        assert_eq!(machine.stack_pointer(), pointer);
        assert_eq!(machine.enter(&FRAME), Ok(()));
        let entered = pointer - 184;
        assert_eq!(machine.stack_pointer(), entered);
        assert_eq!(machine.write(Register::General(14), 5), Ok(()));
        assert_eq!(machine.write(Register::Floating(7), 6), Ok(()));
        refused(machine.write(Register::Link, 0), 20);
        refused(machine.write(Register::ConditionField(0), 0), 20);
        assert_eq!(machine.write_memory(entered + 160, &[1; 16]), Ok(()));
        assert_eq!(machine.memory()[1024 - 160 - 24..][..16], [1; 16]);
        assert_eq!(machine.leave(), Ok(()));
        assert_eq!(machine.stack_pointer(), pointer);
        let registers = &machine.state().registers;
        assert_eq!(
            (registers.gpr[14], registers.fpr[7], registers.lr),
            (0, 6, 7)
        );
        refused(machine.leave(), 22);
    }

    #[test]
    fn a_machine_goes_on_from_its_parts_and_from_no_others() {
        let mut machine = started();
        assert_eq!(machine.enter(&FRAME), Ok(()));
        let (state, memory) = machine.into_parts();
        let mut again = Machine::from_parts(state.clone(), memory.clone());
        assert_eq!(again.leave(), Ok(()));
        let mut shorter = Machine::from_parts(state, memory[16..].to_vec());
        refused(shorter.leave(), 16);
        let mut nothing = Machine::from_parts(State::default(), memory);
        refused(nothing.leave(), 23);
    }

    #[test]
    fn a_machine_of_32_bits() {
        let mut registers = Registers {
            lr: 0x1_0000_0007,
            ..Registers::default()
        };
        registers.gpr[31] = u64::MAX;
        let mut machine =
            Machine::start(Convention::Aix, &registers, 0x2000, vec![0xee; 1024]).expect("a start");
        let pointer = 0x2000 + 1024 - 64;
        assert_eq!(machine.stack_pointer(), pointer);
        assert_eq!(machine.memory()[1024 - 64..][..5], [0, 0, 0, 0, 0xee]);
        let registers = machine.state().registers;
        assert_eq!((registers.lr, registers.gpr[31]), (7, 0xffff_ffff));
        let frame = Frame {
            first_gpr: 13,
            first_fpr: 32,
            ..FRAME
        };
        assert_eq!(machine.enter(&frame), Ok(()));
        // 24 of header, 32 of outgoing area, 8 of locals and 76 of saves, rounded up
        assert_eq!(machine.stack_pointer(), pointer - 144);
        assert_eq!(machine.write(Register::General(13), 0xffff_ffff), Ok(()));
        refused(machine.write(Register::General(13), 1 << 32), 20);
        assert_eq!(machine.write(Register::Floating(13), u64::MAX), Ok(()));
        assert_eq!(machine.leave(), Ok(()));
        assert_eq!(machine.state().registers.gpr[13], 0);
        // a memory that ends at 2^32
        let base = (1 << 32) - 1024;
        let answer = Machine::start(Convention::Aix, &registers, base, vec![0; 1024]);
        assert_eq!(answer, Err(refusal(16)));
    }

    #[test]
    fn a_refused_start_is_no_machine() {
        let answer = Machine::start(Convention::Ppc64, &Registers::default(), 8, vec![0; 256]);
        assert_eq!(answer, Err(refusal(16)));
    }
}
