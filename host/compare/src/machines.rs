//! The frame machine compared. Both programs make the same calls, each on a state and a memory of
//! its own, and after every call all of both is compared: the answer, the 262 words of the state,
//! the memory and some bytes on either side of it.

use crate::random::Random;
use crate::signatures::{refused, ACCEPTED};
use crate::Difference;
use flakuzhen::surface::machine as library;
use flakuzhen::surface::Answer;
use reference::machine::{self as second, pointer_register, Machine, Registers, Request};
use reference::Convention;

/// The bytes on either side of the memory that no call may touch. A call may be lent as many more
/// than the machine has.
pub const GUARD: usize = 64;

#[derive(Clone, Debug)]
pub enum Call {
    Start {
        convention: Convention,
        registers: Box<Registers>,
        base: u64,
    },
    Enter(Request),
    WriteRegister {
        bank: u64,
        number: u64,
        value: u64,
    },
    WriteMemory {
        address: u64,
        bytes: Vec<u8>,
    },
    Leave,
}

/// The two programs' machines, which are the same after every call.
pub struct Pair {
    library: library::Machine,
    library_bytes: Vec<u8>,
    second: Machine,
    second_bytes: Vec<u8>,
}

impl Pair {
    /// A memory of this length, with bytes and a state by chance.
    pub fn new(random: &mut Random, length: usize) -> Pair {
        let bytes = random_bytes(random, GUARD + length + GUARD);
        let state = random_state(random);
        Pair {
            library: library_machine(&state),
            library_bytes: bytes.clone(),
            second: state,
            second_bytes: bytes,
        }
    }

    /// The state that both have.
    pub fn state(&self) -> &Machine {
        &self.second
    }

    /// The memory that both have.
    pub fn memory(&self) -> &[u8] {
        &self.second_bytes[GUARD..self.second_bytes.len() - GUARD]
    }

    /// Gives both this change of their state.
    pub fn change_state(&mut self, change: impl FnOnce(&mut Machine)) {
        change(&mut self.second);
        self.library = library_machine(&self.second);
    }

    /// Gives both these bytes at an offset of their memory.
    pub fn change_memory(&mut self, at: usize, bytes: &[u8]) {
        for memory in [&mut self.library_bytes, &mut self.second_bytes] {
            memory[GUARD + at..][..bytes.len()].copy_from_slice(bytes);
        }
    }

    /// Makes the call in both, with the machine's memory, and gives the number that both answer.
    pub fn call(&mut self, call: &Call) -> Result<u64, Difference> {
        self.call_lending(call, self.memory().len())
    }

    /// Makes the call in both, with this many bytes of memory.
    pub fn call_lending(&mut self, call: &Call, lent: usize) -> Result<u64, Difference> {
        let before = self.second.clone();
        let given = self.call_library(call, lent);
        let expected = self.call_second(call, lent);
        let fault = if given != expected {
            Some(format!(
                "the library answers {given:?}, the second program {expected:?}"
            ))
        } else if !same_machine(&self.library, &self.second) {
            Some(format!(
                "both answer {given:?}, but the library's state is {:x?}\nthe second program's {:x?}",
                self.library, self.second
            ))
        } else if self.library_bytes != self.second_bytes {
            Some(format!(
                "both answer {given:?}, {}",
                self.first_difference()
            ))
        } else {
            None
        };
        match fault {
            None => Ok(expected.number),
            Some(fault) => Err(Difference(format!(
                "{fault}\nto {call:?} with {lent} bytes of memory, in the state of {}",
                told(&before)
            ))),
        }
    }

    fn first_difference(&self) -> String {
        let both = self.library_bytes.iter().zip(&self.second_bytes);
        let differs = |(at, (given, expected)): (usize, (&u8, &u8))| {
            (given != expected).then(|| {
                format!(
                    "but the memory's byte {} is {given:02x} in the library's and {expected:02x} \
                     in the second program's",
                    at as i64 - GUARD as i64
                )
            })
        };
        both.enumerate().find_map(differs).unwrap_or_default()
    }

    fn call_library(&mut self, call: &Call, lent: usize) -> Answer {
        let machine = &mut self.library;
        let memory = &mut self.library_bytes[GUARD..GUARD + lent];
        match call {
            Call::Start {
                convention,
                registers,
                base,
            } => {
                let registers = library_registers(registers);
                match convention {
                    Convention::Ppc64 => library::start_ppc64(machine, &registers, *base, memory),
                    Convention::Z => library::start_z(machine, &registers, *base, memory),
                    Convention::Aix => library::start_aix(machine, &registers, *base, memory),
                    Convention::Ppc64b => library::start_ppc64b(machine, &registers, *base, memory),
                }
            }
            Call::Enter(request) => library::enter(machine, &library_frame(request), memory),
            Call::WriteRegister {
                bank,
                number,
                value,
            } => library::write_register(machine, *bank, *number, *value, memory),
            Call::WriteMemory { address, bytes } => {
                library::write_memory(machine, *address, bytes, memory)
            }
            Call::Leave => library::leave(machine, memory),
        }
    }

    fn call_second(&mut self, call: &Call, lent: usize) -> Answer {
        let memory = &mut self.second_bytes[GUARD..GUARD + lent];
        call_second(&mut self.second, call, memory)
    }
}

/// What the second program answers, in the words of the C surface.
pub fn call_second(machine: &mut Machine, call: &Call, memory: &mut [u8]) -> Answer {
    let answer = match call {
        Call::Start {
            convention,
            registers,
            base,
        } => {
            let (started, answer) = second::start(*convention, registers, *base, memory);
            *machine = started;
            answer
        }
        Call::Enter(request) => machine.enter(request, memory),
        Call::WriteRegister {
            bank,
            number,
            value,
        } => machine.write_register(*bank, *number, *value, memory),
        Call::WriteMemory { address, bytes } => machine.write_memory(*address, bytes, memory),
        Call::Leave => machine.leave(memory),
    };
    match answer {
        Ok(()) => ACCEPTED,
        Err(refusal) => refused(&refusal),
    }
}

/// A state for people: without the records that nothing looks at.
pub fn told(machine: &Machine) -> String {
    let Machine {
        convention,
        base,
        size,
        depth,
        registers,
        frames,
    } = machine;
    format!(
        "convention {convention}, base {base:#x}, size {size}, depth {depth}, {registers:x?}, \
         frames {:?}",
        &frames[..(*depth).min(32) as usize]
    )
}

pub fn random_bytes(random: &mut Random, length: usize) -> Vec<u8> {
    let mut bytes = Vec::with_capacity(length + 8);
    while bytes.len() < length {
        bytes.extend_from_slice(&random.number().to_be_bytes());
    }
    bytes.truncate(length);
    bytes
}

/// A state by chance, which is none that calls lead to.
pub fn random_state(random: &mut Random) -> Machine {
    let mut state = Machine {
        convention: random.number(),
        base: random.number(),
        size: random.number(),
        depth: random.number(),
        registers: random_registers(random),
        frames: [Request::default(); 32],
    };
    for frame in &mut state.frames {
        frame.locals = random.number();
    }
    state
}

/// Registers by chance, CR with bits above its 32 too.
pub fn random_registers(random: &mut Random) -> Registers {
    let mut registers = Registers {
        gpr: [0; 32],
        fpr: [0; 32],
        lr: random.number(),
        cr: random.number(),
    };
    for n in 0..32 {
        registers.gpr[n] = random.number();
        registers.fpr[n] = random.number();
    }
    registers
}

fn library_registers(of: &Registers) -> library::Registers {
    library::Registers {
        gpr: of.gpr,
        fpr: of.fpr,
        lr: of.lr,
        cr: of.cr,
    }
}

fn library_frame(of: &Request) -> library::Frame {
    library::Frame {
        first_gpr: of.first_gpr,
        first_fpr: of.first_fpr,
        saves_cr: of.saves_cr,
        locals: of.locals,
        outgoing: of.outgoing,
        leaf: of.leaf,
    }
}

fn library_machine(of: &Machine) -> library::Machine {
    library::Machine {
        convention: of.convention,
        base: of.base,
        size: of.size,
        depth: of.depth,
        registers: library_registers(&of.registers),
        frames: of.frames.map(|frame| library_frame(&frame)),
    }
}

/// Whether all 262 words are the same.
fn same_machine(given: &library::Machine, expected: &Machine) -> bool {
    *given == library_machine(expected)
}

/// The stack pointer of a state whose convention is one.
pub fn stack_pointer(machine: &Machine) -> u64 {
    let convention = Convention::of_code(machine.convention).unwrap_or(Convention::Ppc64);
    machine.registers.gpr[pointer_register(convention)]
}
