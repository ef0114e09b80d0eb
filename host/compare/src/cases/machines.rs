//! Cases of the frame machine: lists of calls of one state and one memory, which are also changed
//! between the calls, and calls of states that were made up.

use super::{changes, Case, Change, Operation};
use crate::machine_calls::{self as calls, Style, STYLES};
use crate::machine_lists::{change, make_up, mending, other_length};
use crate::machines::{call_second, random_bytes, random_state, Call, GUARD};
use crate::random::Random;
use reference::machine::{Machine, Registers, Request};
use reference::Convention;

/// The most calls of a list after its start: enough for 32 frames and the way back.
const LONGEST_LIST: usize = 120;

/// A list of calls in each convention, and some made up states.
pub fn some(random: &mut Random, cases: &mut Vec<Case>) {
    for convention in Convention::ALL {
        if random.once_in(6) {
            list(random, convention, cases);
        }
        if random.once_in(4) {
            nonsense(random, convention, cases);
        }
    }
}

/// The second program's machine, and the cases of what it does.
struct Recorded<'c> {
    state: Machine,
    /// With some bytes after the machine's own, since a call may be lent more.
    memory: Vec<u8>,
    length: usize,
    cases: &'c mut Vec<Case>,
}

impl<'c> Recorded<'c> {
    fn new(state: Machine, memory: Vec<u8>, cases: &'c mut Vec<Case>) -> Recorded<'c> {
        cases.push(Case {
            operation: Operation::SetMachine,
            numbers: vec![],
            lent: vec![state_bytes(&state), memory.clone()],
            answer: vec![],
            changes: vec![],
        });
        Recorded {
            state,
            length: memory.len() - GUARD,
            memory,
            cases,
        }
    }

    fn call(&mut self, call: &Call) -> u64 {
        self.call_lending(call, self.length)
    }

    fn call_lending(&mut self, call: &Call, lent: usize) -> u64 {
        let before = (state_bytes(&self.state), self.memory.clone());
        let answer = call_second(&mut self.state, call, &mut self.memory[..lent]);
        let (operation, mut numbers, buffer) = call_parts(call);
        numbers.push(lent as u64);
        let mut changes = self.changes_since(&before);
        changes.extend(buffer.iter().map(|_| vec![]));
        self.cases.push(Case {
            operation,
            numbers,
            lent: buffer.into_iter().collect(),
            answer: vec![answer.number, answer.place, answer.items],
            changes,
        });
        answer.number
    }

    /// A change of the state and the memory that no call makes.
    fn change(&mut self, make: impl FnOnce(&mut Machine, &mut [u8])) {
        let before = (state_bytes(&self.state), self.memory.clone());
        make(&mut self.state, &mut self.memory);
        let changes = self.changes_since(&before);
        self.cases.push(Case {
            operation: Operation::ChangeMachine,
            numbers: vec![],
            lent: vec![],
            answer: vec![],
            changes,
        });
    }

    fn changes_since(&self, (state, memory): &(Vec<u8>, Vec<u8>)) -> Vec<Vec<Change>> {
        vec![
            changes(state, &state_bytes(&self.state)),
            changes(memory, &self.memory),
        ]
    }
}

/// A call's operation, its numbers but for the memory's length, and the buffer that it is lent.
fn call_parts(call: &Call) -> (Operation, Vec<u64>, Option<Vec<u8>>) {
    match call {
        Call::Start {
            convention,
            registers,
            base,
        } => {
            let operation = match convention {
                Convention::Ppc64 => Operation::StartPpc64,
                Convention::Z => Operation::StartZ,
                Convention::Aix => Operation::StartAix,
                Convention::Ppc64b => Operation::StartPpc64b,
            };
            let registers = bytes_of(&register_words(registers));
            (operation, vec![*base], Some(registers))
        }
        Call::Enter(request) => {
            let request = bytes_of(&request_words(request));
            (Operation::Enter, vec![], Some(request))
        }
        Call::WriteRegister {
            bank,
            number,
            value,
        } => (Operation::WriteRegister, vec![*bank, *number, *value], None),
        Call::WriteMemory { address, bytes } => {
            (Operation::WriteMemory, vec![*address], Some(bytes.clone()))
        }
        Call::Leave => (Operation::Leave, vec![], None),
    }
}

fn bytes_of(words: &[u64]) -> Vec<u8> {
    words.iter().flat_map(|word| word.to_be_bytes()).collect()
}

fn register_words(of: &Registers) -> Vec<u64> {
    [&of.gpr[..], &of.fpr[..], &[of.lr, of.cr]].concat()
}

fn request_words(of: &Request) -> [u64; 6] {
    [
        of.first_gpr,
        of.first_fpr,
        of.saves_cr,
        of.locals,
        of.outgoing,
        of.leaf,
    ]
}

/// The 262 words of the C surface's struct.
fn state_bytes(of: &Machine) -> Vec<u8> {
    let mut words = vec![of.convention, of.base, of.size, of.depth];
    words.extend(register_words(&of.registers));
    words.extend(of.frames.iter().flat_map(request_words));
    bytes_of(&words)
}

/// A list of calls from a start on, at times with one that is refused before it.
fn list(random: &mut Random, convention: Convention, cases: &mut Vec<Case>) {
    let length = calls::memory_length(random, convention);
    let state = random_state(random);
    let mut machine = Recorded::new(state, random_bytes(random, length + GUARD), cases);
    let style = random.pick(&STYLES);
    if random.once_in(2) {
        let (start, lent) = calls::refused_start(random, convention, length);
        machine.call_lending(&start, lent);
        machine.call(&calls::call(random, &machine.state, style));
    }
    machine.call(&calls::start(random, convention, length));
    let count = match random.below(4) {
        0 => LONGEST_LIST,
        _ => 1 + random.below(30),
    };
    for _ in 0..count {
        match random.below(24) {
            0 => leave_from_foreign_bytes(random, &mut machine),
            1 => call_foreign_state(random, &mut machine, style),
            2 => {
                let call = calls::call(random, &machine.state, style);
                let lent = other_length(random, length);
                machine.call_lending(&call, lent);
            }
            _ => {
                machine.call(&calls::call(random, &machine.state, style));
            }
        }
    }
}

/// A leave after bytes were changed that matter to it, which are put back where it is refused.
fn leave_from_foreign_bytes(random: &mut Random, machine: &mut Recorded) {
    if let Some(convention) = machine.state.possible() {
        let address = calls::protected(random, &machine.state, convention) + random.number() % 8;
        let at = ((address - machine.state.base) as usize).min(machine.length - 8);
        let before = machine.memory[at..at + 8].to_vec();
        let foreign = random_bytes(random, 8);
        machine.change(|_, memory| memory[at..at + 8].copy_from_slice(&foreign));
        if machine.call(&Call::Leave) != 0 {
            machine.change(|_, memory| memory[at..at + 8].copy_from_slice(&before));
        }
    }
}

/// A call of a state that was changed, which is put back.
fn call_foreign_state(random: &mut Random, machine: &mut Recorded, style: Style) {
    let before = machine.state.clone();
    machine.change(|state, _| change(random, state));
    let call = calls::call(random, &machine.state, style);
    if machine.call(&call) != 0 || machine.state.size != before.size {
        machine.change(|state, _| *state = before);
    }
}

/// Calls of a state that was made up, on a memory that knows nothing of it.
fn nonsense(random: &mut Random, convention: Convention, cases: &mut Vec<Case>) {
    let length = calls::memory_length(random, convention);
    let mut state = random_state(random);
    if !random.once_in(16) {
        make_up(random, convention, length, &mut state);
        for _ in 0..random.below(3) {
            change(random, &mut state);
        }
    }
    let mut machine = Recorded::new(state, random_bytes(random, length + GUARD), cases);
    for _ in 0..1 + random.below(4) {
        if let Some((at, bytes)) = mending(random, &machine.state, length) {
            machine.change(|_, memory| memory[at..at + bytes.len()].copy_from_slice(&bytes));
        }
        let call = match random.once_in(2) {
            true => calls::call(random, &machine.state, Style::Mixed),
            false => Call::Leave,
        };
        machine.call(&call);
    }
}
