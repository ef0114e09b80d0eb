//! The calls of `data/compiled-calls.txt` and `data/described-calls.txt`, on which compiled code
//! agreed.

use crate::calls::Call;

const COMPILED: &str = include_str!("../data/compiled-calls.txt");
const DESCRIBED: &str = include_str!("../data/described-calls.txt");
const IMAGE: usize = 512;
/// The image's bytes with the general registers.
const GENERAL: usize = 256;

/// A call before it is filled and after.
pub struct CompiledCall {
    /// Its line in the file, and its convention and types in words.
    pub name: String,
    /// The latter alone: the types that it was compiled for.
    pub text: String,
    pub before: Call,
    pub after: Call,
}

/// The calls that documents 01 and 02 and the compilers pass in the same way.
pub fn all() -> Vec<CompiledCall> {
    calls_of("compiled-calls.txt", COMPILED)
}

/// Calls with small structs, long doubles or both, each described by a signature without these.
pub fn described() -> Vec<CompiledCall> {
    calls_of("described-calls.txt", DESCRIBED)
}

/// All calls of a file. A line that does not follow the files' own head panics.
fn calls_of(file: &str, text: &str) -> Vec<CompiledCall> {
    let mut calls = Vec::new();
    for (number, line) in text.lines().enumerate() {
        if line.is_empty() || line.starts_with('#') {
            continue;
        }
        let place = format!("{file}, line {}", number + 1);
        if let Some(text) = line.strip_prefix("call ") {
            calls.push(started(&place, text));
        } else if calls.last_mut().and_then(|call| take(call, line)).is_none() {
            panic!("{place}: {line:?} is not what the head explains");
        }
    }
    calls
}

/// A call of which only its text is known, which begins with the convention.
fn started(place: &str, text: &str) -> CompiledCall {
    let mut call = Call {
        image: pattern(IMAGE, 7, 3),
        ..Call::default()
    };
    if text.starts_with("AIX ") {
        for register in call.image[..GENERAL].chunks_mut(8) {
            register[..4].fill(0);
        }
    }
    CompiledCall {
        name: format!("{place}: {text}"),
        text: text.to_string(),
        before: call.clone(),
        after: call,
    }
}

/// Byte i is `step` times i plus `first`, modulo 256.
fn pattern(length: usize, step: usize, first: usize) -> Vec<u8> {
    (0..length).map(|at| (step * at + first) as u8).collect()
}

/// Adds a line to a call; nothing where the line is not understood.
fn take(call: &mut CompiledCall, line: &str) -> Option<()> {
    let (word, rest) = line.split_once(' ')?;
    if let Some((buffer, at)) = word.split_once('+') {
        let buffer = match buffer {
            "area" => &mut call.after.area,
            "copies" => &mut call.after.copies,
            _ => return None,
        };
        return put(buffer, at.parse().ok()?, rest);
    }
    for call in [&mut call.before, &mut call.after] {
        match word {
            "signature" => call.signature = bytes(rest)?,
            "values" => call.values = bytes(rest)?,
            "base" => call.base = u64::from_str_radix(rest, 16).ok()?,
            "hidden" => call.hidden = u64::from_str_radix(rest, 16).ok()?,
            "area" => call.area = pattern(rest.parse().ok()?, 11, 5),
            "copies" => call.copies = pattern(rest.parse().ok()?, 13, 9),
            _ => {}
        }
    }
    match word {
        "signature" | "values" | "base" | "hidden" | "area" | "copies" => Some(()),
        _ => put(&mut call.after.image, register(word)?, rest),
    }
}

/// Where the register of this name stands in an image.
fn register(name: &str) -> Option<usize> {
    let (bank, start) = match name.strip_prefix('r') {
        Some(number) => (number, 0),
        None => (name.strip_prefix('f')?, 256),
    };
    let number: usize = bank.parse().ok()?;
    (number < 32).then_some(start + 8 * number)
}

fn put(buffer: &mut [u8], at: usize, text: &str) -> Option<()> {
    let bytes = bytes(text)?;
    let part = buffer.get_mut(at..at + bytes.len())?;
    part.copy_from_slice(&bytes);
    Some(())
}

/// The bytes that pairs of hexadecimal digits say.
fn bytes(text: &str) -> Option<Vec<u8>> {
    let digits = text.as_bytes().chunks(2);
    digits
        .map(|pair| u8::from_str_radix(std::str::from_utf8(pair).ok()?, 16).ok())
        .collect()
}
