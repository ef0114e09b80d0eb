//! A server that keeps the plans of its drivers' functions in files, and checks each when it comes up:
//! `examples/c/stored.c` in Rust. `docs/STORED.md` says why it does what it does.
//!
//! The program comes up three times, in a new folder that it removes at its end: with nothing stored,
//! with all plans fresh, and after one driver was replaced by another with another argument.

#![forbid(unsafe_code)]

use flakuzhen::{Refusal, Signature, TextFault};
use std::error::Error;
use std::fs::{self, File};
use std::io::{self, Write};
use std::path::{Path, PathBuf};

/// `int move_to(int joint, double angle)`, on 64-bit PowerPC.
const MOVE_TO: &str = "ppc64 i32(i32, double)";
/// The new driver's: `int move_to(long joint, double angle)`.
const NEW_MOVE_TO: &str = "ppc64 i32(i64, double)";
/// `long double load(void *arm)`, on zSeries.
const LOAD: &str = "z longdouble(pointer)";

/// What a refusal of stored bytes has as its number.
const STALE: u64 = 27;

#[derive(Clone)]
struct Function {
    name: &'static str,
    signature: Signature,
    /// Its plan, as it stands in its file.
    stored: Vec<u8>,
}

impl Function {
    /// Reads the function's plan and checks it; where it is stale, plans anew.
    fn come_up(&mut self, folder: &Path) -> Result<(), Box<dyn Error>> {
        let file = folder.join(self.name).with_extension("plan");
        // a file that is not there is a plan of no bytes, which no check accepts
        self.stored = match fs::read(&file) {
            Err(fault) if fault.kind() == io::ErrorKind::NotFound => Vec::new(),
            read => read?,
        };
        match flakuzhen::check(&self.stored, &self.signature) {
            Ok(()) => println!("{}: fresh", self.name),
            Err(Refusal {
                number: STALE,
                place,
                ..
            }) => {
                println!("{}: stale at {place}", self.name);
                self.stored = flakuzhen::store(&self.signature)?;
                write_whole(folder, &file, &self.stored)?;
                println!("  stored {} bytes", self.stored.len());
            }
            Err(refusal) => return Err(refusal.into()),
        }
        Ok(())
    }

    /// A call that is filled by the plan that was checked: what changed since the check is noticed, and
    /// nothing is filled by a stale plan.
    fn call(&self, values: &[u8]) {
        let (mut image, mut area) = ([0; 512], [0; 64]);
        match flakuzhen::fill_stored(
            &self.stored,
            &self.signature,
            values,
            &mut image,
            &mut area,
            &mut [],
            0,
            0,
        ) {
            Ok(()) => println!(
                "{}: r3 {} f1 {}",
                self.name,
                hex(&image[8 * 3..][..8]),
                hex(&image[256 + 8..][..8])
            ),
            Err(refusal) => println!(
                "{}: refused {} at {}",
                self.name, refusal.number, refusal.place
            ),
        }
    }
}

/// Writes a file whole or not at all: to a new name, synced, and only then under its own name. A
/// server that is switched off meanwhile finds the older plan or the newer one, and no half.
fn write_whole(folder: &Path, file: &Path, bytes: &[u8]) -> io::Result<()> {
    let new = file.with_extension("new");
    let write = || {
        let mut to = File::create(&new)?;
        to.write_all(bytes)?;
        to.sync_all()?;
        fs::rename(&new, file)
    };
    if let Err(fault) = write() {
        let _ = fs::remove_file(&new);
        return Err(fault);
    }
    // the name is on the disk once the folder is
    File::open(folder)?.sync_all()
}

fn hex(bytes: &[u8]) -> String {
    bytes.iter().map(|byte| format!("{byte:02x}")).collect()
}

/// A new folder of this program's own.
fn new_folder() -> io::Result<PathBuf> {
    let name = format!("flakuzhen-stored-{}", std::process::id());
    let folder = std::env::temp_dir().join(name);
    fs::create_dir(&folder)?;
    Ok(folder)
}

fn main() -> Result<(), Box<dyn Error>> {
    let folder = new_folder()?;
    let outcome = come_up_three_times(&folder);
    fs::remove_dir_all(&folder)?;
    outcome
}

fn come_up_three_times(folder: &Path) -> Result<(), Box<dyn Error>> {
    let function = |name, signature: &str| -> Result<Function, TextFault> {
        Ok(Function {
            name,
            signature: signature.parse()?,
            stored: Vec::new(),
        })
    };
    let mut functions = [function("move_to", MOVE_TO)?, function("load", LOAD)?];
    println!("coming up for the first time");
    for function in &mut functions {
        function.come_up(folder)?;
    }

    println!("coming up again");
    for function in &mut functions {
        function.come_up(folder)?;
    }
    let values = [(-2i32).to_be_bytes().as_slice(), &1.5f64.to_be_bytes()].concat();
    functions[0].call(&values);

    println!("coming up with a new driver");
    functions[0].signature = NEW_MOVE_TO.parse()?;
    // what is left of a program that never checked: the old plan and the new signature
    let old = functions[0].clone();
    for function in &mut functions {
        function.come_up(folder)?;
    }
    old.call(&values);
    Ok(())
}
