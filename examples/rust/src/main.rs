//! A call planned, filled and read, for two machines. The function that is called is
//!
//! ```c
//! long area(int rows, float scale, struct { double x, y; } corner, short border);
//! ```

#![forbid(unsafe_code)]

use flakuzhen::{Convention, Plan, Refusal, Signature, Type};
use std::error::Error;

/// Where the copies of arguments that go by reference shall be, on the machine that is called.
const COPY_BASE: u64 = 0x10000;

fn main() -> Result<(), Box<dyn Error>> {
    print_call(Convention::Ppc64)?;
    println!();
    print_call(Convention::Z)
}

fn signature(convention: Convention) -> Result<Signature, Refusal> {
    let corner = Type::Struct(vec![Type::Double, Type::Double]);
    Signature::of(convention)
        .result(Type::I64)
        .argument(Type::I32)
        .argument(Type::Single)
        .argument(corner)
        .argument(Type::I16)
        .build()
}

fn print_call(convention: Convention) -> Result<(), Box<dyn Error>> {
    // plan
    let signature = signature(convention)?;
    let sizes = flakuzhen::measure(&signature)?;
    print!("{}", flakuzhen::listing(&signature));
    print_places(&flakuzhen::plan(&signature)?);
    println!(
        "values {} area {} copies {}",
        sizes.values, sizes.area, sizes.copies
    );

    // fill: the values in order, without gaps, each with its highest byte first
    let values = [
        (-3i32).to_be_bytes().as_slice(),
        &1.5f32.to_be_bytes(),
        &2.0f64.to_be_bytes(),
        &0.25f64.to_be_bytes(),
        &7i16.to_be_bytes(),
    ]
    .concat();
    let mut image = [0; 512];
    let mut area = vec![0; sizes.area as usize];
    let mut copies = vec![0; sizes.copies as usize];
    flakuzhen::fill(
        &signature,
        &values,
        &mut image,
        &mut area,
        &mut copies,
        COPY_BASE,
        0,
    )?;
    print_registers(&image);
    for (number, copy) in copies.chunks(8).enumerate() {
        println!("copy @{} = {:016x}", 8 * number, word(copy));
    }

    // read: the same values, as the called function finds them
    let mut back = vec![0; sizes.values as usize];
    flakuzhen::read(&signature, &mut back, &image, &area, &copies, COPY_BASE)?;
    println!(
        "rows {} scale {} corner ({}, {}) border {}",
        word(&back[..4]) as i32,
        f32::from_bits(word(&back[4..8]) as u32),
        f64::from_bits(word(&back[8..16])),
        f64::from_bits(word(&back[16..24])),
        word(&back[24..]) as i16
    );
    Ok(())
}

/// Where each argument stands: its type in the signature, its bytes of the values, and its places.
fn print_places(plan: &Plan) {
    for (number, argument) in plan.into_iter().enumerate() {
        print!(
            "argument {number} type @{} values {:?}",
            argument.item, argument.value
        );
        for register in argument.registers() {
            print!(" {register}");
        }
        if !argument.home.is_empty() {
            print!(" home {:?}", argument.home);
        }
        if let Some(copy) = &argument.copy {
            print!(" copy {copy:?}");
        }
        println!();
    }
}

fn print_registers(image: &[u8]) {
    for (number, register) in image.chunks(8).enumerate() {
        let value = word(register);
        if value != 0 {
            let bank = if number < 32 { 'r' } else { 'f' };
            println!("{bank}{} = {value:016x}", number % 32);
        }
    }
}

/// The number that these bytes say.
fn word(bytes: &[u8]) -> u64 {
    bytes
        .iter()
        .fold(0, |word, &byte| word << 8 | u64::from(byte))
}
