//! Whole calls through the frame machine, from the caller's values to the callee's, in each convention.

use compare::whole_calls::{run, Reach};
use flakuzhen::surface::marshal as surface;
use reference::Convention;

const CALLS: u64 = 20_000;

fn reached(convention: Convention) -> Reach {
    let seed = compare::seed();
    println!("seed {seed:#x}");
    let reach = match run(seed, convention, CALLS) {
        Ok(reach) => reach,
        Err(difference) => panic!("seed {seed:#x}: {difference}"),
    };
    println!("{convention:?}: {reach}");
    let common = [
        ("nested", reach.nested),
        ("later calls of a function", reach.later),
        ("from the start", reach.from_start),
        ("just the room", reach.exact_room),
        ("a hidden address", reach.hidden),
        ("a result in registers", reach.results),
        ("memory", reach.in_memory),
    ];
    for (what, count) in common {
        assert!(count >= 500, "{what}: only {count}");
    }
    assert!(reach.deepest >= 4, "only {} open", reach.deepest);
    reach
}

fn on_powerpc(reach: &Reach) {
    assert!(reach.to_leaf >= 2_000, "only {} to a leaf", reach.to_leaf);
    assert_eq!(reach.homed, reach.calls, "every callee homes");
    assert!(reach.views >= 30_000, "only {} views", reach.views);
    assert_eq!(reach.copies_inside + reach.copies_outside + reach.sixes, 0);
    let doubled = reach.doubled;
    assert!(doubled >= 1_000, "only {doubled} in several places");
}

#[test]
fn ppc64() {
    let reach = reached(Convention::Ppc64);
    on_powerpc(&reach);
    assert_eq!(reach.odd_areas, 0);
}

#[test]
fn z() {
    let reach = reached(Convention::Z);
    assert!(reach.sixes >= 2_000, "only {} with r6", reach.sixes);
    assert!(reach.copies_outside >= 1_000 && reach.copies_inside >= 1_000);
    assert_eq!(reach.to_leaf + reach.homed + reach.odd_areas, 0);
}

#[test]
fn aix() {
    let reach = reached(Convention::Aix);
    on_powerpc(&reach);
    assert!(
        reach.odd_areas >= 1_000,
        "only {} odd areas",
        reach.odd_areas
    );
}

#[test]
fn ppc64b() {
    let reach = reached(Convention::Ppc64b);
    on_powerpc(&reach);
    assert_eq!(reach.odd_areas, 0);
}

/// The call that `examples/replays/aix-driver-call.calls` makes: what its caller writes is what filling leaves,
/// and a callee that has it reads the values.
#[test]
fn the_stored_call() {
    let replay = include_str!("../../../examples/replays/aix-driver-call.calls");
    let caller = replay.split("enter").nth(1).expect("the caller's frame");
    let mut signature = vec![1, 0, 1, 3, 2, 0, 0, 3, 0, 32, 0x10, 0, 1, 6];
    signature.extend([0x10, 0, 1, 4].repeat(7));
    let mut values = vec![1, 2, 3, 4, 5, 6, 7, 8, 255, 255, 255, 255];
    for last in 2..8 {
        values.extend([0, 0, 0, last]);
    }
    let (mut image, mut area) = (vec![0; 512], vec![9; 36]);
    let answer = surface::fill(&signature, &values, &mut image, &mut area, &mut [], 0, 0);
    assert_eq!(answer.number, 0);

    let (mut put_image, mut put_area) = (vec![0; 512], Vec::new());
    for line in caller.lines() {
        let words: Vec<&str> = line.split_whitespace().collect();
        match words[..] {
            ["write", "mem", "0x1218", hex, ..] => {
                let byte = |at| u8::from_str_radix(&hex[at..at + 2], 16).expect("a byte");
                put_area = (0..hex.len()).step_by(2).map(byte).collect();
            }
            ["write", register, value, ..] => {
                let number: usize = register[1..].parse().expect("a register");
                let value = match value.strip_prefix("0x") {
                    Some(digits) => u64::from_str_radix(digits, 16),
                    None => value.parse(),
                };
                let value = value.expect("a number");
                put_image[8 * number..][..8].copy_from_slice(&value.to_be_bytes());
            }
            _ => {}
        }
    }
    assert_eq!(put_image, image);
    assert_eq!(put_area, area);
    let mut read = vec![0; values.len()];
    let answer = surface::read(&signature, &mut read, &put_image, &put_area, &[], 0);
    assert_eq!((answer.number, read), (0, values));
}
