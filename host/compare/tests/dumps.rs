//! The walk of a dump, compared.

use compare::dumps::{chain, compare, run, spoil, Counts, Fault, FAULTS};
use compare::random::Random;
use reference::dump::{alignment, header, MOST_FRAMES};
use reference::Convention;

const DUMPS: u64 = 100_000;

#[test]
fn dumps_and_machines_by_chance() {
    let seed = compare::seed();
    println!("seed {seed:#x}");
    let counts = match run(seed, DUMPS) {
        Ok(counts) => counts,
        Err(difference) => panic!("seed {seed:#x}: {difference}"),
    };
    println!("{counts}");
    let [bad, long, short] = counts.refused;
    assert!(
        counts.accepted >= 50_000,
        "accepted only {}",
        counts.accepted
    );
    assert!(bad >= 50_000 && long >= 50 && short >= 10_000);
    assert!(counts.past_the_end >= 10_000);
    assert!(counts.machines >= 20_000 && counts.leaves >= 1_000);
    assert_eq!(counts.deepest, 32);
    assert!(counts.most >= 20);
}

/// The number and the place that both programs give.
fn answer(dump: &compare::dumps::Dump) -> (u64, u64, u64) {
    let walked = match compare(dump, &mut Counts::default()) {
        Ok(walked) => walked,
        Err(difference) => panic!("{difference}"),
    };
    (walked.answer.number, walked.answer.place, walked.count)
}

#[test]
fn as_many_frames_as_a_walk_finds() {
    let mut random = Random::new(1);
    for convention in Convention::ALL {
        for (frames, list, expected) in [
            (MOST_FRAMES - 1, MOST_FRAMES - 1, (0, 0, 4095)),
            (MOST_FRAMES - 1, MOST_FRAMES - 2, (32, 0, 0)),
            (MOST_FRAMES, MOST_FRAMES, (0, 0, 4096)),
            (MOST_FRAMES, MOST_FRAMES - 1, (32, 0, 0)),
            (MOST_FRAMES + 1, MOST_FRAMES + 1, (31, 0, 0)),
            (MOST_FRAMES + 1, 0, (31, 0, 0)),
        ] {
            let (mut dump, addresses) = chain(&mut random, convention, frames);
            dump.list = vec![7; list];
            assert_eq!(answer(&dump), expected);
            // 31 comes before the next address is looked at, 30 at the last that is
            dump.list = vec![7; frames];
            let bad = addresses[frames - 1] + 1;
            spoil_at(&mut dump, addresses[frames - 2], bad);
            match frames > MOST_FRAMES {
                true => assert_eq!(answer(&dump), (31, 0, 0)),
                false => assert_eq!(answer(&dump), (30, bad, 0)),
            }
        }
    }
}

/// Puts another back chain at an address.
fn spoil_at(dump: &mut compare::dumps::Dump, address: u64, chain: u64) {
    let at = (address - dump.base) as usize;
    let width = dump.convention.word();
    dump.memory[at..at + width].copy_from_slice(&chain.to_be_bytes()[8 - width..]);
}

#[test]
fn each_test_of_an_address_alone() {
    let mut random = Random::new(2);
    for convention in Convention::ALL {
        let step = alignment(convention);
        let header = header(convention) as u64;
        let (whole, addresses) = chain(&mut random, convention, 5);
        let of = |change: &dyn Fn(&mut compare::dumps::Dump)| {
            let mut dump = whole.clone();
            dump.list = vec![7; 5];
            change(&mut dump);
            answer(&dump)
        };
        assert_eq!(of(&|_| ()), (0, 0, 5));
        let [first, second, .., last] = addresses[..] else {
            panic!("five frames")
        };
        // a loop, a chain to itself, down, and one that is not aligned
        assert_eq!(of(&|dump| spoil_at(dump, last, first)), (30, first, 0));
        assert_eq!(of(&|dump| spoil_at(dump, second, second)), (30, second, 0));
        assert_eq!(of(&|dump| spoil_at(dump, second, first)), (30, first, 0));
        let off = second + step / 2;
        assert_eq!(of(&|dump| spoil_at(dump, first, off)), (30, off, 0));
        // the last header cut, and whole
        let behind = (last - whole.base + header) as usize;
        assert_eq!(of(&|dump| dump.memory.truncate(behind - 1)), (30, last, 0));
        assert_eq!(of(&|dump| dump.memory.truncate(behind)), (0, 0, 5));
        // a stack pointer under the dump, and past it
        if let Some(under) = whole.base.checked_sub(step) {
            assert_eq!(of(&|dump| dump.pointer = under), (30, under, 0));
        }
        assert_eq!(of(&|dump| dump.pointer = u64::MAX / step * step).0, 30);
        // the dump's end at 2^64 - 1 and at 2^64: of the base before all else
        let end = u64::MAX - whole.memory.len() as u64;
        assert_ne!(of(&|dump| dump.base = end), (30, end, 0));
        assert_eq!(of(&|dump| dump.base = end + 1), (30, end + 1, 0));
        assert_eq!(of(&|dump| dump.list.truncate(4)), (32, 0, 0));
    }
}

#[test]
fn address_0_may_be_a_frame() {
    for convention in Convention::ALL {
        let dump = compare::dumps::Dump {
            convention,
            memory: vec![0; header(convention)],
            base: 0,
            pointer: 0,
            list: vec![7],
        };
        assert_eq!(answer(&dump), (0, 0, 1));
        let mut short = dump.clone();
        short.memory.pop();
        assert_eq!(answer(&short), (30, 0, 0));
    }
}

/// Each fault that is made gives the refusal that it is for.
#[test]
fn faults_that_are_made_are_faults() {
    let mut random = Random::new(compare::seed());
    for convention in Convention::ALL {
        for fault in FAULTS {
            for _ in 0..200 {
                let frames = 2 + random.below(6);
                let (mut dump, addresses) = chain(&mut random, convention, frames);
                dump.list = vec![7; 8];
                spoil(&mut random, &mut dump, &addresses, fault);
                let (number, place, _) = answer(&dump);
                match fault {
                    Fault::None => assert_eq!(number, 0),
                    Fault::AnyAddress => assert!(number == 0 || number == 30),
                    // a back chain to address 0 is zero, and ends the walk
                    Fault::ToItself | Fault::Loop if addresses[0] == 0 => {}
                    Fault::PastTheEnd => assert_eq!((number, place), (30, dump.base)),
                    _ => assert_eq!(number, 30, "{fault:?}"),
                }
            }
        }
    }
}
