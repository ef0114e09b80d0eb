//! The time of several ways of doing the same.

use std::ops::AddAssign;
use std::time::{Duration, Instant};

/// How many inputs are timed together: enough for the clock's own time to count for nothing, few
/// enough for most batches to pass without the machine doing something else meanwhile.
const BATCH: usize = 50;

/// Nanoseconds that several rounds took, by their order.
#[derive(Clone, Copy, Debug, Default, PartialEq)]
pub struct Quartiles {
    pub lower: f64,
    pub median: f64,
    pub upper: f64,
}

impl AddAssign for Quartiles {
    fn add_assign(&mut self, other: Quartiles) {
        self.lower += other.lower;
        self.median += other.median;
        self.upper += other.upper;
    }
}

/// One way of doing it with a batch of inputs.
pub type Side<'a, T> = &'a dyn Fn(&[T]);

/// What each side takes for all inputs, which it is handed batch by batch. On a batch the sides run one after
/// the other, and who comes first goes round by round: a slow moment of the machine, or what another
/// left in its caches, meets all alike. Of each batch's times in all rounds the quartiles count.
pub fn turns<T, const SIDES: usize>(
    inputs: &[T],
    rounds: usize,
    sides: [Side<T>; SIDES],
) -> [Quartiles; SIDES] {
    let batches: Vec<&[T]> = inputs.chunks(BATCH).collect();
    let mut times = vec![[(); SIDES].map(|()| Vec::with_capacity(rounds)); batches.len()];
    for round in 0..rounds {
        for (batch, times) in batches.iter().zip(&mut times) {
            for turn in 0..SIDES {
                let side = (round + turn) % SIDES;
                let began = Instant::now();
                sides[side](batch);
                times[side].push(began.elapsed());
            }
        }
    }
    let mut sums = [Quartiles::default(); SIDES];
    for batch in times {
        for (sum, mut times) in sums.iter_mut().zip(batch) {
            *sum += quartiles(&mut times);
        }
    }
    sums
}

/// Of an even number in the middle the later one counts.
fn quartiles(times: &mut [Duration]) -> Quartiles {
    times.sort_unstable();
    let at = |place: usize| times[place].as_nanos() as f64;
    Quartiles {
        lower: at(times.len() / 4),
        median: at(times.len() / 2),
        upper: at(3 * times.len() / 4),
    }
}

#[cfg(test)]
mod tests {
    use super::*;
    use std::cell::RefCell;

    #[test]
    fn by_their_order() {
        let of = |times: &[u64]| {
            let mut times: Vec<Duration> =
                times.iter().copied().map(Duration::from_nanos).collect();
            let of = quartiles(&mut times);
            [of.lower, of.median, of.upper]
        };
        assert_eq!(of(&[3, 1, 2]), [1.0, 2.0, 3.0]);
        assert_eq!(of(&[4, 1, 3, 2]), [2.0, 3.0, 4.0]);
        assert_eq!(of(&[5, 9, 7, 1, 3]), [3.0, 5.0, 7.0]);
    }

    #[test]
    fn the_sides_alternate() {
        let order = RefCell::new(String::new());
        let inputs = [1; BATCH + 1];
        let side = |name| {
            let order = &order;
            move |batch: &[i32]| batch.iter().for_each(|_| order.borrow_mut().push(name))
        };
        turns(&inputs, 3, [&side('a'), &side('b')]);
        let (a, b) = ("a".repeat(BATCH), "b".repeat(BATCH));
        let even = format!("{a}{b}ab");
        let odd = format!("{b}{a}ba");
        assert_eq!(order.into_inner(), format!("{even}{odd}{even}"));
    }
}
