//! Which faults and edges the cases of a comparison had, by the faults F of its kind of call.

use std::collections::{BTreeMap, BTreeSet};
use std::fmt;

/// What was met.
#[derive(Clone)]
pub struct Met<F> {
    /// How often each fault was the one that was answered.
    pub faults: BTreeMap<F, u64>,
    /// How often a case had both of these, and the first was answered.
    pub orders: BTreeMap<(F, F), u64>,
    /// How often each edge came.
    pub edges: BTreeMap<&'static str, u64>,
}

/// How often each fault must have been the one that was answered, each fault before each later one,
/// and each edge.
pub struct Least {
    pub faults: u64,
    pub orders: u64,
    pub edges: u64,
}

impl<F> Default for Met<F> {
    fn default() -> Met<F> {
        Met {
            faults: BTreeMap::new(),
            orders: BTreeMap::new(),
            edges: BTreeMap::new(),
        }
    }
}

impl<F: Copy + Ord + fmt::Debug> Met<F> {
    /// Counts a case: of its faults, which are in the order of the tests, the first is answered; an
    /// edge counts where it matters for that.
    pub fn count(&mut self, faults: &BTreeSet<F>, edges: &BTreeSet<(Option<F>, &'static str)>) {
        let answered = faults.first().copied();
        if let Some(first) = answered {
            *self.faults.entry(first).or_default() += 1;
            for &other in faults.iter().skip(1) {
                *self.orders.entry((first, other)).or_default() += 1;
            }
        }
        for &(matters_for, edge) in edges {
            if matters_for == answered {
                self.edge(edge);
            }
        }
    }

    pub fn edge(&mut self, edge: &'static str) {
        *self.edges.entry(edge).or_default() += 1;
    }

    /// Panics where one of the faults, an order of two that can come `together`, or one of the edges
    /// came too seldom, or where an edge came that is not named.
    pub fn hold(
        &self,
        faults: &[F],
        together: impl Fn(F, F) -> bool,
        edges: &[&str],
        least: &Least,
    ) {
        for (at, &fault) in faults.iter().enumerate() {
            let count = self.faults.get(&fault).copied().unwrap_or(0);
            assert!(count >= least.faults, "{fault:?} came only {count} times");
            for &later in &faults[at + 1..] {
                let count = self.orders.get(&(fault, later)).copied().unwrap_or(0);
                assert!(
                    count >= least.orders || !together(fault, later),
                    "{fault:?} before {later:?} came only {count} times"
                );
            }
        }
        for edge in edges {
            let count = self.edges.get(edge).copied().unwrap_or(0);
            assert!(count >= least.edges, "'{edge}' came only {count} times");
        }
        for edge in self.edges.keys() {
            assert!(edges.contains(edge), "'{edge}' is not named");
        }
    }
}

impl<F: fmt::Debug> fmt::Display for Met<F> {
    fn fmt(&self, to: &mut fmt::Formatter<'_>) -> fmt::Result {
        for (fault, count) in &self.faults {
            write!(to, "\n  {fault:?}: {count}")?;
        }
        for ((first, other), count) in &self.orders {
            write!(to, "\n  {first:?} before {other:?}: {count}")?;
        }
        for (edge, count) in &self.edges {
            write!(to, "\n  {edge}: {count}")?;
        }
        Ok(())
    }
}
