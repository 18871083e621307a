//! The traits that numerical.rs builds on. Licence: Apache-2.0, see NOTICE.
//! Between the two marks stands the text of analysis/src/domains.rs, unchanged; the rest is ours.
#![allow(unused_imports)]

// ---- cut from analysis/src/domains.rs begins ----
use core::cmp::Ordering;
use core::fmt::Debug;
use core::hash::Hash;
use core::ops::{Add, Deref, DerefMut, Div, Mul, Neg, Rem, Sub};
// ---- cut ends; a second one from the same file begins ----
/////////////////////////
// Traits for domains. //
/////////////////////////

/// A join semi-lattice is a partially ordered set that where the least upper
/// bound exists for every subset. Usually, the ordering relation can be viewed
/// as "safe approximation". For example, the interval \[4, 7\] is a safe
/// approximation of \[5, 6\]. The goal of abstract interpretation is to calculate
/// a precise but safe approximation of the program behavior. In this library,
/// Top represents the biggest element (largest approximation), Bottom represents
/// the smallest one.
pub trait JoinSemiLattice: Eq + PartialOrd + Clone + Debug {
    /// A type to hold some information about the lattice on the side.
    ///
    /// For some lattices, like the power set lattice, we need to
    /// store somewhere the top or the bottom value. When we need
    /// no such values, set this to unit.
    type LatticeContext;

    /// The unit element of the join operation. Strictly speaking a join
    /// semi-lattice does not need to have a bottom element, but having one
    /// makes certain computations simpler. In case a domain lacks a bottom
    /// element consider using the [Option] transformer to introduce one.
    /// Bottom values in the analysis result often stand for dead code.
    ///
    /// Required to be the smallest element according to the ordering.
    fn bottom(ctx: &Self::LatticeContext) -> Self;

    /// Given two elements of the lattice the join operation will compute a
    /// precise and safe over approximation of its arguments. It computes
    /// the least upper bound. It is typically useful to calculate the
    /// analysis state after merge points where the program location after
    /// the branching needs to over approximate all predecessors.
    ///
    /// Requirements:
    /// * Reflexive: a.join(a, ctx) == a
    /// * Commutative: a.join(b, ctx) == b.join(a, ctx)
    /// * Bottom is unit: bottom.join(b, ctx) == b
    /// * Upper bound: a.join(b, ctx) >= a and a.join(b, ctx) >= b
    /// * Top is the largest: top.join(b, ctx) == top
    /// * Ordering is respected: a <= b => a.join(b, ctx) == b
    fn join(&self, other: &Self, ctx: &Self::LatticeContext) -> Self;

    /// In case a lattice has infinite (or very long) ascending chains,
    /// the widening operation can ensure convergence. Other lattices
    /// can use the default implementation. Widening is a larger
    /// over approximation step, usually by removing certain constraints
    /// that did not stabilize from a numerical domain. The analysis
    /// state from the previous iteration can inform this operation what
    /// parts of the state needs widened. Widening also gets an iteration
    /// number that is an approximation of the number iterations over
    /// the whole control flow graph. This number can be helpful to
    /// implement a tiered widening, where later tiers are approximating
    /// more aggressively.
    ///
    /// Requirements:
    /// * Reflexive: a.widen(a, x, ctx, i) == a
    /// * b.widen(a, x, ctx, i) == b if a <= b
    fn widen(&self, _previous: &Self, _ctx: &Self::LatticeContext, _iteration: usize) -> Self {
        self.clone()
    }
}

pub trait JoinSemiLatticeNoContext: JoinSemiLattice {
    /// See [`JoinSemiLattice::bottom`] for details. This version does not
    /// require a context.
    fn bottom_() -> Self;

    /// See [`JoinSemiLattice::join`] for details. This version does not
    /// require a context.
    fn join_(&self, other: &Self) -> Self;

    /// See [`JoinSemiLattice::widen`] for details. This version does not
    /// require a context.
    fn widen_(&self, previous: &Self, iteration: usize) -> Self;
}

// TODO: also implement it for contexts like ((), ())
impl<L: JoinSemiLattice<LatticeContext = ()>> JoinSemiLatticeNoContext for L {
    fn bottom_() -> Self {
        <L as JoinSemiLattice>::bottom(&())
    }

    fn join_(&self, other: &Self) -> Self {
        self.join(other, &())
    }

    fn widen_(&self, previous: &Self, iteration: usize) -> Self {
        self.widen(previous, &(), iteration)
    }
}

/// A lattice is a join semi-lattice that is also a meet semi-lattice, i.e.,
/// the greatest lower bound (meet) also exists for all subsets.
pub trait Lattice: JoinSemiLattice {
    /// The unit element of the meet operation, the largest element of the
    /// lattice.
    ///
    /// Requirements:
    /// Top is the greatest element of the lattice.
    fn top(ctx: &Self::LatticeContext) -> Self;

    /// Given two elements of the lattice the meet operation will compute the
    /// greatest lower bound. This is usually useful to exclude infeasible
    /// program states. Often used to implement the evaluation of conditions
    /// or assertions.
    ///
    /// * Reflexive: a.meet(a, ctx) == a
    /// * Commutative: a.meet(b, ctx) == b.meet(a, ctx)
    /// * Top is unit: top.meet(b, ctx) == b
    /// * Lower bound: a.meet(b, ctx) <= a and a.meet(b, ctx) <= b
    /// * Bottom is the smallest: bottom.meet(b, ctx) == bottom
    /// * Ordering is respected: a <= b => a.meet(b, ctx) == a
    fn meet(&self, other: &Self, ctx: &Self::LatticeContext) -> Self;

    /// The dual operation of widen, useful when the domain has long (or infinite) descending
    /// chains.
    fn narrow(&self, _previous: &Self, _ctx: &Self::LatticeContext, _iteration: usize) -> Self {
        self.clone()
    }
}

pub trait LatticeNoContext: Lattice {
    /// See [`Lattice::top`] for details. This version does not
    /// require a context.
    fn top_() -> Self;

    /// See [`Lattice::meet`] for details. This version does not
    /// require a context.
    fn meet_(&self, other: &Self) -> Self;

    /// See [`Lattice::meet`] for details. This version does not
    /// require a context.
    fn narrow_(&self, previous: &Self, iteration: usize) -> Self;
}

impl<L: Lattice<LatticeContext = ()>> LatticeNoContext for L {
    fn top_() -> Self {
        <L as Lattice>::top(&())
    }

    fn meet_(&self, other: &Self) -> Self {
        self.meet(other, &())
    }

    fn narrow_(&self, previous: &Self, iteration: usize) -> Self {
        self.narrow(previous, &(), iteration)
    }
}
// ---- cut ends ----

#[path = "numerical.rs"]
mod numerical;
pub use numerical::*;
