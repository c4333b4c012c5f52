//! The literal type that the parsers are run with, and what can be learnt from it.
//!
//! flussab-cnf keeps the literals of a refused clause or log to itself, and its buffer is never
//! full. Document 01 wants to know how many literals were read before a refusal (k), and refuses a
//! literal for which there is no room (16). Both are found by noting each literal when the crate
//! makes it, with the place that the crate marked just before it read the number. The crate makes a
//! literal only after it has found the number to be in range and non-zero.

use std::cell::RefCell;

use flussab_cnf::Dimacs;

/// A literal of document 01: signed 32-bit, with the same ceiling both ways.
#[derive(Copy, Clone, PartialEq, Eq, Debug)]
pub struct Lit(pub i32);

impl Dimacs for Lit {
    const MAX_DIMACS: isize = 2_147_483_647;

    #[inline]
    fn from_dimacs(value: isize) -> Self {
        let lit = Lit(i32::try_from(value).expect("the crate keeps to MAX_DIMACS"));
        MADE.with_borrow_mut(|made| {
            made.push(Made {
                lit,
                place: flussab::last_mark(),
            })
        });
        lit
    }

    fn dimacs(self) -> isize {
        self.0 as isize
    }
}

/// A literal and the place where it stands in the text.
#[derive(Copy, Clone)]
pub struct Made {
    pub lit: Lit,
    pub place: usize,
}

thread_local! {
    static MADE: RefCell<Vec<Made>> = const { RefCell::new(Vec::new()) };
}

/// Forgets all literals: a new clause or log begins.
pub fn begin() {
    MADE.with_borrow_mut(Vec::clear);
}

/// How many literals the crate has made since the beginning.
pub fn count() -> usize {
    MADE.with_borrow(Vec::len)
}

/// The place of the first literal for which there is no room, if it came to that.
pub fn first_without(room: usize) -> Option<usize> {
    MADE.with_borrow(|made| made.get(room).map(|made| made.place))
}

/// Whether these are exactly the literals made since the beginning.
pub fn are(lits: &[Lit]) -> bool {
    MADE.with_borrow(|made| made.iter().map(|made| made.lit).eq(lits.iter().copied()))
}
