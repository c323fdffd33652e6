//! The stories of signals fed from outside in a random batch: the systems and
//! sets of the other stories with some variables marked, and marks that are
//! refused, or that refuse a record or a set (document 02, [3]).

use crate::batch::Case;
use crate::maker::{turn, Ask, Maker, Mix};
use crate::marks::Marks;
use crate::monomial::Monomial;
use crate::panel::{CARDS, MOST_TERMS, TERM_BYTES, VARIABLES};
use crate::records::{write_places, write_terms};
use crate::systems::{self, Kit, Outside};
use crate::walk::Rules;

/// Every operation with marks. Two thirds are stories of a system or a set.
pub const MARKED: Mix = Mix {
    asks: &[Ask::Plan, Ask::Wire, Ask::Thin, Ask::Verdict],
    given: &[Ask::Wire, Ask::Thin, Ask::Verdict],
    outside: Outside::Signals,
    kit: Kit::Full,
    rules: Rules::BEFORE_CLOSING,
    shares: &[
        (21, Maker::around_a_plan),
        (5, Maker::around_a_set),
        (3, Maker::random_set),
        (8, Maker::wire_found_set),
        (8, Maker::wire_closed_set),
        (4, Maker::wire_around_a_set),
        (8, Maker::thin_found_sets),
        (8, Maker::thin_closed_set),
        (3, Maker::thin_around_a_set),
        (8, Maker::marks_beyond_n),
        (10, Maker::marked_record),
        (6, Maker::marked_set),
        (2, Maker::broken_field),
        (2, Maker::repeated_record),
        (1, Maker::bad_length),
        (1, Maker::broken_set),
        (2, Maker::several_faults),
    ],
};

/// Bits beyond the variables; some are lost when cut to fewer.
const FAR_BITS: [usize; 10] = [6, 7, 8, 15, 16, 31, 32, 33, 62, 63];

/// Marks of which at least one is beyond xn: next to it, far from it, all.
pub fn beyond(n: usize) -> Vec<Marks> {
    let near = n..VARIABLES;
    let one = near.chain(FAR_BITS).map(|bit| Marks(1 << bit));
    let all = Marks(u64::MAX);
    let all_but_known = Marks(u64::MAX << n);
    one.chain([all_but_known, all]).collect()
}

impl Maker {
    /// Code 1: marks beyond xn, alone or beside marks that are taken.
    fn marks_beyond_n(&mut self) {
        let turn = turn(&mut self.marks_beyond);
        let n = 1 + turn % VARIABLES;
        let marks = beyond(n);
        let marks = marks[turn / VARIABLES % marks.len()];
        let beside = self.random.below(1 << n) as u64;
        let terms = self.few_or_cut_terms(n, Marks::NONE);
        let case = self.any_operation(n as u64, Marks::NONE, terms);
        self.cases.push(case.marked(Marks(marks.0 | beside)));
    }

    /// Code 3: a record for the equation of a marked variable, at every place. Now
    /// and then it has an earlier one's monomial, or the last one repeats it.
    fn marked_record(&mut self) {
        let turn = turn(&mut self.marked_records);
        let place = turn % MOST_TERMS + 1;
        let run = self.run_to(place, VARIABLES);
        let mut terms = write_terms(&run.terms);
        let at = (place - 1) * TERM_BYTES;
        if self.random.chance(20) {
            let earlier = self.random.between(1, place);
            let from = (earlier - 1) * TERM_BYTES;
            terms.copy_within(from..from + TERM_BYTES, at);
        }
        terms[at] = self.random.pick(&run.marks.variables()) as u8;
        if self.random.chance(20) {
            let last = terms.len() - TERM_BYTES;
            terms.copy_within(at..at + TERM_BYTES, last);
        }
        let case = self.operation(self.ask_by(turn), run.n as u64, run.marks, terms);
        self.cases.push(case);
    }

    /// Code 8: a marked variable in a member at every place of the set.
    fn marked_set(&mut self) {
        let turn = turn(&mut self.marked_sets);
        let place = turn % CARDS;
        let (n, marks) = self.variables(2, VARIABLES);
        let size = self.random.between(place + 1, CARDS);
        let (system, set) = systems::around_a_set(&mut self.random, n, marks, size);
        let mut members: Vec<Monomial> = set.into_iter().collect();
        let signal = self.random.pick(&marks.variables());
        members[place].0[signal - 1] = self.random.between(1, 3) as u16;
        members.sort();
        let terms = write_terms(&system.terms);
        let buffer = self.random.below(100);
        let wiring = Case::wire(n as u64, terms, write_places(&members).to_vec(), buffer);
        let ask = self.given_by(turn / CARDS);
        let case = self.given(ask, wiring.marked(marks));
        self.cases.push(case);
    }
}
