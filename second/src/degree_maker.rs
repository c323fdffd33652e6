//! The stories of the junior kit in a random batch: systems and sets of the other
//! stories with a limit next to their own degrees, limits that are refused, and
//! sets that are above theirs (document 02, [6]).

use crate::batch::Case;
use crate::degree::Degree;
use crate::degree_rows::refused;
use crate::maker::{turn, Ask, Maker, Mix};
use crate::marks::Marks;
use crate::monomial::Monomial;
use crate::panel::{CARDS, MOST_CAP, VARIABLES};
use crate::records::write_places;
use crate::system::Set;
use crate::systems::{self, Kit, Outside};
use crate::walk::Rules;

/// Every operation with a limit. Four fifths are stories of a system or a set.
pub const JUNIOR: Mix = Mix {
    asks: &[Ask::Plan, Ask::Wire, Ask::Thin, Ask::Verdict],
    given: &[Ask::Wire, Ask::Thin, Ask::Verdict],
    outside: Outside::NowAndThen,
    kit: Kit::Junior,
    rules: Rules::BEFORE_CHEAP_FIRST,
    shares: &[
        (14, Maker::around_a_limited_plan),
        (8, Maker::around_limited_terms),
        (22, Maker::below_the_full_kit),
        (3, Maker::around_a_set),
        (2, Maker::random_set),
        (5, Maker::wire_found_set),
        (6, Maker::wire_closed_set),
        (4, Maker::wire_around_a_set),
        (5, Maker::thin_found_sets),
        (6, Maker::thin_closed_set),
        (3, Maker::thin_around_a_set),
        (10, Maker::limit_out_of_range),
        (8, Maker::set_above_the_limit),
        (4, Maker::limit_beside_faults),
    ],
};

impl Maker {
    fn around_a_limited_plan(&mut self) {
        self.around(systems::any, Outside::NowAndThen);
    }

    /// Three variables and six terms, whose nonsquares are high.
    fn around_limited_terms(&mut self) {
        self.around(systems::six_terms, Outside::NowAndThen);
    }

    /// A system that the full kit has sets for, and a limit at the highest degree in
    /// one of them, or just below; then one of the sets under that limit.
    fn below_the_full_kit(&mut self) {
        let (system, found) = loop {
            let system = self.any_system().limited(Degree::FULL);
            if let Some(found) = self.found(&system).filter(|found| !found[0].is_empty()) {
                break (system, found);
            }
        };
        let set = found[self.random.below(found.len())].clone();
        let highest = highest(&set);
        let limit = Degree::nearest(self.random.pick(&[highest, highest - 1, highest - 1]));
        let system = system.limited(limit);
        self.around_the_plan(&system, MOST_CAP, 1_000);
        match self.random.below(4) {
            0 => self.with_set(&system, &set),
            1 => self.thin_with(&system, &set),
            _ => {}
        }
    }

    /// Code 1: each limit that is refused, in any operation, now and then beside a
    /// wrong length.
    fn limit_out_of_range(&mut self) {
        let turn = turn(&mut self.limits_refused);
        let refused = refused();
        let limit = refused[turn % refused.len()];
        let (n, marks) = self.variables(1, VARIABLES);
        let terms = self.few_or_cut_terms(n, marks);
        let ask = self.ask_by(turn / refused.len() + turn);
        let case = self.operation(ask, n as u64, marks, terms);
        self.cases.push(case.limited(limit));
    }

    /// Code 8: one member above the limit, the others not.
    fn set_above_the_limit(&mut self) {
        let turn = turn(&mut self.sets_above);
        let n = self.random.between(3, VARIABLES);
        // Three variables have six monomials that no limit refuses.
        let marks = match n {
            3 => Marks::NONE,
            _ => self.random.pick(&[Marks::NONE, Marks::of([n])]),
        };
        let limit = self.any_junior();
        let size = self.random.between(1, CARDS);
        let set = systems::set_up_to(&mut self.random, n, marks, limit, size);
        let mut members: Vec<Monomial> = set.into_iter().collect();
        let raised = &mut members[turn % size];
        while limit.reaches(*raised) {
            *raised = raised.times(Monomial::variable(self.random.between(1, 3)));
        }
        members.sort();
        let terms = self.few_terms(n, marks);
        let buffer = self.random.below(100);
        let wiring = Case::wire(n as u64, terms, write_places(&members).to_vec(), buffer);
        let ask = self.given_by(turn);
        let case = self.given(ask, wiring.marked(marks).limited(limit));
        self.cases.push(case);
    }

    /// Any limit beside several faults: which of them decides is the checks' order.
    fn limit_beside_faults(&mut self) {
        self.several_faults();
        let limit = match self.random.chance(30) {
            true => self.random.pick(&refused()),
            false => self.any_junior(),
        };
        let case = self.cases.pop().expect("a case with faults");
        self.cases.push(case.limited(limit));
    }

    fn any_junior(&mut self) -> Degree {
        let limits: Vec<Degree> = Degree::junior().collect();
        self.random.pick(&limits)
    }
}

/// The highest degree in a set that is not empty.
fn highest(set: &Set) -> u64 {
    set.iter().map(|m| m.degree()).max().expect("a member")
}
