//! Random systems within document 01's limits, of kinds that planning treats
//! differently, with signals fed from outside and without, for the full kit and for
//! junior ones, and random sets to go with them.

use crate::degree::Degree;
use crate::marks::Marks;
use crate::monomial::Monomial;
use crate::panel::{
    CARDS, LEAST_DEGREE, MOST_COEFFICIENT, MOST_EXPONENT, MOST_SET_EXPONENT, MOST_TERMS, VARIABLES,
};
use crate::random::Random;
use crate::system::{Set, System, Term};

/// A system that takes a term only where the rules allow it.
struct Draft {
    n: usize,
    marks: Marks,
    terms: Vec<Term>,
}

impl Draft {
    fn of(n: usize) -> Draft {
        Draft::marked(n, Marks::NONE)
    }

    fn marked(n: usize, marks: Marks) -> Draft {
        Draft {
            n,
            marks,
            terms: Vec::new(),
        }
    }

    fn add(&mut self, equation: usize, monomial: Monomial, coefficient: i64) {
        let term = Term {
            equation,
            monomial,
            coefficient,
        };
        let allowed = self.terms.len() < MOST_TERMS
            && !self.marks.mark(equation)
            && monomial.0.iter().all(|&e| e <= MOST_EXPONENT)
            && monomial.0[self.n..].iter().all(|&e| e == 0)
            && coefficient != 0
            && coefficient.abs() <= MOST_COEFFICIENT
            && !self.terms.iter().any(|earlier| earlier.repeats(&term));
        if allowed {
            self.terms.push(term);
        }
    }

    /// The system, its records in any order.
    fn finish(mut self, random: &mut Random) -> System {
        random.shuffle(&mut self.terms);
        System {
            marks: self.marks,
            ..System::unmarked(self.n, self.terms)
        }
    }
}

/// A coefficient: mostly small, often at or next to the limit.
fn coefficient(random: &mut Random) -> i64 {
    let size = match random.below(10) {
        0 => MOST_COEFFICIENT,
        1 => MOST_COEFFICIENT - random.below(3) as i64,
        2 => random.between(1, MOST_COEFFICIENT as usize) as i64,
        _ => random.between(1, 4) as i64,
    };
    if random.chance(50) {
        -size
    } else {
        size
    }
}

/// A product of so many variables among the first n.
fn product(random: &mut Random, n: usize, degree: usize) -> Monomial {
    (0..degree).fold(Monomial::ONE, |m, _| {
        m.times(Monomial::variable(random.between(1, n)))
    })
}

/// A power of x1.
pub fn power(exponent: usize) -> Monomial {
    let mut monomial = Monomial::ONE;
    monomial.0[0] = exponent as u16;
    monomial
}

/// One variable, one to four powers of it.
fn scalar(random: &mut Random) -> System {
    let mut draft = Draft::of(1);
    let highest = random.pick(&[3, 4, 5, 5, 6, 9]);
    for _ in 0..random.between(1, 4) {
        draft.add(1, power(random.between(0, highest)), coefficient(random));
    }
    draft.finish(random)
}

/// A few terms of low degree in each equation.
fn sparse(random: &mut Random) -> System {
    let n = random.between(1, 4);
    let mut draft = Draft::of(n);
    for equation in 1..=n {
        for _ in 0..random.below(3) {
            let degree = random.pick(&[0, 1, 2, 2, 3, 3, 4]);
            draft.add(equation, product(random, n, degree), coefficient(random));
        }
    }
    draft.finish(random)
}

/// Linear equations with one or two terms of degree three.
fn nearly_linear(random: &mut Random) -> System {
    let n = random.between(2, VARIABLES);
    let mut draft = Draft::of(n);
    for equation in 1..=n {
        draft.add(equation, product(random, n, 1), coefficient(random));
    }
    for _ in 0..random.between(1, 2) {
        let equation = random.between(1, n);
        draft.add(equation, product(random, n, 3), coefficient(random));
    }
    draft.finish(random)
}

/// Exponents up to the highest, few records.
fn tall(random: &mut Random) -> System {
    let n = random.between(1, VARIABLES);
    let mut draft = Draft::of(n);
    for _ in 0..random.between(1, 3) {
        let mut monomial = Monomial::ONE;
        for i in 0..n {
            if random.chance(40) {
                monomial.0[i] = random.between(0, MOST_EXPONENT.into()) as u16;
            }
        }
        draft.add(random.between(1, n), monomial, coefficient(random));
    }
    draft.finish(random)
}

/// Many records of degree two at most: quadratic as it stands.
fn flat(random: &mut Random) -> System {
    let n = random.between(1, VARIABLES);
    let mut draft = Draft::of(n);
    for _ in 0..random.between(0, 40) {
        let degree = random.below(3);
        let equation = random.between(1, n);
        draft.add(equation, product(random, n, degree), coefficient(random));
    }
    draft.finish(random)
}

/// x1 and x2 grow against each other, so that the derivative of x1^p x2^q
/// cancels, or misses cancelling by one.
fn cancelling(random: &mut Random) -> System {
    let n = random.between(2, 4);
    let (p, q) = (random.between(1, 3) as i64, random.between(1, 3) as i64);
    let most = MOST_COEFFICIENT / p.max(q);
    let scale = random.pick(&[1, 1, 2, most, most - 1]);
    let miss = random.pick(&[0, 0, 0, 1, -1]);
    let mut common = Monomial::ONE;
    if random.chance(60) {
        common.0[0] = p as u16;
        common.0[1] = q as u16;
    } else {
        let degree = random.between(1, 3);
        common = product(random, n, degree);
    }
    let mut draft = Draft::of(n);
    draft.add(1, common.times(Monomial::variable(1)), q * scale);
    draft.add(2, common.times(Monomial::variable(2)), -p * scale + miss);
    if n > 2 && random.chance(50) {
        let degree = random.between(0, 2);
        let equation = random.between(3, n);
        draft.add(equation, product(random, n, degree), coefficient(random));
    }
    draft.finish(random)
}

/// x2 is fed by powers of x1 alone (document 001, section 7).
fn powers_of_an_unfed_variable(random: &mut Random) -> System {
    let mut draft = Draft::of(2);
    for _ in 0..random.between(2, 4) {
        draft.add(
            2,
            power(random.between(1, MOST_EXPONENT.into())),
            coefficient(random),
        );
    }
    draft.finish(random)
}

/// The same right side in several equations.
fn alike(random: &mut Random) -> System {
    let n = random.between(2, 4);
    let mut draft = Draft::of(n);
    for _ in 0..random.between(1, 2) {
        let degree = random.between(2, 4);
        let monomial = product(random, n, degree);
        for equation in 1..=n {
            if random.chance(80) {
                draft.add(equation, monomial, coefficient(random));
            }
        }
    }
    draft.finish(random)
}

/// One equation, the other variables unfed.
fn one_fed(random: &mut Random) -> System {
    let n = random.between(2, 5);
    let mut draft = Draft::of(n);
    let equation = random.between(1, n);
    for _ in 0..random.between(1, 2) {
        let degree = random.between(2, 4);
        draft.add(equation, product(random, n, degree), coefficient(random));
    }
    draft.finish(random)
}

/// One variable fed by even products of unfed ones: many smallest sets.
fn many_sets(random: &mut Random) -> System {
    let n = random.between(3, VARIABLES);
    let mut draft = Draft::of(n);
    for _ in 0..random.between(1, 3) {
        let mut monomial = Monomial::ONE;
        for _ in 0..2 {
            monomial.0[random.between(1, n - 1)] = random.pick(&[2, 2, 4]);
        }
        draft.add(1, monomial, coefficient(random));
    }
    draft.finish(random)
}

/// Two or three variables that feed each other with powers: long walks.
fn mutual(random: &mut Random) -> System {
    let n = random.between(2, 3);
    let mut draft = Draft::of(n);
    for equation in 1..=n {
        let other = equation % n + 1;
        let exponent = random.between(2, 6);
        let fed = (0..exponent).fold(Monomial::ONE, |m, _| m.times(Monomial::variable(other)));
        draft.add(equation, fed, coefficient(random));
    }
    if random.chance(30) {
        let equation = random.between(1, n);
        draft.add(equation, product(random, n, 3), coefficient(random));
    }
    draft.finish(random)
}

/// Three variables and six terms: many nonsquares from the start.
pub fn six_terms(random: &mut Random) -> System {
    let highest = random.pick(&[2, 3, 4, 9, 9, 9]);
    six_terms_up_to(random, highest)
}

/// The same with exponents from 0 to a highest, each as likely.
pub fn six_terms_up_to(random: &mut Random, highest: usize) -> System {
    let mut draft = Draft::of(3);
    while draft.terms.len() < 6 {
        let mut monomial = Monomial::ONE;
        for exponent in &mut monomial.0[..3] {
            *exponent = random.between(0, highest) as u16;
        }
        draft.add(random.between(1, 3), monomial, coefficient(random));
    }
    draft.finish(random)
}

/// Moves the variables, marks and all, to other places among more variables, so
/// that some are unused.
fn spread(random: &mut Random, system: &System) -> System {
    let n = random.between(system.n, VARIABLES);
    let mut places: Vec<usize> = (0..n).collect();
    random.shuffle(&mut places);
    let moved = |monomial: Monomial| {
        let mut exponents = [0; VARIABLES];
        for i in 0..system.n {
            exponents[places[i]] = monomial.0[i];
        }
        Monomial(exponents)
    };
    let terms = system.terms.iter().map(|term| Term {
        equation: places[term.equation - 1] + 1,
        monomial: moved(term.monomial),
        coefficient: term.coefficient,
    });
    let marked = system.marks.variables().into_iter();
    System {
        marks: Marks::of(marked.map(|i| places[i - 1] + 1)),
        ..System::unmarked(n, terms.collect())
    }
}

/// A system to be planned.
pub fn any(random: &mut Random) -> System {
    let kinds: [fn(&mut Random) -> System; 15] = [
        scalar,
        scalar,
        sparse,
        sparse,
        nearly_linear,
        tall,
        flat,
        cancelling,
        cancelling,
        powers_of_an_unfed_variable,
        alike,
        one_fed,
        many_sets,
        mutual,
        mutual,
    ];
    let system = random.pick(&kinds)(random);
    if random.chance(25) {
        return spread(random, &system);
    }
    system
}

/// What a system takes from outside.
#[derive(Clone, Copy, PartialEq, Eq, Debug)]
pub enum Outside {
    Nothing,
    Signals,
    /// Signals in two systems of five.
    NowAndThen,
}

impl Outside {
    fn is_nothing(self, random: &mut Random) -> bool {
        match self {
            Outside::Nothing => true,
            Outside::Signals => false,
            Outside::NowAndThen => random.chance(60),
        }
    }

    /// Marks variables of a system, where signals are taken. One at least stays
    /// as it is, so that there is a set for it.
    pub fn feed(self, random: &mut Random, system: System) -> System {
        if self.is_nothing(random) {
            return system;
        }
        let fed = match system.n {
            VARIABLES => marked(random, &system),
            1 => with_a_socket(random, &system),
            _ if random.chance(40) => marked(random, &system),
            _ => with_a_socket(random, &system),
        };
        match random.chance(40) {
            true => spread(random, &fed),
            false => fed,
        }
    }

    /// So many variables, and which of them are marked: where any is, one is not.
    pub fn variables(self, random: &mut Random, least: usize, most: usize) -> (usize, Marks) {
        if self.is_nothing(random) {
            return (random.between(least, most), Marks::NONE);
        }
        let n = random.between(least.max(2), most);
        (n, Marks(random.between(1, (1 << n) - 2) as u64))
    }
}

/// The kit that a system is for.
#[derive(Clone, Copy, PartialEq, Eq, Debug)]
pub enum Kit {
    Full,
    Junior,
}

impl Kit {
    /// The system with a limit of the kit, the lower ones more often.
    pub fn limit(self, random: &mut Random, system: System) -> System {
        match self {
            Kit::Full => system,
            Kit::Junior => {
                let degree = random.pick(&[2, 2, 3, 3, 4, 4, 5, 6, 7, 8, 9]);
                system.limited(Degree(degree))
            }
        }
    }

    /// The system with a limit next to the highest degree in a set, on either side.
    pub fn limit_near(self, random: &mut Random, system: System, set: &Set) -> System {
        match self {
            Kit::Full => system,
            Kit::Junior => {
                let highest = set.iter().map(|m| m.degree()).max().unwrap_or(0);
                let below = highest.saturating_sub(1);
                let degree = random.pick(&[highest, highest, highest, below, highest + 1]);
                system.limited(Degree::nearest(degree))
            }
        }
    }
}

/// Some variables become signals, mostly among those that nothing feeds, and
/// their records go.
fn marked(random: &mut Random, system: &System) -> System {
    let fed = |i: &usize| system.terms.iter().any(|t| t.equation == *i);
    let mut places: Vec<usize> = (1..=system.n).collect();
    random.shuffle(&mut places);
    if random.chance(70) {
        places.sort_by_key(fed);
    }
    let most = random.pick(&[1, 1, 1, 2, 2, 3]).min(system.n - 1);
    places.truncate(most);
    let mut draft = Draft::marked(system.n, Marks::of(places));
    for term in &system.terms {
        draft.add(term.equation, term.monomial, term.coefficient);
    }
    draft.finish(random)
}

/// One more variable is a signal, and some terms take it up: as a factor, now and
/// then squared, or alone.
fn with_a_socket(random: &mut Random, system: &System) -> System {
    let n = system.n + 1;
    let signal = Monomial::variable(n);
    let mut draft = Draft::marked(n, Marks::of([n]));
    for term in &system.terms {
        let monomial = match random.below(12) {
            0..=3 => term.monomial.times(signal),
            4 => term.monomial.times(signal).times(signal),
            _ => term.monomial,
        };
        draft.add(term.equation, monomial, term.coefficient);
    }
    if random.chance(40) {
        let equation = random.between(1, system.n);
        let degree = random.pick(&[0, 0, 1, 1, 2]);
        let taken = product(random, system.n, degree).times(signal);
        draft.add(equation, taken, coefficient(random));
    }
    draft.finish(random)
}

/// So many different records that all rules allow. One variable has but few
/// monomials, so n is raised where `count` calls for it.
pub fn run(random: &mut Random, n: usize, marks: Marks, count: usize) -> System {
    let powers = usize::from(MOST_EXPONENT) + 1;
    let n = if count > powers { n.max(2) } else { n };
    let mut draft = Draft::marked(n, marks);
    while draft.terms.len() < count {
        let mut monomial = Monomial::ONE;
        for exponent in &mut monomial.0[..n] {
            *exponent = match random.below(3) {
                0 => random.below(powers) as u16,
                _ => random.below(3) as u16,
            };
        }
        draft.add(random.between(1, n), monomial, coefficient(random));
    }
    System {
        marks,
        ..System::unmarked(n, draft.terms)
    }
}

/// A monomial that a set may hold. Not every variable is marked.
pub fn member(random: &mut Random, n: usize, marks: Marks) -> Monomial {
    loop {
        let mut monomial = Monomial::ONE;
        for i in (0..n).filter(|i| !marks.mark(i + 1)) {
            monomial.0[i] = match random.below(20) {
                0 => MOST_SET_EXPONENT,
                1 => random.between(0, MOST_SET_EXPONENT.into()) as u16,
                2..=9 => random.between(1, 3) as u16,
                _ => 0,
            };
        }
        if monomial != Monomial::ONE && !monomial.is_variable() {
            return monomial;
        }
    }
}

/// A set of the given size; the empty one where every variable is marked.
pub fn set(random: &mut Random, n: usize, marks: Marks, size: usize) -> Set {
    let mut set = Set::new();
    let has_member = (1..=n).any(|i| !marks.mark(i));
    while has_member && set.len() < size {
        set.insert(member(random, n, marks));
    }
    set
}

/// A set of the given size with no member above a limit. There must be as many.
pub fn set_up_to(random: &mut Random, n: usize, marks: Marks, limit: Degree, size: usize) -> Set {
    let mut set = Set::new();
    while set.len() < size {
        let degree = random.between(LEAST_DEGREE as usize, limit.0 as usize);
        let member = product(random, n, degree);
        if !marks.touch(member) {
            set.insert(member);
        }
    }
    set
}

/// A set first, and then a system that it makes quadratic. Each xi that the set
/// uses grows by xi times signals, which multiplies every new monomial by those
/// signals too; the other variables may be fed by any product of two signals.
pub fn around_a_set(random: &mut Random, n: usize, marks: Marks, size: usize) -> (System, Set) {
    let set = set(random, n, marks, size);
    let signals = System::unmarked(n, Vec::new()).signals(&set);
    let mut draft = Draft::marked(n, marks);
    let most = random.pick(&[1, 2, 2, 3, 8]);
    for equation in 1..=n {
        let used = set.iter().any(|m| m.0[equation - 1] > 0);
        for _ in 0..random.between(0, most) {
            let first = if used {
                Monomial::variable(equation)
            } else {
                random.pick(&signals)
            };
            let second = random.pick(&signals);
            draft.add(equation, first.times(second), coefficient(random));
        }
    }
    (draft.finish(random), set)
}

/// A set of four that is quadratic exactly when the derivative of its member
/// z = x1^p x2^q cancels: the rest of what z would need, x3 x4 z, is no product.
pub fn decided_by_cancelling(random: &mut Random) -> (System, Set) {
    let (p, q) = (random.between(1, 3), random.between(1, 3));
    let most = MOST_COEFFICIENT / p.max(q) as i64;
    let scale = random.pick(&[2, 3, most - 1]);
    let miss = random.pick(&[0, 0, 1, -1]);
    let n = random.between(4, VARIABLES);
    let mut draft = Draft::of(n);
    draft.add(1, Monomial([1, 0, 1, 1, 0, 0]), q as i64 * scale);
    draft.add(2, Monomial([0, 1, 1, 1, 0, 0]), -(p as i64) * scale + miss);
    let set = Set::from([
        Monomial([1, 0, 1, 0, 0, 0]),
        Monomial([0, 1, 1, 0, 0, 0]),
        Monomial([0, 0, 2, 1, 0, 0]),
        Monomial([p as u16, q as u16, 0, 0, 0, 0]),
    ]);
    (draft.finish(random), set)
}

/// Variables that feed each other in a ring, and now and then one that takes a
/// power of an unfed one.
fn ring(random: &mut Random) -> System {
    let n = random.between(2, VARIABLES);
    let fed = random.between(2, 3).min(n);
    let mut draft = Draft::of(n);
    for equation in 1..=fed {
        let next = Monomial::variable(equation % fed + 1);
        draft.add(equation, next, coefficient(random));
        if random.chance(20) {
            let other = Monomial::variable(random.between(1, fed));
            draft.add(equation, other, coefficient(random));
        }
    }
    if fed < n && random.chance(40) {
        let exponent = random.between(3, 4);
        let taken = (0..exponent).fold(Monomial::ONE, |m, _| m.times(Monomial::variable(n)));
        draft.add(random.between(1, n - 1), taken, coefficient(random));
    }
    draft.finish(random)
}

/// A system, and one or two signals with whatever the derivatives call for. In a
/// ring signals may need each other, so that none can go alone.
pub fn closed(random: &mut Random, outside: Outside) -> (System, Set) {
    loop {
        let system = match random.below(3) {
            0 => any(random),
            _ => ring(random),
        };
        let system = outside.feed(random, system);
        let mut set = Set::new();
        for _ in 0..random.between(1, 2) {
            let degree = random.pick(&[2, 3, 3, 3, 4]);
            set.insert(product(random, system.n, degree));
        }
        set.retain(|m| !system.marks.touch(*m));
        if let Some(closed) = close(random, &system, set) {
            return (system, closed);
        }
    }
}

/// Adds a nonsquare, or the part of it that one variable leaves, until there is
/// none; nothing where the cards do not suffice.
fn close(random: &mut Random, system: &System, mut set: Set) -> Option<Set> {
    while let Some(nonsquare) = system.nonsquares(&set).pop_first() {
        let in_use = |i: &usize| nonsquare.0[i - 1] > 0;
        let divisors: Vec<usize> = (1..=system.n).filter(in_use).collect();
        let added = match random.chance(40) {
            true => nonsquare.over(Monomial::variable(random.pick(&divisors))),
            false => nonsquare,
        };
        set.insert(added);
        let too_tall = added.0.iter().any(|&e| e > MOST_SET_EXPONENT);
        if set.len() > CARDS || too_tall || system.marks.touch(added) {
            return None;
        }
    }
    Some(set)
}

#[cfg(test)]
mod tests {
    use super::*;
    use crate::records::{read_terms, set_faults, write_set, write_terms};

    #[test]
    fn random_systems_are_taken() {
        let mut random = Random::from_seed(2);
        for _ in 0..2000 {
            let system = any(&mut random);
            assert!((1..=VARIABLES).contains(&system.n));
            let read = read_terms(system.setting(), &write_terms(&system.terms));
            assert_eq!(read, Ok(system));
        }
    }

    #[test]
    fn systems_with_signals_are_taken() {
        let mut random = Random::from_seed(9);
        let mut used = 0;
        for _ in 0..2000 {
            let system = any(&mut random);
            let system = Outside::Signals.feed(&mut random, system);
            let marked = system.marks.variables().len();
            assert!(0 < marked && marked < system.n && system.marks.are_among(system.n));
            let takes = |t: &Term| system.marks.touch(t.monomial);
            used += usize::from(system.terms.iter().any(takes));
            let read = read_terms(system.setting(), &write_terms(&system.terms));
            assert_eq!(read, Ok(system));
        }
        assert!(used > 1000);
    }

    #[test]
    fn runs_have_their_length_and_are_taken() {
        let mut random = Random::from_seed(3);
        for count in 0..=MOST_TERMS {
            for n in 1..=VARIABLES {
                let system = run(&mut random, n, Marks::NONE, count);
                assert_eq!(system.terms.len(), count);
                let read = read_terms(system.setting(), &write_terms(&system.terms));
                assert_eq!(read, Ok(system));
            }
        }
    }

    #[test]
    fn a_system_around_a_set_is_made_quadratic_by_it() {
        let mut random = Random::from_seed(4);
        for n in 1..=VARIABLES {
            for size in 0..=CARDS {
                for _ in 0..20 {
                    let marks = Marks(random.below(1 << n) as u64);
                    let (system, set) = around_a_set(&mut random, n, marks, size);
                    assert!(set_faults(system.setting(), &write_set(&set)).is_empty());
                    assert!(system.is_quadratic(&set));
                }
            }
        }
    }

    #[test]
    fn a_closed_set_is_quadratic() {
        let mut random = Random::from_seed(8);
        for turn in 0..300 {
            let outside = [Outside::Nothing, Outside::Signals][turn % 2];
            let (system, set) = closed(&mut random, outside);
            let read = read_terms(system.setting(), &write_terms(&system.terms));
            assert!(set_faults(system.setting(), &write_set(&set)).is_empty());
            assert!(system.is_quadratic(&set));
            assert_eq!(read, Ok(system));
        }
    }

    #[test]
    fn cancelling_decides_both_ways() {
        let mut random = Random::from_seed(5);
        let mut quadratic = [0, 0];
        for _ in 0..200 {
            let (system, set) = decided_by_cancelling(&mut random);
            let rate = |i: usize| {
                let fed = system.terms.iter().find(|t| t.equation == i);
                fed.unwrap().coefficient
            };
            let cancels = |z: &&Monomial| z.0[2] == 0 && z.0[0] > 0;
            let z = set.iter().find(cancels).unwrap();
            let sum = i64::from(z.0[0]) * rate(1) + i64::from(z.0[1]) * rate(2);
            assert_eq!(system.is_quadratic(&set), sum == 0);
            quadratic[usize::from(sum != 0)] += 1;
        }
        assert!(quadratic[0] > 20 && quadratic[1] > 20);
    }
}
