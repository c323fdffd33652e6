// The walk in plain Rust: the yardstick of the benchmark. It keeps sets, signals and nonsquares in the shapes of the
// proved code and divides as it does, so that the times compare; for that reason it is not an independent second
// program. No heap.
// Input is taken as clean: the checks cost nothing beside a walk.
//
// The walk with the counting rule (CLOSING) is the proved one; the walk without it is there to be compared with. Each
// has its own copy of what both call: shared, it is left out of line, and a walk takes a tenth longer.

use crate::panel::{CARDS, COEFFICIENT_AT, EXPONENTS_AT, NONSQUARES};
use crate::panel::{SET_BYTES, SIGNALS, TERM_BYTES, TERMS, VARIABLES};

pub type Mono = [u8; VARIABLES];

const ONE: Mono = [0; VARIABLES];

#[derive(Clone, Copy)]
struct Term {
    var: usize,
    e: Mono,
    c: i32,
}

#[derive(Clone, Copy)]
struct Set {
    m: [Mono; CARDS],
    len: usize,
}

struct Signals {
    m: [Mono; SIGNALS],
    len: usize,
}

// The nonsquares of a set, each once.
struct Nonsquares {
    m: [Mono; NONSQUARES],
    len: usize,
}

enum Stop {
    Spent,
    Full,
}

struct Walk<'a, const CLOSING: bool> {
    n: usize,
    outside: Mono,
    degree: u32,
    level: usize,
    limit: u64,
    steps: u64,
    count: usize,
    terms: [Term; TERMS],
    len: usize,
    cancels: bool,
    out: &'a mut [u8],
}

#[inline(always)]
fn times(a: Mono, b: Mono) -> Mono {
    let mut r = a;
    for i in 0..VARIABLES {
        r[i] += b[i];
    }
    r
}

#[inline(always)]
fn over(a: Mono, b: Mono) -> Mono {
    let mut r = a;
    for i in 0..VARIABLES {
        r[i] -= b[i];
    }
    r
}

#[inline(always)]
fn divides(a: Mono, b: Mono) -> bool {
    (0..VARIABLES).all(|i| a[i] <= b[i])
}

// Whether m contains one of the variables that are all ones in `outside`.
#[inline(always)]
fn meets(m: Mono, outside: Mono) -> bool {
    let mut met = 0;
    for i in 0..VARIABLES {
        met |= m[i] & outside[i];
    }
    met != 0
}

#[inline(always)]
fn degree(m: Mono) -> u32 {
    m.iter().map(|&e| e as u32).sum()
}

fn score(m: Mono) -> u64 {
    m.iter().map(|&e| e as u64 + 1).product()
}

// The divisor of m after a; 1 after the last.
#[inline(always)]
fn next_divisor(mut a: Mono, m: Mono) -> Mono {
    for i in (0..VARIABLES).rev() {
        if a[i] < m[i] {
            a[i] += 1;
            return a;
        }
        a[i] = 0;
    }
    a
}

impl Signals {
    fn of<const CLOSING: bool>(n: usize, set: &Set) -> Signals {
        let mut m = [ONE; SIGNALS];
        for i in 0..n {
            m[i + 1][i] = 1;
        }
        m[n + 1..n + 1 + set.len].copy_from_slice(&set.m[..set.len]);
        Signals { m, len: n + 1 + set.len }
    }

    #[inline(always)]
    fn members(&self) -> &[Mono] {
        &self.m[..self.len]
    }
}

// Whether m is of the first n variables alone, and of degree below the bound.
#[inline(always)]
fn is_low(m: Mono, n: usize, bound: u32) -> bool {
    degree(m) < bound && m[n..].iter().all(|&e| e == 0)
}

impl Set {
    #[inline(always)]
    fn members(&self) -> &[Mono] {
        &self.m[..self.len]
    }

    // Whether m is in V: 1 and the variables are those of degree below 2.
    #[inline(always)]
    fn has(&self, n: usize, m: Mono) -> bool {
        is_low(m, n, 2) || self.members().contains(&m)
    }

    // Whether m is in V2: two of 1 and the variables multiply to it, or a new monomial divides it and leaves one of V.
    #[inline(always)]
    fn squares(&self, n: usize, m: Mono) -> bool {
        is_low(m, n, 3) || self.members().iter().rev().any(|&z| divides(z, m) && self.has(n, over(m, z)))
    }

    // Keeps the set ascending. m is not in it.
    fn add(&mut self, m: Mono) {
        let mut i = self.len;
        while 0 < i && m < self.m[i - 1] {
            self.m[i] = self.m[i - 1];
            i -= 1;
        }
        self.m[i] = m;
        self.len += 1;
    }
}

impl Nonsquares {
    #[inline(always)]
    fn members(&self) -> &[Mono] {
        &self.m[..self.len]
    }
}

impl<const CLOSING: bool> Walk<'_, CLOSING> {
    #[inline(always)]
    fn terms(&self) -> &[Term] {
        &self.terms[..self.len]
    }

    // Whether a new monomial may be m: no signal from outside is in it, and its degree is within the kit's limit.
    #[inline(always)]
    fn may(&self, m: Mono) -> bool {
        !meets(m, self.outside) && degree(m) <= self.degree
    }

    // The monomial of a term in the derivative of z.
    #[inline(always)]
    fn image(t: &Term, z: Mono) -> Option<Mono> {
        if z[t.var] == 0 {
            return None;
        }
        let mut m = times(z, t.e);
        m[t.var] -= 1;
        Some(m)
    }

    // The total of the like monomials. Few monomials come this far, so nothing is kept for it.
    #[inline(always)]
    fn total(&self, z: Mono, m: Mono) -> i32 {
        let mut sum = 0i32;
        for t in self.terms() {
            if Self::image(t, z) == Some(m) {
                sum += z[t.var] as i32 * t.c;
            }
        }
        sum
    }

    // Whether they leave a total. It is summed only where two records may give one monomial.
    #[inline(always)]
    fn stays(&self, z: Mono, m: Mono) -> bool {
        !self.cancels || self.total(z, m) != 0
    }

    // Whether two records of two equations give one monomial wherever both give one.
    fn may_cancel(&self) -> bool {
        let crosses = |t: &Term, u: &Term| {
            let (mut x, mut y) = (t.e, u.e);
            x[u.var] += 1;
            y[t.var] += 1;
            t.var != u.var && x == y
        };
        self.terms().iter().any(|t| self.terms().iter().any(|u| crosses(t, u)))
    }

    // Most sets that are opened stand at the level and only have to be refused, so the first nonsquare ends the search.
    // The newest signals have most.
    fn any_nonsquare(&self, v: &Signals, set: &Set) -> bool {
        for &z in v.members().iter().rev() {
            for t in self.terms() {
                if let Some(m) = Self::image(t, z) {
                    if !set.squares(self.n, m) && self.stays(z, m) {
                        return true;
                    }
                }
            }
        }
        false
    }

    // The nonsquare that is split.
    fn choose(&self, v: &Signals, set: &Set) -> Option<Mono> {
        let mut best: Option<(u64, Mono)> = None;
        for &z in v.members() {
            for t in self.terms() {
                if let Some(m) = Self::image(t, z) {
                    if !set.squares(self.n, m) && self.stays(z, m) {
                        let s = (score(m), m);
                        if best.is_none_or(|b| s < b) {
                            best = Some(s);
                        }
                    }
                }
            }
        }
        best.map(|b| b.1)
    }

    // Lists the nonsquares; false where they are more than `most`.
    fn gather(&self, list: &mut Nonsquares, v: &Signals, set: &Set, most: usize) -> bool {
        list.len = 0;
        for &z in v.members().iter().rev() {
            for t in self.terms() {
                if let Some(m) = Self::image(t, z) {
                    if !set.squares(self.n, m) && !list.members().contains(&m) && self.stays(z, m) {
                        if list.len == most {
                            return false;
                        }
                        list.m[list.len] = m;
                        list.len += 1;
                    }
                }
            }
        }
        true
    }

    // How many quotients occur at least `often` times, up to `cap`. Each is counted where it is first met.
    fn frequent(&self, list: &[Mono], v: &[Mono], set: &Set, often: usize, cap: usize) -> usize {
        let is_multiple = |q: Mono, m: Mono| divides(q, m) && set.has(self.n, over(m, q));
        let mut met = 0;
        for i in 0..(list.len() + 1).saturating_sub(often) {
            for &x in v {
                if !divides(x, list[i]) {
                    continue;
                }
                let q = over(list[i], x);
                if !self.may(q) {
                    continue;
                }
                let mut left = often - 1;
                let mut a = i + 1;
                while 0 < left && left <= list.len() - a {
                    left -= is_multiple(q, list[a]) as usize;
                    a += 1;
                }
                if left == 0 && !list[..i].iter().any(|&m| is_multiple(q, m)) {
                    met += 1;
                    if met == cap {
                        return met;
                    }
                }
            }
        }
        met
    }

    // The counting rule: whether the nonsquares are more than the t(t+1)/2 products of t new monomials among themselves
    // and the t largest counts.
    fn closes(&self, list: &[Mono], v: &[Mono], set: &Set, t: usize) -> bool {
        let own = t * (t + 1) / 2;
        if list.len() <= own {
            return false;
        }
        let wanted = list.len() - own;
        // One of t counts that reach it together has its share.
        if self.frequent(list, v, set, wanted.div_ceil(t), 1) == 0 {
            return true;
        }
        if t == 1 {
            return false;
        }
        // A count is how many numbers from 1 on it reaches; so for each number those that reach it are added up.
        let mut left = wanted;
        let mut often = 1;
        loop {
            let many = self.frequent(list, v, set, often, t);
            if left <= many {
                return false;
            }
            if many == 0 {
                return true;
            }
            left -= many;
            often += 1;
        }
    }

    // Lists a find in its place, once.
    fn keep(&mut self, set: &Set) -> Result<(), Stop> {
        let mut record = [0u8; SET_BYTES];
        for (place, m) in record.chunks_exact_mut(VARIABLES).zip(&set.m[..set.len]) {
            place.copy_from_slice(m);
        }
        let find = |at: usize| SET_BYTES * at..SET_BYTES * (at + 1);
        let mut at = 0;
        while at < self.count && self.out[find(at)] < record[..] {
            at += 1;
        }
        if at < self.count && self.out[find(at)] == record[..] {
            return Ok(());
        }
        if self.out.len() / SET_BYTES <= self.count {
            return Err(Stop::Full);
        }
        self.out.copy_within(SET_BYTES * at..SET_BYTES * self.count, SET_BYTES * (at + 1));
        self.out[find(at)].copy_from_slice(&record);
        self.count += 1;
        Ok(())
    }

    #[inline(always)]
    fn step(&mut self) -> Result<(), Stop> {
        if self.limit <= self.steps {
            return Err(Stop::Spent);
        }
        self.steps += 1;
        Ok(())
    }

    fn open(&mut self, list: &mut Nonsquares, set: &Set) -> Result<(), Stop> {
        self.step()?;
        let v = Signals::of::<CLOSING>(self.n, set);
        let m = if CLOSING && set.len < self.level {
            let t = self.level - set.len;
            // No count is above the size of V, so with more nonsquares the set is closed uncounted.
            if !self.gather(list, &v, set, t * v.len + t * (t + 1) / 2) {
                return Ok(());
            }
            if list.len == 0 {
                return self.keep(set);
            }
            if self.closes(list.members(), v.members(), set, t) {
                return Ok(());
            }
            list.members().iter().copied().min_by_key(|&m| (score(m), m))
        } else if !self.any_nonsquare(&v, set) {
            return self.keep(set);
        } else if CLOSING || set.len == self.level {
            // With the rule only a set at the level comes here.
            return Ok(());
        } else {
            self.choose(&v, set)
        };
        match m {
            Some(m) => self.pairs(list, &v, set, m),
            None => Ok(()),
        }
    }

    // So many steps at once, as far as the limit goes.
    #[inline(always)]
    fn skip(&mut self, steps: u64) -> Result<(), Stop> {
        if self.limit - self.steps < steps {
            return Err(Stop::Spent);
        }
        self.steps += steps;
        Ok(())
    }

    // First the pairs that add a single monomial, then the rest, each part by ascending a. Of a nonsquare's pair at most
    // one is in V, so that a pair of the rest adds two.
    fn pairs(&mut self, list: &mut Nonsquares, v: &Signals, set: &Set, m: Mono) -> Result<(), Stop> {
        let mut firsts = [ONE; SIGNALS + 1];
        let mut cheap = 0;
        let mut put = |a: Mono| {
            let mut i = cheap;
            while 0 < i && a < firsts[i - 1] {
                firsts[i] = firsts[i - 1];
                i -= 1;
            }
            firsts[i] = a;
            cheap += 1;
        };
        for &z in v.members() {
            if divides(z, m) {
                let q = over(m, z);
                put(if z < q { z } else { q });
            }
        }
        if m.iter().all(|e| e % 2 == 0) {
            put(m.map(|e| e / 2));
        }
        for i in 0..cheap {
            let a = firsts[i];
            self.step()?;
            let new = if set.has(self.n, a) { over(m, a) } else { a };
            if self.may(new) {
                let mut child = *set;
                child.add(new);
                self.open(list, &child)?;
            }
        }
        // Where there is room for one, the rest opens nothing and is only counted.
        if set.len + 1 == self.level {
            return self.skip(score(m).div_ceil(2) - cheap as u64);
        }
        let mut a = ONE;
        let mut met = 0;
        loop {
            let b = over(m, a);
            if b < a {
                return Ok(());
            }
            if met < cheap && firsts[met] == a {
                met += 1;
            } else {
                self.step()?;
                if self.may(a) && self.may(b) {
                    let mut child = *set;
                    child.add(a);
                    child.add(b);
                    self.open(list, &child)?;
                }
            }
            a = next_divisor(a, m);
        }
    }
}

// Code, order, count, steps and place; the finds are left in the buffer as the proved planning leaves them.
pub fn plan<const CLOSING: bool>(
    n: u64,
    marks: u64,
    degree: u64,
    cap: u64,
    limit: u64,
    terms: &[u8],
    out: &mut [u8],
) -> [u64; 5] {
    out.fill(0);
    let mut w = Walk::<CLOSING> {
        n: n as usize,
        outside: std::array::from_fn(|i| if marks >> i & 1 == 1 { u8::MAX } else { 0 }),
        degree: degree as u32,
        level: 0,
        limit,
        steps: 0,
        count: 0,
        terms: [Term { var: 0, e: ONE, c: 0 }; TERMS],
        len: terms.len() / TERM_BYTES,
        cancels: false,
        out,
    };
    for (t, r) in w.terms.iter_mut().zip(terms.chunks_exact(TERM_BYTES)) {
        t.var = r[0] as usize - 1;
        t.e.copy_from_slice(&r[EXPONENTS_AT..COEFFICIENT_AT]);
        t.c = i32::from_le_bytes(std::array::from_fn(|i| r[COEFFICIENT_AT + i]));
    }
    w.cancels = w.may_cancel();
    let mut list = Nonsquares { m: [ONE; NONSQUARES], len: 0 };
    let empty = Set { m: [ONE; CARDS], len: 0 };
    for k in 0..=cap {
        w.level = k as usize;
        match w.open(&mut list, &empty) {
            Ok(()) if w.count == 0 => {}
            Ok(()) => return [0, k, w.count as u64, w.steps, 0],
            Err(stop) => {
                w.out.fill(0);
                return match stop {
                    Stop::Full => [6, k, 0, w.steps, 0],
                    Stop::Spent => [7, k, 0, limit, 0],
                };
            }
        }
    }
    [5, cap + 1, 0, w.steps, 0]
}
