// Walks groups of systems with the counting rule and without it, in one process, and prints what the rule saves: a line
// for each system, then a table in Markdown. Ends with status 1 where two replies or buffers differ that must not, or
// where the rule takes more steps.
//
// With --cfg proved the proved planning is walked too, with --cfg before also that of an earlier tree without the rule.

mod clock;
mod groups;
mod panel;
#[cfg(proved)]
#[macro_use]
mod proved;
mod systems;
mod walk;

use clock::{Plan, once};
use panel::ROOM;
use systems::System;

// The median of these is taken.
const RUNS: usize = 7;

// A shorter walk is repeated within a run until it has taken as many seconds, so that the clock's grain does not count.
const SECONDS: f64 = 0.005;

// What takes longer than this many times what it took without the rule is listed.
const LONGER: f64 = 1.1;

const NONE: u64 = 5;
const FULL: u64 = 6;
const SPENT: u64 = 7;

struct Walk {
    name: &'static str,
    closing: bool,
    plan: Plan,
}

const WITHOUT: usize = 0;
const WITH: usize = 1;
const WALKS: &[Walk] = &[
    Walk { name: "Rust without the rule", closing: false, plan: walk::plan::<false> },
    Walk { name: "Rust with it", closing: true, plan: walk::plan::<true> },
    #[cfg(proved)]
    Walk { name: "proved with it", closing: true, plan: proved::plan },
    #[cfg(before)]
    Walk { name: "proved, before the rule", closing: false, plan: before },
];

// What is compared: the one over the other.
const PAIRS: &[(usize, usize)] = &[
    (WITH, WITHOUT),
    #[cfg(proved)]
    (2, WITH),
    #[cfg(before)]
    (2, 3),
    #[cfg(before)]
    (3, WITHOUT),
];

#[cfg(before)]
planning!(before, before_plan);

// A system's replies, without the rule and with it, and the seconds of each walk.
struct Walked {
    name: &'static str,
    replies: [[u64; 5]; 2],
    seconds: Vec<f64>,
}

impl Walked {
    fn ends(&self) -> bool {
        self.replies[WITHOUT][0] != SPENT
    }

    fn steps(&self, walk: usize) -> u64 {
        self.replies[walk][3]
    }

    fn saved(&self) -> f64 {
        self.steps(WITHOUT) as f64 / self.steps(WITH) as f64
    }

    fn ratio(&self, (of, to): (usize, usize)) -> f64 {
        self.seconds[of] / self.seconds[to]
    }
}

fn fail(s: &System, what: &str, replies: &[[u64; 5]]) -> ! {
    println!("{}: {what}; the replies are {replies:?}", s.name);
    std::process::exit(1);
}

fn walked(s: &System) -> Walked {
    // Unlike bytes at the start: that the buffers end alike is then the work of the walks.
    let mut outs: Vec<Vec<u8>> = (1..=WALKS.len()).map(|i| vec![0x5a + i as u8; ROOM]).collect();
    let mut replies = vec![[0; 5]; WALKS.len()];
    let mut repeats = vec![1; WALKS.len()];
    let mut times = vec![[0.0; RUNS]; WALKS.len()];
    for (i, w) in WALKS.iter().enumerate() {
        let (five, took) = once(w.plan, s, 1, &mut outs[i]);
        replies[i] = five;
        repeats[i] = (SECONDS / took.max(1e-7)).ceil().max(1.0) as u64;
        let like = if w.closing { WITH } else { WITHOUT };
        if replies[i] != replies[like] || outs[i] != outs[like] {
            fail(s, w.name, &replies[..=i]);
        }
    }
    // A walk that ends without the rule gives the same with it, but for the steps.
    let (without, with) = (replies[WITHOUT], replies[WITH]);
    if without[0] != SPENT && (without[..3] != with[..3] || outs[WITHOUT] != outs[WITH]) {
        fail(s, "the rule changes the answer", &replies);
    }
    if without[3] < with[3] {
        fail(s, "the rule takes more steps", &replies);
    }
    // Taken in turn, so that a slow spell of the machine meets all.
    for run in 0..RUNS {
        for (i, w) in WALKS.iter().enumerate() {
            times[i][run] = once(w.plan, s, repeats[i], &mut outs[i]).1;
        }
    }
    Walked { name: s.name, replies: [without, with], seconds: times.into_iter().map(|t| median(t.to_vec())).collect() }
}

// Of an even number the upper of the two in the middle; 0 of none.
fn median(mut xs: Vec<f64>) -> f64 {
    xs.sort_by(f64::total_cmp);
    xs.get(xs.len() / 2).copied().unwrap_or(0.0)
}

// The geometric mean, the least and the largest.
fn spread(xs: &[f64]) -> String {
    if xs.is_empty() {
        return "-".to_string();
    }
    let mean = (xs.iter().map(|x| x.ln()).sum::<f64>() / xs.len() as f64).exp();
    let (least, largest) = xs.iter().fold((f64::INFINITY, 0f64), |(a, b), &x| (a.min(x), b.max(x)));
    format!("{mean:.2} ({least:.2} to {largest:.2})")
}

fn with_commas(x: u64) -> String {
    let digits = x.to_string();
    let mut r = String::new();
    for (i, c) in digits.chars().enumerate() {
        if 0 < i && (digits.len() - i) % 3 == 0 {
            r.push(',');
        }
        r.push(c);
    }
    r
}

fn codes(all: &[Walked], walk: usize) -> String {
    let count = |code: u64| all.iter().filter(|w| w.replies[walk][0] == code).count();
    format!("{}, {}, {}, {}", count(0), count(NONE), count(FULL), count(SPENT))
}

fn main() {
    let mut names = Vec::new();
    let mut results: Vec<Vec<Walked>> = Vec::new();
    print!("{:<28} {:>12} {:>10} {:>8}", "variables: system", "steps", "with", "saved");
    WALKS.iter().for_each(|w| print!(" {:>24}", format!("{} ms", w.name)));
    println!();
    for g in groups::groups() {
        let mut all = Vec::new();
        for s in &g.systems {
            let w = walked(s);
            let spent = if w.ends() { ' ' } else { '+' };
            print!("{:<28} {:>11}{spent} {:>10} {:>8.1}", w.name, w.steps(WITHOUT), w.steps(WITH), w.saved());
            w.seconds.iter().for_each(|t| print!(" {:>24.3}", 1e3 * t));
            println!();
            all.push(w);
        }
        names.push(format!("{}: {}", g.name, all.len()));
        results.push(all);
    }

    println!("\n| | {} |\n|---|{}", names.join(" | "), "---|".repeat(names.len()));
    let row = |name: String, cell: &dyn Fn(&[Walked]) -> String| {
        let cells: Vec<String> = results.iter().map(|all| cell(all)).collect();
        println!("| {name} | {} |", cells.join(" | "));
    };
    let steps = |all: &[Walked], walk: usize| -> Vec<u64> { all.iter().map(|w| w.steps(walk)).collect() };
    for (walk, name) in [(WITHOUT, "without the rule"), (WITH, "with it")] {
        row(format!("{name}: done, none, full, spent"), &|all| codes(all, walk));
        row(format!("{name}: steps"), &|all| with_commas(steps(all, walk).iter().sum()));
        row(format!("{name}: longest walk, median"), &|all| {
            let middle = median(steps(all, walk).iter().map(|&x| x as f64).collect());
            format!("{}, {}", with_commas(steps(all, walk).into_iter().max().unwrap_or(0)), with_commas(middle as u64))
        });
    }
    row("times fewer steps where it ends without: largest, median, least".to_string(), &|all| {
        let saved: Vec<f64> = all.iter().filter(|w| w.ends()).map(Walked::saved).collect();
        let (least, largest) = saved.iter().fold((f64::INFINITY, 0f64), |(a, b), &x| (a.min(x), b.max(x)));
        format!("{largest:.1}, {:.1}, {least:.1}", median(saved))
    });
    for (i, w) in WALKS.iter().enumerate() {
        row(format!("{}: seconds", w.name), &|all| format!("{:.3}", all.iter().map(|w| w.seconds[i]).sum::<f64>()));
    }
    for &pair in PAIRS {
        let name = format!("{} over {}", WALKS[pair.0].name, WALKS[pair.1].name);
        for (ends, which) in [(true, "ended without"), (false, "spent without")] {
            row(format!("{name}: {which}"), &|all| {
                let some = all.iter().filter(|w| w.ends() == ends);
                spread(&some.map(|w| w.ratio(pair)).collect::<Vec<f64>>())
            });
        }
    }

    for &pair in PAIRS.iter().filter(|p| WALKS[p.0].closing && !WALKS[p.1].closing) {
        println!("\nover {LONGER} times as long, {} over {}:", WALKS[pair.0].name, WALKS[pair.1].name);
        let mut any = false;
        for w in results.iter().flatten().filter(|w| LONGER < w.ratio(pair)) {
            any = true;
            let ends = if w.ends() { "ended without" } else { "spent without" };
            println!("{:<28} {:.2}, {ends}, {:.3} ms", w.name, w.ratio(pair), 1e3 * w.seconds[pair.0]);
        }
        if !any {
            println!("none");
        }
    }
}
