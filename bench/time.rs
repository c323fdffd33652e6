// Times the proved planning against the walk in Rust, system by system, in one process; with --cfg before also against
// the proved planning of an earlier tree. Ends with status 1 where a reply or a buffer differs.

mod clock;
mod groups;
mod panel;
#[macro_use]
mod proved;
mod systems;
mod walk;

use clock::{Plan, once};
use panel::ROOM;
use systems::System;

// The best of these is the one that other work on the machine disturbed least.
const RUNS: usize = 9;

// A shorter walk is repeated within a run until it has taken as many seconds, so that the clock's grain does not count.
const SECONDS: f64 = 0.005;

// The first is timed against each of the others.
const WALKS: &[(&str, Plan)] = &[
    ("proved", proved::plan),
    ("Rust", walk::plan::<true>),
    #[cfg(before)]
    ("before", before),
];

#[cfg(before)]
planning!(before, before_plan);

// The reply to a system, and the seconds of each walk.
fn timed(s: &System) -> ([u64; 5], Vec<f64>) {
    // Unlike bytes at the start: that the buffers end alike is then the work of the walks.
    let mut outs: Vec<Vec<u8>> = (1..=WALKS.len()).map(|i| vec![0x5a + i as u8; ROOM]).collect();
    let mut replies = vec![[0; 5]; WALKS.len()];
    let mut repeats = vec![1; WALKS.len()];
    for (i, &(name, plan)) in WALKS.iter().enumerate() {
        let (five, took) = once(plan, s, 1, &mut outs[i]);
        replies[i] = five;
        repeats[i] = (SECONDS / took.max(1e-7)).ceil().max(1.0) as u64;
        if replies[i] != replies[0] || outs[i] != outs[0] {
            let same = outs[i] == outs[0];
            println!("{}: {name}; the replies are {replies:?}; same buffers: {same}", s.name);
            std::process::exit(1);
        }
    }
    // Taken in turn, so that a slow spell of the machine meets all.
    let mut best = vec![f64::INFINITY; WALKS.len()];
    for _ in 0..RUNS {
        for (i, &(_, plan)) in WALKS.iter().enumerate() {
            best[i] = best[i].min(once(plan, s, repeats[i], &mut outs[i]).1);
        }
    }
    (replies[0], best)
}

// The geometric mean, the least and the largest.
fn spread(xs: &[f64]) -> String {
    let mean = (xs.iter().map(|x| x.ln()).sum::<f64>() / xs.len() as f64).exp();
    let (least, largest) = xs.iter().fold((f64::INFINITY, 0f64), |(a, b), &x| (a.min(x), b.max(x)));
    format!("{mean:.2} ({least:.2} to {largest:.2})")
}

fn main() {
    print!("{:<28} {:>24}", "variables: system", "reply");
    WALKS.iter().for_each(|(name, _)| print!(" {:>10}", format!("{name} ms")));
    WALKS[1..].iter().for_each(|(name, _)| print!(" {:>12}", format!("over {name}")));
    println!();
    let mut sums = Vec::new();
    for g in groups::groups() {
        let mut ratios = vec![Vec::new(); WALKS.len()];
        let mut seconds = vec![0.0; WALKS.len()];
        for s in &g.systems {
            let (reply, times) = timed(s);
            print!("{:<28} {:>24}", s.name, reply.map(|x| x.to_string()).join(" "));
            times.iter().for_each(|t| print!(" {:>10.3}", 1e3 * t));
            times[1..].iter().for_each(|t| print!(" {:>12.2}", times[0] / t));
            println!();
            for (i, t) in times.iter().enumerate() {
                ratios[i].push(times[0] / t);
                seconds[i] += t;
            }
        }
        for (i, (name, _)) in WALKS.iter().enumerate().skip(1) {
            let (mean, all) = (spread(&ratios[i]), seconds[0] / seconds[i]);
            sums.push(format!("{}: {}: over {name}: {mean}; all together {all:.2}", g.name, g.systems.len()));
        }
    }
    println!("\ngeometric means, with the least and the largest ratio:\n{}", sums.join("\n"));
}
