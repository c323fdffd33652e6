// Prints how many bytes of stack planning, wiring, thinning and reading a listing take: the stack below is painted, the
// call runs on it, and then we look how far down the paint is gone. About a hundred bytes of each number are the frames
// of the caller. Thinning goes as deep as the set is large; some of the sets take every card. Reading goes as deep for
// every listing whose lines are judged, so that two will do.

mod groups;
mod listings;
mod panel;
mod proved;
mod systems;

use panel::{CAP, FULL_DEGREE, ROOM, SET_BYTES, SUBSETS, WIRES};
use std::hint::black_box;

// Several times what a call takes, and little enough for any thread.
const PAINTED: usize = 64 * 1024;
const PAINT: u8 = 0xa5;

// The paint lies in the frame of a call that has ended, so that the frames of the next call lie on it. The low end is
// handed back as a number, since nothing may be borrowed from a frame that is gone.
#[inline(never)]
fn paint() -> usize {
    let mut area = [0u8; PAINTED];
    black_box(&mut area).fill(PAINT);
    black_box(&area).as_ptr() as usize
}

// How many painted bytes are left, from the low end on.
#[inline(never)]
fn left(low: usize) -> usize {
    let mut i = 0;
    // The area is part of this thread's stack, which stays mapped; volatile, since the compiler takes a frame that is
    // gone for empty.
    while i < PAINTED && unsafe { ((low + i) as *const u8).read_volatile() } == PAINT {
        i += 1;
    }
    i
}

// The reply of a call, and the bytes of stack that it took.
fn measured(call: &mut dyn FnMut() -> [u64; 5]) -> ([u64; 5], usize) {
    let low = paint();
    let five = black_box(call());
    let used = PAINTED - left(low);
    assert!(used < PAINTED, "the paint is gone, so the number is not known");
    (five, used)
}

fn print_most(what: &str, most: [usize; 3]) {
    println!("{what}bytes of stack at most: plan {}, wire {}, thin {}", most[0], most[1], most[2]);
}

fn main() {
    let mut all = [0; 3];
    println!("{:<28} {:>12} {:>12} {:>12}", "variables: system", "plan: order", "wire: code", "thin: code");
    for g in groups::groups() {
        let mut most = [0; 3];
        for s in &g.systems {
            let terms = s.terms.as_flattened();
            let (n, marks, degree) = (s.n, s.marks, FULL_DEGREE);
            let mut sets = vec![0; ROOM];
            let mut wires = vec![0; WIRES];
            let plan = measured(&mut || proved::plan(n, marks, degree, CAP, s.limit, black_box(terms), &mut sets));
            // The first set, or the empty one where planning is not done: the buffer is all zeros then.
            let set = &sets[..SET_BYTES];
            let wire = measured(&mut || proved::wire(n, marks, degree, black_box(terms), set, &mut wires));
            // The verdict alone may go another way than a list.
            let (_, verdict) = measured(&mut || proved::wire(n, marks, degree, black_box(terms), set, &mut []));
            let deepest = wire.1.max(verdict);
            let mut subsets = [0; SUBSETS];
            let thin = measured(&mut || proved::thin(n, marks, degree, black_box(terms), set, &mut subsets));
            print!("{:<28} {:>4} {:>7} {:>4} {:>7}", s.name, plan.0[1], plan.1, wire.0[0], deepest);
            println!(" {:>4} {:>7}", thin.0[0], thin.1);
            for (m, used) in most.iter_mut().zip([plan.1, deepest, thin.1]) {
                *m = used.max(*m);
            }
        }
        print_most(&format!("{}: ", g.name), most);
        for (m, used) in all.iter_mut().zip(most) {
            *m = used.max(*m);
        }
    }
    print_most("", all);
    for l in listings::listings() {
        let mut set = [0; SET_BYTES];
        let read = measured(&mut || proved::read(2, 0, FULL_DEGREE, black_box(l.terms), black_box(&l.text), &mut set));
        println!("{}: read code {}, bytes of stack {}", l.name, read.0[0], read.1);
    }
}
