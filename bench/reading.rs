// Times reading a listing: the least of many calls, in microseconds.

mod listings;
mod panel;
mod proved;

use panel::{FULL_DEGREE, SET_BYTES};
use std::hint::black_box;
use std::time::Instant;

const CALLS: usize = 2000;

fn main() {
    for l in listings::listings() {
        let mut set = [0; SET_BYTES];
        let mut least = f64::INFINITY;
        let mut code = 0;
        for _ in 0..CALLS {
            let start = Instant::now();
            code = proved::read(2, 0, FULL_DEGREE, black_box(l.terms), black_box(&l.text), &mut set)[0];
            least = least.min(start.elapsed().as_secs_f64());
        }
        println!("{}: {} bytes, code {code}, {:.1} microseconds", l.name, l.text.len(), least * 1e6);
    }
}
