// Two listings of the desktop tool that are right for document 000's example: its own, and one as long as is read,
// whose first line has terms that cancel.

// x1' = x1^3 + x2^2, x2' = x1 + x2.
const TERMS: [u8; 48] = [
    1, 0, 3, 0, 0, 0, 0, 0, 1, 0, 0, 0, //
    1, 0, 0, 2, 0, 0, 0, 0, 1, 0, 0, 0, //
    2, 0, 1, 0, 0, 0, 0, 0, 1, 0, 0, 0, //
    2, 0, 0, 1, 0, 0, 0, 0, 1, 0, 0, 0,
];

const MOST: usize = 4096;

pub struct Listing {
    pub name: &'static str,
    pub terms: &'static [u8],
    pub text: Vec<u8>,
}

fn text(cancelled: usize) -> Vec<u8> {
    let more = " + 999999999*w0*w1 - 999999999*w0*w1".repeat(cancelled);
    format!(
        "Introduced variables:\nw0 = x1**2\nw1 = x2**2\n\nx1' = x1*w0 + w1{more}\nx2' = x1 + x2\n\
         w0' = 2*x1*w1 + 2*w0**2\nw1' = 2*x1*x2 + 2*w1\n"
    )
    .into_bytes()
}

pub fn listings() -> [Listing; 2] {
    let longest = (0..).take_while(|&c| text(c).len() <= MOST).last().unwrap_or(0);
    let listing = |name, cancelled| Listing { name, terms: &TERMS, text: text(cancelled) };
    [listing("document 000's", 0), listing("a long one", longest)]
}
