//! The words for a reply of thinning. "Smallest" is said of subsets of the given set and of nothing else: each of them
//! was judged, and no other set.

use crate::asking::answer::{Reply, DONE, FULL, NOT_QUADRATIC};
use crate::saying::numbers::grouped;
use crate::saying::words::{signals, QUADRATIC};
use crate::typed::given::Given;

pub fn said(reply: &Reply, given: &Given) -> String {
    match reply.code {
        DONE => done(reply, given),
        FULL => full(reply),
        NOT_QUADRATIC => "Refused: the given set does not make the system quadratic.".into(),
        code => format!("Code {code}, which thinning never gives."),
    }
}

/// Of what the words before it are true.
fn judged(reply: &Reply) -> String {
    let judged = match reply.steps {
        1 => "The only subset of the given set was judged".into(),
        2 => "Both subsets of the given set were judged".into(),
        steps => format!("All {} subsets of the given set were judged", grouped(steps)),
    };
    format!("{judged}. Nothing outside it was searched, so nothing is said of other sets.")
}

fn done(reply: &Reply, given: &Given) -> String {
    let size = given.signals.len() as u64;
    let found = match (reply.order, reply.count) {
        (0, _) if size == 0 => format!("The given set is empty, and nothing needs to be added: {QUADRATIC}."),
        (0, _) => format!("All can go: the system needs no new signals, since {QUADRATIC}."),
        (order, _) if order == size => "Nothing can go: no smaller subset of the given set will do.".into(),
        (order, 1) => format!(
            "Thinned: the given set has 1 smallest subset that will do, of {}, and it is the only one.",
            signals(order)
        ),
        (order, count) => format!(
            "Thinned: the given set has {} smallest subsets that will do, of {} each, and these are all.",
            grouped(count),
            signals(order)
        ),
    };
    format!("{found}\n{}", judged(reply))
}

fn full(reply: &Reply) -> String {
    let found = match reply.order {
        0 => "Full: nothing needs to be added, and there is no room to list the empty set.".into(),
        order => format!(
            "Full: the given set has more smallest subsets that will do, of {} each, than there is room for; none is \
             listed, since they would not be all.",
            signals(order)
        ),
    };
    format!("{found}\n{}", judged(reply))
}

#[cfg(test)]
mod tests {
    use super::*;
    use crate::saying::given::tests::said_of;
    use crate::typed::given::Aim;

    const JUDGED: &str = "All 8 subsets of the given set were judged. Nothing outside it was searched, so nothing is \
                          said of other sets.";

    fn words_with(reply: [u64; 5], text: &str, set: &str) -> String {
        said_of(Aim::Thinning, reply, text, set).words
    }

    fn words(reply: [u64; 5]) -> String {
        words_with(reply, "x' = x^4 + x^3", "x^2, x^3, x^4")
    }

    #[test]
    fn code_0() {
        assert_eq!(
            words([0, 2, 2, 8, 0]),
            format!(
                "Thinned: the given set has 2 smallest subsets that will do, of 2 new signals each, and these are \
                 all.\n{JUDGED}"
            )
        );
        assert_eq!(
            words([0, 1, 1, 8, 0]),
            format!(
                "Thinned: the given set has 1 smallest subset that will do, of 1 new signal, and it is the only \
                 one.\n{JUDGED}"
            )
        );
        assert_eq!(
            words([0, 3, 1, 8, 0]),
            format!("Nothing can go: no smaller subset of the given set will do.\n{JUDGED}")
        );
        assert_eq!(
            words([0, 0, 1, 8, 0]),
            format!(
                "All can go: the system needs no new signals, since each term is a product of at most two \
                 variables.\n{JUDGED}"
            )
        );
        assert_eq!(
            words_with([0, 0, 1, 1, 0], "x' = x", ""),
            "The given set is empty, and nothing needs to be added: each term is a product of at most two variables.\n\
             The only subset of the given set was judged. Nothing outside it was searched, so nothing is said of \
             other sets."
        );
        let two = words_with([0, 1, 1, 2, 0], "x' = x^3", "x^2");
        assert!(two.contains("\nBoth subsets of the given set were judged. Nothing outside"), "{two}");
    }

    #[test]
    fn code_6() {
        assert_eq!(
            words([6, 2, 0, 8, 0]),
            format!(
                "Full: the given set has more smallest subsets that will do, of 2 new signals each, than there is room \
                 for; none is listed, since they would not be all.\n{JUDGED}"
            )
        );
        assert_eq!(
            words([6, 0, 0, 8, 0]),
            format!("Full: nothing needs to be added, and there is no room to list the empty set.\n{JUDGED}")
        );
    }

    #[test]
    fn code_9() {
        let refused = "Refused: the given set does not make the system quadratic.";
        assert_eq!(words([9, 3, 0, 0, 0]), refused);
        let why = words_with([9, 1, 0, 0, 2], "x' = x^4", "x^2");
        assert!(why.starts_with(&format!("{refused}\nThe first signal that cannot be wired is w1 = x^2: ")), "{why}");
    }

    #[test]
    fn smallest_is_said_of_subsets_of_the_given_set_alone() {
        let mut heard = 0;
        for code in 0..11 {
            for order in 0..4 {
                let said = words([code, order, 2, 8, 1]);
                let lower = said.to_lowercase();
                for (at, _) in lower.match_indices("smallest") {
                    let sentence = lower[..at].rfind(". ").map_or(0, |end| end + 2);
                    assert!(lower[at..].starts_with("smallest subset"), "{said}");
                    assert!(lower[sentence..at].contains("the given set has"), "{said}");
                    assert!(matches!(code, DONE | FULL), "{said}");
                    heard += 1;
                }
                for boast in ["minimal", "optimal", "best", "fewest", "found", "search has ended"] {
                    assert!(!lower.contains(boast), "{said}");
                }
                let whole = matches!(code, DONE | FULL);
                assert_eq!(said.contains("Nothing outside it was searched"), whole, "{said}");
            }
        }
        assert!(0 < heard);
        assert_eq!(words([5, 1, 0, 8, 0]), "Code 5, which thinning never gives.");
    }
}
