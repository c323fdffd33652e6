//! The words for a reply of wiring: whether the given set will do as it is. No other set was judged, so nothing is said
//! of how it stands among others.

use crate::asking::answer::{Reply, DONE, FULL, NOT_QUADRATIC};
use crate::saying::searched::UNWIRED;
use crate::saying::words::QUADRATIC;

/// What was not asked. Of the empty set there is no such question.
pub const UNASKED: &str =
    "No other set was judged: whether fewer signals will do was not asked. --thin asks that, and so does planning.";

pub fn said(reply: &Reply) -> String {
    let said = match reply.code {
        DONE => done(reply),
        FULL => full(),
        NOT_QUADRATIC => return not_quadratic(reply),
        code => return format!("Code {code}, which wiring never gives."),
    };
    match reply.order {
        0 => said,
        _ => format!("{said}\n{UNASKED}"),
    }
}

fn done(reply: &Reply) -> String {
    match (reply.order, reply.count) {
        (_, 0) => "Quadratic: every derivative is 0, so no signal ever changes and the wiring list is empty.".into(),
        (0, _) => format!("Quadratic as it is: nothing needs to be added, since {QUADRATIC}."),
        _ => "Quadratic: the given set will do; with it every derivative is a sum of products of at most two signals."
            .into(),
    }
}

fn full() -> String {
    "Full: the given set will do, and its wiring list is longer than there is room for; nothing is wired.".into()
}

fn not_quadratic(reply: &Reply) -> String {
    match reply.order {
        0 => format!("Not quadratic: {UNWIRED}."),
        _ => "Not quadratic: the given set will not do.".into(),
    }
}

/// Whether the set is quadratic, for other programs; nothing where it was not judged.
pub fn verdict(reply: &Reply) -> Option<&'static str> {
    match reply.code {
        DONE | FULL => Some("quadratic"),
        NOT_QUADRATIC => Some("not quadratic"),
        _ => None,
    }
}

#[cfg(test)]
mod tests {
    use super::*;
    use crate::saying::given::tests::said_of;
    use crate::typed::given::Aim;

    fn words_with(reply: [u64; 5], text: &str, set: &str) -> String {
        said_of(Aim::Wiring, reply, text, set).words
    }

    fn words(reply: [u64; 5]) -> String {
        words_with(reply, "x' = x^4 + x^3", "x^3, x^4")
    }

    #[test]
    fn code_0() {
        assert_eq!(
            words([0, 2, 6, 0, 0]),
            format!(
                "Quadratic: the given set will do; with it every derivative is a sum of products of at most two \
                 signals.\n{UNASKED}"
            )
        );
        assert_eq!(
            words_with([0, 0, 1, 0, 0], "x' = x^2", ""),
            "Quadratic as it is: nothing needs to be added, since each term is a product of at most two variables."
        );
        let still = "Quadratic: every derivative is 0, so no signal ever changes and the wiring list is empty.";
        assert_eq!(words_with([0, 0, 0, 0, 0], "x' = 0", ""), still);
        assert_eq!(words_with([0, 1, 0, 0, 0], "x' = 0", "x^2"), format!("{still}\n{UNASKED}"));
    }

    #[test]
    fn code_6() {
        let full =
            "Full: the given set will do, and its wiring list is longer than there is room for; nothing is wired.";
        assert_eq!(words([6, 2, 0, 0, 0]), format!("{full}\n{UNASKED}"));
        assert_eq!(words_with([6, 0, 0, 0, 0], "x' = x^2", ""), full);
    }

    #[test]
    fn code_9() {
        let why = "The first signal that cannot be wired is x: its derivative has x^4, and no two signals multiply to \
                   x^4.";
        assert_eq!(
            words_with([9, 1, 0, 0, 1], "x' = x^4", "x^9"),
            format!("Not quadratic: the given set will not do.\n{why}")
        );
        assert_eq!(
            words_with([9, 0, 0, 0, 1], "x' = x^4", ""),
            format!("Not quadratic: without new signals it cannot be wired.\n{why}")
        );
        assert_eq!(words([9, 2, 0, 0, 0]), "Not quadratic: the given set will not do.");
    }

    #[test]
    fn nothing_is_said_of_how_the_set_stands_among_others() {
        for code in 0..11 {
            for (order, count) in [(0, 0), (0, 1), (1, 0), (2, 6)] {
                let said = words([code, order, count, 0, 1]).to_lowercase();
                for boast in ["smallest", "minimal", "optimal", "best", "fewest", "found", "search", "step", "level"] {
                    assert!(!said.contains(boast), "{said}");
                }
                let open = matches!(code, DONE | FULL) && 0 < order;
                assert_eq!(said.contains("whether fewer signals will do was not asked"), open, "{said}");
            }
        }
        assert_eq!(words([5, 1, 0, 0, 0]), "Code 5, which wiring never gives.");
        assert_eq!(words([7, 1, 0, 0, 0]), "Code 7, which wiring never gives.");
    }

    #[test]
    fn the_verdict() {
        let verdict = |code| super::verdict(&Reply { code, ..Reply::default() });
        assert_eq!([0, 6, 9].map(verdict), [Some("quadratic"), Some("quadratic"), Some("not quadratic")]);
        assert_eq!([1, 2, 3, 4, 5, 7, 8, 10].map(verdict), [None; 8]);
    }
}
