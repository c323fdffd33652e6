//! Asking for K = 0, 1, 2, .. in turn, so that a long search can say what it has shown so far. The planner's walk is
//! not changed for this: each answer is its own, and true by itself. A call walks from level 0 under the whole limit,
//! and the first level with a find is its last; so the answer that ends the climb is what the planner says for the cap
//! itself.

use crate::asking::answer::{Answer, NONE};
use crate::panel::CARDS;
use crate::typed::settings::Settings;

/// `ask` asks the planner with its K; `shown` hears of every K for which there is none, and its steps.
pub fn climb<E>(
    settings: &Settings,
    mut ask: impl FnMut(&Settings) -> Result<Answer, E>,
    mut shown: impl FnMut(u64, u64),
) -> Result<Answer, E> {
    // A cap that is out of range is for the planner to refuse.
    let Some(cap) = settings.cards.value().filter(|&cap| cap <= CARDS) else {
        return ask(settings);
    };
    for cards in 0..cap {
        let answer = ask(&Settings { cards: cards.into(), ..settings.clone() })?;
        if answer.reply.code != NONE {
            return Ok(answer);
        }
        shown(cards, answer.reply.steps);
    }
    ask(settings)
}

#[cfg(test)]
mod tests {
    use super::*;
    use crate::asking::answer::Reply;

    fn answer(code: u64, order: u64, steps: u64) -> Answer {
        Answer { reply: Reply { code, order, count: 0, steps, place: 0 }, ..Answer::default() }
    }

    /// Climbs over the given answers; gives what was asked, what was shown and the last answer.
    fn climbed(cards: u64, answers: &[Answer]) -> (Vec<String>, Vec<(u64, u64)>, Answer) {
        let (mut asked, mut shown) = (Vec::new(), Vec::new());
        let settings = Settings { cards: cards.into(), ..Settings::default() };
        let last = climb(
            &settings,
            |s| {
                asked.push(s.cards.digits().to_string());
                Ok::<_, ()>(answers[asked.len() - 1].clone())
            },
            |cards, steps| shown.push((cards, steps)),
        );
        (asked, shown, last.unwrap())
    }

    #[test]
    fn each_level_is_asked_in_turn() {
        let answers = [answer(5, 1, 1), answer(5, 2, 4), answer(0, 2, 23)];
        let (asked, shown, last) = climbed(CARDS, &answers);
        assert_eq!(asked, ["0", "1", "2"]);
        assert_eq!(shown, [(0, 1), (1, 4)]);
        assert_eq!(last, answers[2]);
    }

    #[test]
    fn the_cap_is_the_last() {
        let (asked, shown, last) = climbed(1, &[answer(5, 1, 1), answer(5, 2, 4)]);
        assert_eq!((asked.len(), shown.len()), (2, 1), "the last none is the answer itself");
        assert_eq!(last.reply.order, 2);
        assert_eq!(climbed(0, &[answer(5, 1, 1)]).0, ["0"]);
    }

    #[test]
    fn every_other_code_ends_the_climb() {
        for code in [0, 1, 2, 3, 4, 6, 7] {
            assert_eq!(climbed(CARDS, &[answer(code, 0, 1)]).0.len(), 1);
        }
    }

    #[test]
    fn a_cap_out_of_range_is_asked_as_it_is() {
        let beyond = CARDS + 1;
        assert_eq!(climbed(beyond, &[answer(1, 0, 0)]).0, [beyond.to_string()]);
    }
}
