//! The words of `--help`.

use crate::panel::{
    CARDS, FULL_DEGREE, LEAST_DEGREE, LISTING_BYTES, MOST_DEGREE, SETS, STEPS, TERMS, USUAL_SETS, USUAL_STEPS,
    VARIABLES,
};
use crate::saying::numbers::grouped;

pub fn help() -> String {
    let (steps, usual_steps) = (grouped(STEPS), grouped(USUAL_STEPS));
    let (sets, usual_sets) = (grouped(SETS), grouped(USUAL_SETS));
    let listing = grouped(LISTING_BYTES as u64);
    format!(
        "\
Plans a patch: finds all smallest sets of new signals that make a polynomial system quadratic, and wires one. Or thins
a given set: tells which of its signals can go. Or tells whether a given set will do as it is, and wires it. Or tells
whether a listing of the desktop tool is right, and prints a patch as such a listing. Or shows at once a patch that
works and may have more new signals than needed.

  ./plan \"x' = x^4 + x^3\"
  ./plan \"x' = x^2*y\" \"y' = -x*y^2\" --svg patch.svg
  ./plan system.txt --cards 3 --steps 1000000000
  ./plan system.txt --quick --svg patch.svg
  ./plan \"x' = x^4 + x^3\" --thin \"x^2, x^3, x^4\"
  ./plan \"x' = x^4 + x^3\" --given \"x^3, x^4\"
  ./plan \"theta' = omega, omega' = -k*theta^3 + push\" --knob k --signal push
  ./plan \"x' = x^4 + x^3\" --listing >listing.txt
  ./plan \"x' = x^4 + x^3\" --read listing.txt

An argument with = in it is one equation or several, separated by commas, semicolons or lines; any other is the name
of a file that holds them (- is standard input). In a file, # hides the rest of its line.

A name is a letter and then letters, digits and underscores, as in S, theta or x_1. A system has up to {VARIABLES}, numbered as
their equations come; x1 to x{VARIABLES} keep their numbers, and x, y, z are the first three. Coefficients are whole numbers,
powers ^ or ** with a whole number, products * or a space; sums are written multiplied out. A system has up to {TERMS} terms.

A name without an equation is a knob, which never moves during a run, or a signal fed from outside. Only x, y, z and x1
to x{VARIABLES} are knobs without being said to be; any other name is pointed at, so that a slip of the pen is caught.

  --cards K      new signals of a set, at most: 0 to {CARDS} ({CARDS})
  --steps N      steps of the search, at most: 1 to {steps} ({usual_steps})
  --sets N       sets that there is room for: 0 to {sets} ({usual_sets})
  --set N        wires the N-th set of the list (1)
  --thin SET     thins a set: up to {CARDS} products of powers, with commas between them (\"\" is the empty set)
  --given SET    judges such a set as it is, and wires it where it will do
  --degree D     total degree of a new signal, at most, on a junior kit: {LEAST_DEGREE} to {MOST_DEGREE} ({FULL_DEGREE}, the full kit)
  --knob NAMES   says that names without equations are knobs; commas stand between names
  --signal NAMES says that names are signals fed from outside
  --quick        shows a patch that works, without a search
  --read FILE    tells whether the listing in a file is right for the equations (- is standard input)
  --listing      prints the patch of that set as a listing, and the words on standard error
  --svg FILE     draws the patch of that set
  --json         writes all of it for other programs
  --file FILE    reads equations from a file, whatever its name
  --help         these words

A new signal is a product of powers of the variables. The word \"smallest\" is printed only after the whole search has
ended; short of that the words say how far it got. A search of more than a second tells on standard error what it has
shown so far; it may be stopped at any time.

Beside the search a patch is tried for that may have more new signals than needed. Where --steps or --sets stops the
search, it is shown, with how many the search has shown to be needed; a search of more than a second tells of it while
it runs, and draws it with --svg. It is the planner that says of its set that it will do; where there is none to show,
one may exist all the same. With --quick it is all that is asked for: no search is made, and --steps, --sets, --set,
--thin, --given and --read do not go with it. --json has it as \"quick\", with \"searched\": false.

A signal fed from outside has a slope that nobody knows, so no new signal holds one; \"smallest\" is then said of the sets
that leave it out. --knob and --signal may be given several times, and go with all other options.

A junior kit has no cascade bus: the total degree of a new signal, the sum of its powers, is at most the limit that is
printed on it. \"Smallest\" is then said of the sets that keep it, and where there is none the full kit may have one; a
set that is given must keep it. --degree goes with all other options; --json has it as \"degree\", {FULL_DEGREE} for the full kit.

With --thin every subset of the given set is judged and no other set is searched, so \"smallest\" is said of its subsets
alone; --cards, --steps and --sets do not go with it.

With --given that one set is judged, and nothing is said of others: it is wired, or a term is named that no two signals
multiply to; --cards, --steps, --sets and --set do not go with it.

With --read a listing of up to {listing} bytes is held to the equations. It is right where its new names form a set, each
derivative line, multiplied out, is the true derivative, and each term there has at most two names; where it is not, the
byte or the line is pointed at. x1 to x{VARIABLES} are there the numbers of the names. Nothing is said of other sets, and nothing
is wired or drawn: --cards, --steps, --sets, --set, --thin, --given, --listing and --svg do not go with it.

With --listing standard output has the listing of the set that is wired and nothing else, and nothing at all where none
is wired; --json has it as \"listing\". docs/LISTING.md has the grammar of both, byte by byte.

Exit status: 0 all smallest sets, or subsets of the given set, are listed, or the given set is wired, or the listing is
right, or --quick has wired a patch; 1 none up to --cards, or stopped by --steps or --sets, whether or not a patch is
shown, or --quick has none to show; 2 the input was refused or not understood, or the given set will not do, or the
listing is not right; 3 something could not be built, run or written.
"
    )
}

#[cfg(test)]
mod tests {
    use super::*;

    /// Neither the paragraph that begins so nor any line with one of these words says "smallest". There are so many lines.
    fn never_smallest(begins: &str, words: &[&str], count: usize) {
        let help = help();
        let about: Vec<&str> = help.split("\n\n").filter(|part| part.starts_with(begins)).collect();
        let lines = help.lines().filter(|line| words.iter().any(|word| line.contains(word)));
        assert_eq!((about.len(), lines.clone().count()), (1, count));
        for said in lines.chain(about) {
            assert!(!said.contains("smallest"), "{said}");
        }
    }

    #[test]
    fn smallest_is_said_of_a_plan_and_of_subsets_alone() {
        never_smallest("With --given", &["--given"], 5);
        never_smallest("With --read", &["--read", "--listing"], 8);
        never_smallest("Beside the search", &["--quick", "a patch that"], 6);
    }

    #[test]
    fn no_line_is_too_long() {
        assert!(help().lines().all(|line| line.len() <= 120));
    }
}
