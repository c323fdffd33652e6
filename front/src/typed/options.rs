//! The command line.

use std::io::Read;

use crate::panel::LISTING_BYTES;
use crate::typed::given::Aim;
use crate::typed::names::Kind;
use crate::typed::settings::{Count, Settings};
use crate::typed::text::{short, Holds, Source};

#[derive(Debug, PartialEq, Default)]
pub struct Options {
    pub settings: Settings,
    /// What is asked of a given set, and its text.
    pub given: Option<(Aim, String)>,
    /// What names are said to be, in the order of the options.
    pub said: Vec<(Kind, String)>,
    /// The file of the listing that is read.
    pub read: Option<String>,
    /// Whether the wired set is printed as a listing.
    pub listing: bool,
    /// Whether a patch is tried for, and nothing searched.
    pub quick: bool,
    pub svg: Option<String>,
    pub json: bool,
    pub help: bool,
    pub inputs: Vec<Input>,
}

#[derive(Debug, PartialEq)]
pub enum Input {
    Text(String),
    File(String),
}

pub fn options(arguments: impl IntoIterator<Item = String>) -> Result<Options, String> {
    let mut options = Options::default();
    let mut arguments = arguments.into_iter();
    let mut plain = false;
    let mut named = Vec::new();
    while let Some(argument) = arguments.next() {
        if plain || !argument.starts_with('-') || argument == "-" {
            options.inputs.push(input(argument));
            continue;
        }
        let (name, joined) = match argument.split_once('=') {
            Some((name, value)) => (name.to_string(), Some(value.to_string())),
            None => (argument.clone(), None),
        };
        if matches!(name.as_str(), "--" | "--json" | LISTING | QUICK | "--help" | "-h") {
            if joined.is_some() {
                return Err(format!("{name} takes no value"));
            }
            match name.as_str() {
                "--" => plain = true,
                "--json" => options.json = true,
                LISTING => options.listing = true,
                QUICK => options.quick = true,
                _ => options.help = true,
            }
            named.push(name);
            continue;
        }
        if !VALUED.contains(&name.as_str()) {
            return Err(format!("{name} is no option (--help lists them)"));
        }
        let value = joined.or_else(|| arguments.next()).ok_or(format!("{name} needs a value after it"))?;
        let number = || Count::of(&value).ok_or(format!("{name} takes a whole number, and {value:?} is none"));
        match name.as_str() {
            "--cards" => options.settings.cards = number()?,
            "--steps" => options.settings.steps = number()?,
            "--sets" => options.settings.sets = number()?,
            "--degree" => options.settings.degree = number()?,
            "--set" => {
                let which = number()?.value().filter(|&which| which != 0);
                options.settings.which = which.ok_or(format!("{name} takes the number of a set, from 1"))?;
            }
            THIN => options.given = Some((Aim::Thinning, value)),
            GIVEN => options.given = Some((Aim::Wiring, value)),
            KNOB => options.said.push((Kind::Knob, value)),
            SIGNAL => options.said.push((Kind::Signal, value)),
            READ => options.read = Some(value),
            SVG => options.svg = Some(value),
            _ => options.inputs.push(Input::File(value)),
        }
        named.push(name);
    }
    go_together(&named)?;
    if options.read.as_deref() == Some(STANDARD_INPUT) && options.inputs.contains(&Input::File(STANDARD_INPUT.into())) {
        return Err("standard input cannot hold both the equations and the listing".into());
    }
    Ok(options)
}

const THIN: &str = "--thin";
const GIVEN: &str = "--given";
const KNOB: &str = "--knob";
const SIGNAL: &str = "--signal";
const READ: &str = "--read";
const LISTING: &str = "--listing";
const QUICK: &str = "--quick";
const SVG: &str = "--svg";

/// The name that stands for it.
const STANDARD_INPUT: &str = "-";

/// The options that have a value.
const VALUED: [&str; 12] =
    ["--cards", "--steps", "--sets", "--degree", "--set", THIN, GIVEN, KNOB, SIGNAL, READ, SVG, "--file"];

/// Those that limit a search and nothing else.
const LIMITS: [&str; 2] = ["--steps", "--sets"];

/// Refuses an option that says nothing beside another one: where a set or a listing is given, nothing is searched, and a
/// listing that is read is not wired. Beside --quick nothing is searched either, and a patch has its cards all the same.
fn go_together(named: &[String]) -> Result<(), String> {
    for (option, others, does) in [
        (
            READ,
            &["--cards", "--set", THIN, GIVEN, LISTING, SVG, QUICK][..],
            "reads the given listing and wires nothing",
        ),
        (THIN, &["--cards", GIVEN, QUICK], "judges every subset of the given set"),
        (GIVEN, &["--cards", "--set", QUICK], "judges the given set alone and wires it"),
        (QUICK, &["--set"], "makes no search and shows one patch"),
    ] {
        let idle = named.iter().find(|name| others.contains(&name.as_str()) || LIMITS.contains(&name.as_str()));
        if let Some(idle) = idle.filter(|_| named.iter().any(|name| name == option)) {
            return Err(format!("{idle} does not go with {option}, which {does}"));
        }
    }
    Ok(())
}

fn input(argument: String) -> Input {
    if argument.contains('=') || argument.trim().is_empty() {
        Input::Text(argument)
    } else {
        Input::File(argument)
    }
}

/// No system that fits the box is longer.
const LONGEST: u64 = 1 << 20;

pub fn source(input: Input) -> Result<Source, String> {
    let file = match input {
        Input::Text(text) => return Ok(Source::argument(Holds::Equations, text)),
        Input::File(file) => file,
    };
    let bytes = bytes(&file, LONGEST + 1, ", and for an equation = is missing in it")?;
    if LONGEST < bytes.len() as u64 {
        return Err(format!("{} is longer than any system", shown(&file)));
    }
    let text = String::from_utf8(bytes).map_err(|_| format!("{} is no text", shown(&file)))?;
    Ok(Source { file: Some(name(&file).into()), holds: Holds::Equations, text })
}

/// The name of the file that holds a listing, and its bytes; of a longer one no more than shows that it is too long.
pub fn listing(file: &str) -> Result<(&str, Vec<u8>), String> {
    Ok((name(file), bytes(file, LISTING_BYTES as u64 + 1, " to read a listing from")?))
}

fn name(file: &str) -> &str {
    match file {
        STANDARD_INPUT => "standard input",
        file => file,
    }
}

fn shown(file: &str) -> String {
    match file {
        STANDARD_INPUT => "standard input".into(),
        file => format!("the file {:?}", short(file)),
    }
}

/// The first bytes of a file, so many at most; `missing` is said where there is no such file.
fn bytes(file: &str, most: u64, missing: &str) -> Result<Vec<u8>, String> {
    let mut bytes = Vec::new();
    let read = match file {
        STANDARD_INPUT => std::io::stdin().take(most).read_to_end(&mut bytes),
        file => std::fs::File::open(file).and_then(|f| f.take(most).read_to_end(&mut bytes)),
    };
    read.map_err(|why| match why.kind() {
        std::io::ErrorKind::NotFound => format!("there is no file {:?}{missing}", short(file)),
        _ => format!("{} cannot be read: {why}", shown(file)),
    })?;
    Ok(bytes)
}

#[cfg(test)]
mod tests {
    use super::*;

    fn read(words: &[&str]) -> Result<Options, String> {
        options(words.iter().map(|w| w.to_string()))
    }

    #[test]
    fn equations_files_and_options_in_any_order() {
        let read =
            read(&["--cards", "2", "x' = x^3", "--steps=1,000", "two.txt", "--json", "--sets", "5", "-"]).unwrap();
        assert_eq!(
            read.inputs,
            [Input::Text("x' = x^3".into()), Input::File("two.txt".into()), Input::File("-".into())]
        );
        assert_eq!(read.settings.cards, 2.into());
        assert_eq!(read.settings.steps, 1000.into());
        assert_eq!(read.settings.sets, 5.into());
        assert!(read.json && !read.help);
    }

    #[test]
    fn without_options_it_plans_as_the_program_of_document_01() {
        let read = read(&["x' = 1"]).unwrap();
        assert_eq!(read.settings, Settings::default());
        assert_eq!((read.settings.which, read.svg), (1, None));
    }

    #[test]
    fn a_file_may_have_an_equals_sign_in_its_name() {
        assert_eq!(read(&["--file", "a=b"]).unwrap().inputs, [Input::File("a=b".into())]);
        assert_eq!(read(&["--file=a=b"]).unwrap().inputs, [Input::File("a=b".into())]);
        assert_eq!(read(&["--", "--odd"]).unwrap().inputs, [Input::File("--odd".into())]);
    }

    #[test]
    fn a_set_is_kept_as_typed() {
        let read = |words: &[&str]| read(words).unwrap();
        assert_eq!(read(&["x' = x^3"]).given, None);
        for (option, aim) in [(THIN, Aim::Thinning), (GIVEN, Aim::Wiring)] {
            let set = |text: &str| Some((aim, text.to_string()));
            assert_eq!(read(&[option, "x^2, x", "x' = x^3"]).given, set("x^2, x"));
            assert_eq!(read(&[option, ""]).given, set(""), "an empty set is a set");
            let options = read(&[&format!("{option}=w1 = x^2"), "--svg", "a.svg", "--json"]);
            assert_eq!(options.given, set("w1 = x^2"));
            assert_eq!((options.svg, options.json), (Some("a.svg".into()), true));
        }
        assert_eq!(read(&["--thin", "x^2", "--set", "2"]).settings.which, 2);
    }

    #[test]
    fn names_are_said_in_any_number() {
        let said = read(&["--signal", "u, v", "x' = u", "--knob=a", "--signal", "w", "--thin", ""]).unwrap().said;
        let expected = [(Kind::Signal, "u, v"), (Kind::Knob, "a"), (Kind::Signal, "w")];
        assert_eq!(said, expected.map(|(kind, names)| (kind, names.to_string())));
        assert_eq!(read(&["x' = x"]).unwrap().said, []);
    }

    #[test]
    fn a_kit_goes_with_whatever_is_asked() {
        for others in [&["--cards", "2", "--sets", "5"][..], &["--thin", "x^2", "--set", "2"], &["--given", "x^2"]] {
            let degree = |word: &str| read(&[&[word], others].concat()).unwrap().settings.degree;
            assert_eq!(degree("--degree=3"), 3.into());
            assert_eq!(degree("--degree=324"), Settings::default().degree, "the full kit");
        }
    }

    #[test]
    fn a_listing_is_read_or_printed() {
        let options = read(&["x' = x^3", "--read", "a.txt", "--degree", "3", "--signal=u", "--json"]).unwrap();
        assert_eq!((options.read, options.listing, options.json), (Some("a.txt".into()), false, true));
        assert_eq!(read(&["--read=a=b"]).unwrap().read, Some("a=b".into()));
        assert_eq!(read(&["--read", "-", "a.txt"]).unwrap().read, Some("-".into()));
        for others in [
            &["--cards", "2", "--steps=9", "--sets", "5", "--set", "2", "--svg", "a.svg"][..],
            &["--thin", "x^2", "--set", "2", "--json"],
            &["--given", "x^2"],
        ] {
            let options = read(&[&["--listing"], others].concat()).unwrap();
            assert!(options.listing && options.read.is_none());
        }
    }

    #[test]
    fn a_patch_may_be_asked_for_alone() {
        assert!(!read(&["x' = x^3"]).unwrap().quick);
        for others in [&["--cards", "2"][..], &["--svg", "a.svg", "--json", "--listing"], &["--signal=u", "--degree=3"]]
        {
            let options = read(&[&["x' = x^3", "--quick"], others].concat()).unwrap();
            assert!(options.quick && options.given.is_none() && options.read.is_none());
        }
    }

    #[test]
    fn numbers_out_of_range_are_for_the_planner() {
        assert!(read(&["--cards", "99"]).is_ok());
        assert!(read(&["--degree", "10"]).is_ok());
        assert!(read(&["--steps", "99999999999999999999999"]).is_ok());
    }

    #[test]
    fn wrong_options() {
        for (words, said) in [
            (vec!["--card", "2"], "--card is no option"),
            (vec!["-x"], "-x is no option"),
            (vec!["--cards"], "needs a value"),
            (vec!["--cards", "two"], "whole number"),
            (vec!["--steps", "-1"], "whole number"),
            (vec!["--degree"], "needs a value"),
            (vec!["--degree", "three"], "whole number"),
            (vec!["--degrees", "3"], "--degrees is no option"),
            (vec!["--steps", "1e9"], "whole number"),
            (vec!["--set", "0"], "from 1"),
            (vec!["--json=yes"], "takes no value"),
            (vec!["--thin"], "needs a value"),
            (vec!["--signal"], "needs a value"),
            (vec!["--knob"], "needs a value"),
            (vec!["--signals", "u"], "--signals is no option"),
            (vec!["--thin", "x^2", "--cards", "2"], "--cards does not go with --thin"),
            (vec!["--steps=9", "--sets", "1", "--thin", "x^2"], "--steps does not go with --thin"),
            (vec!["--sets", "1", "--thin="], "--sets does not go with --thin"),
            (vec!["--given"], "needs a value"),
            (vec!["--given", "x^2", "--cards", "2"], "--cards does not go with --given"),
            (vec!["--sets=9", "--steps", "1", "--given", "x^2"], "--sets does not go with --given"),
            (vec!["--given=", "--set", "1"], "--set does not go with --given"),
            (vec!["--given", "x^2", "--thin", "x^2"], "--given does not go with --thin"),
            (vec!["--thin", "x^2", "--cards", "2", "--given", "x^2"], "--cards does not go with --thin"),
            (vec!["--read"], "needs a value"),
            (vec!["--listing=a.txt"], "takes no value"),
            (vec!["--listings"], "--listings is no option"),
            (vec!["--read", "a", "--cards", "2"], "--cards does not go with --read"),
            (vec!["--steps", "2", "--read", "a"], "--steps does not go with --read"),
            (vec!["--read", "a", "--sets", "2"], "--sets does not go with --read"),
            (vec!["--read", "a", "--set", "2"], "--set does not go with --read"),
            (vec!["--read", "a", "--thin", "x^2"], "--thin does not go with --read"),
            (vec!["--given=", "--read", "a"], "--given does not go with --read"),
            (vec!["--read", "a", "--listing"], "--listing does not go with --read"),
            (vec!["--svg", "a.svg", "--read", "a"], "--svg does not go with --read"),
            (vec!["--quick=yes"], "takes no value"),
            (vec!["--quick", "--steps", "9"], "--steps does not go with --quick, which makes no search"),
            (vec!["--sets", "9", "--quick"], "--sets does not go with --quick"),
            (vec!["--quick", "--set", "2"], "--set does not go with --quick"),
            (vec!["--quick", "--thin", "x^2"], "--quick does not go with --thin"),
            (vec!["--given", "x^2", "--quick"], "--quick does not go with --given"),
            (vec!["--read", "a", "--quick"], "--quick does not go with --read"),
            (vec!["-", "--read", "-"], "standard input cannot hold both"),
            (vec!["--read", "-", "--file=-"], "standard input cannot hold both"),
        ] {
            let fault = read(&words).unwrap_err();
            assert!(fault.contains(said), "{words:?}: {fault}");
        }
    }

    #[test]
    fn inputs_that_cannot_be_read() {
        let missing = source(Input::File("no such file".into())).unwrap_err();
        assert!(missing.contains("there is no file") && missing.contains("= is missing"), "{missing}");
        assert!(source(Input::File("/".into())).unwrap_err().contains("cannot be read"));
        assert!(source(Input::File("/dev/zero".into())).unwrap_err().contains("longer"));
        let missing = listing("no such file").unwrap_err();
        assert_eq!(missing, "there is no file \"no such file\" to read a listing from");
        assert!(listing("/").unwrap_err().contains("the file \"/\" cannot be read"));
        let (name, bytes) = listing("/dev/zero").unwrap();
        assert_eq!((name, bytes.len()), ("/dev/zero", LISTING_BYTES + 1), "it is for the planner to refuse");
    }
}
