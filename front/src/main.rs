//! The front door: plans a patch from typed equations, thins a given set, or judges and wires it as it is; prints a patch
//! as the desktop tool's listing, and reads one. All of this is done by proved programs; here they are asked, and their
//! answers said and drawn. Where a search would take too long, a patch is tried for here, and they judge it.

mod algebra;
mod asking;
mod derivative;
mod drawing;
mod panel;
mod patch;
#[cfg(test)]
mod random;
#[cfg(test)]
mod recorded;
mod saying;
mod search;
mod trying;
mod typed;
mod works;

use std::io::Write;
use std::process::ExitCode;

use asking::answer::{Answer, DONE, FULL, NONE, NOT_QUADRATIC, SET, SPENT, TERM};
use asking::planner::{Planner, RUNNER};
use drawing::sheet::Heading;
use patch::Patch;
use saying::drawn::Drawn;
use saying::help::help;
use saying::report::Report;
use saying::{export, report};
use search::{Asked, Search};
use typed::given::Aim;
use typed::options::Options;
use typed::pasted::Pasted;
use typed::system::System;
use typed::text::{Fault, Holds, Source};
use typed::{options, parser};
use works::Met;

const LISTED: u8 = 0;
const NOT_LISTED: u8 = 1;
const REFUSED: u8 = 2;
const FAILED: u8 = 3;

fn main() -> ExitCode {
    ExitCode::from(run())
}

fn run() -> u8 {
    let arguments: Result<Vec<String>, _> = std::env::args_os().skip(1).map(|word| word.into_string()).collect();
    let read = arguments.map_err(|word| format!("{word:?} is no text")).and_then(options::options);
    let mut options = match read {
        Ok(options) => options,
        Err(why) => return stop(REFUSED, &format!("plan: {why}\n")),
    };
    if options.help {
        return print(LISTED, &help());
    }
    if options.inputs.is_empty() {
        return stop(REFUSED, "plan: no equation was given, as in ./plan \"x' = x^4 + x^3\" (--help says more)\n");
    }
    let mut sources = Vec::new();
    for input in std::mem::take(&mut options.inputs) {
        match options::source(input) {
            Ok(source) => sources.push(source),
            Err(why) => return not_understood(&sources, &Fault::nowhere(why), &options),
        }
    }
    let said = options.said.drain(..).map(|(kind, names)| Source::argument(Holds::Names(kind), names));
    let given = options.given.take().map(|(aim, set)| Source::argument(Holds::Set(aim), set));
    sources.extend(said.chain(given));
    let system = match parser::parse(&sources).and_then(|typed| System::of(&typed)) {
        Ok(system) => system,
        Err(fault) => return not_understood(&sources, &fault, &options),
    };
    let mut pasted = None;
    if let Some(file) = &options.read {
        match options::listing(file) {
            Ok((name, bytes)) => {
                let (listing, source) = Pasted::of(sources.len(), name, bytes);
                sources.push(source);
                pasted = Some(listing);
            }
            Err(why) => return not_understood(&sources, &Fault::nowhere(why), &options),
        }
    }
    answer(&sources, &system, pasted.as_ref(), &options)
}

fn answer(sources: &[Source], system: &System, pasted: Option<&Pasted>, options: &Options) -> u8 {
    let Asked { answer, met, drawn } = match ask(system, pasted, options) {
        Ok(asked) => asked,
        Err(why) if options.json => return print(FAILED, &export::error(sources, &Fault::nowhere(why))),
        Err(why) => return stop(FAILED, &format!("plan: {why}.\n")),
    };
    // A listing that is read has its own wiring, and none is asked for; a patch that was met has its own, too.
    let patch = Patch::of(system, &answer, options.settings.which).filter(|_| pasted.is_none() && !options.quick);
    let mut report = Report {
        patch: patch.as_ref(),
        pasted,
        as_listing: options.listing,
        met: &met,
        quick: options.quick,
        ..Report::of(sources, system, &options.settings, &answer)
    };
    if let Some(file) = &options.svg {
        report.drawn = draw(&report, file, drawn);
    }
    let status = match answer.reply.code {
        _ if matches!(report.drawn, Drawn::Failed(..)) => FAILED,
        DONE if report.shown().is_none() && pasted.is_none() => REFUSED,
        DONE => LISTED,
        NONE | FULL | SPENT => NOT_LISTED,
        NOT_QUADRATIC if options.quick => NOT_LISTED,
        _ => REFUSED,
    };
    if options.json {
        return print(status, &export::answer(&report));
    }
    let said = report.for_a_person();
    if !options.listing {
        return print(status, &said);
    }
    // A listing is for a file: where there is none, nothing is written there.
    stop(status, &said);
    print(status, report.listing().unwrap_or(""))
}

/// Writes the drawing. Where nothing is wired there is nothing to draw, and the file is left as it is.
fn draw(report: &Report, file: &str, before: bool) -> Drawn {
    match report.shown() {
        Some(patch) => {
            let (equations, given) = (report.system.as_read(), report.given_text());
            Drawn::draw(file, patch, &Heading { equations, given, which: report.which_set() })
        }
        None if before => Drawn::Before(file.into()),
        None => Drawn::NotWired(file.into()),
    }
}

/// Asks what is asked of the given set or listing; where there is none, for a plan, or for a patch alone. What fits no
/// record is refused here, as the planner refuses a record.
fn ask(system: &System, pasted: Option<&Pasted>, options: &Options) -> Result<Asked, String> {
    let settings = &options.settings;
    let records = match system.records() {
        Ok(records) => records,
        Err(place) => return Ok(Answer::refused(TERM, place).into()),
    };
    let runner =
        std::env::var(RUNNER).map_err(|_| format!("{RUNNER} does not say how to run the planner; use ./plan"))?;
    let planner = Planner::of(runner, system, &records, settings);
    if let Some(pasted) = pasted {
        return planner.read(&pasted.bytes).map(Asked::from);
    }
    let search = Search { planner: &planner, system, settings, svg: options.svg.as_deref() };
    let given = system.given.as_ref().map(|given| (given.set(), given.aim));
    let mut asked = match given {
        None if options.quick => search.quick(),
        None => search.run(),
        Some((None, _)) => Ok(Answer::refused(SET, 0).into()),
        Some((Some(set), Aim::Thinning)) => planner.thin(&set, settings.which).map(Asked::from),
        Some((Some(set), Aim::Wiring)) => planner.wire(&set).map(Asked::from),
    }?;
    if options.listing {
        let (answer, which) = match &mut asked.met {
            Met::Patch(works) => (&mut works.answer, 1),
            _ => (&mut asked.answer, settings.which),
        };
        add_listing(&planner, answer, which)?;
    }
    Ok(asked)
}

/// Has the set that is wired printed as a listing, where there is one.
fn add_listing(planner: &Planner, answer: &mut Answer, which: u64) -> Result<(), String> {
    let wired = which.checked_sub(1).and_then(|at| answer.sets.get(usize::try_from(at).ok()?));
    if let Some(set) = wired {
        answer.listing = Some(planner.print(set, &answer.wires)?);
    }
    Ok(())
}

fn not_understood(sources: &[Source], fault: &Fault, options: &Options) -> u8 {
    if options.json {
        print(REFUSED, &export::error(sources, fault))
    } else {
        stop(REFUSED, &report::not_understood(sources, fault))
    }
}

/// Writes the answer. Where nobody reads it any more, there is nobody to tell.
fn print(status: u8, text: &str) -> u8 {
    let mut out = std::io::stdout();
    match out.write_all(text.as_bytes()).and_then(|()| out.flush()) {
        Ok(()) => status,
        Err(_) => FAILED,
    }
}

fn stop(status: u8, text: &str) -> u8 {
    let _ = std::io::stderr().write_all(text.as_bytes());
    status
}
