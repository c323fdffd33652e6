//! The whole answer, for other programs: JSON.

use crate::algebra::Exponents;
use crate::asking::answer::{Answer, FALSE, UNREADABLE};
use crate::patch::Patch;
use crate::saying::json::Json;
use crate::saying::report::Report;
use crate::saying::{given, read, wired};
use crate::typed::given::{Aim, Given};
use crate::typed::pasted::Pasted;
use crate::typed::settings::Count;
use crate::typed::system::{Record, System};
use crate::typed::text::{place, Fault, Source, Span};
use crate::works::{Met, Works};

/// All that is said to a person, and what was sent and received.
pub fn answer(report: &Report) -> String {
    let reply = &report.answer.reply;
    let said = report.said();
    let places = said.places.iter().map(|&(_, span)| location(report.sources, span));
    let mut fields = vec![
        ("operation", operation(report).into()),
        ("code", whole(reply.code)),
        ("name", reply.name().map_or(Json::Null, Json::from)),
        ("order", whole(reply.order)),
        ("count", whole(reply.count)),
        ("steps", whole(reply.steps)),
        ("place", whole(reply.place)),
        ("words", said.words.replace('\n', " ").into()),
        ("places", Json::List(places.collect())),
        ("notes", Json::list(notes(report))),
        ("settings", settings(report)),
        ("system", system(report)),
    ];
    match (report.pasted, &report.system.given) {
        (Some(pasted), _) => {
            fields.extend(about_listing(report, pasted));
            return Json::Object(fields).written();
        }
        _ if report.quick => (),
        (_, None) => fields.push(("sets", sets(report))),
        (_, Some(set)) => fields.extend(about_set(report, set)),
    }
    if report.quick || *report.met != Met::NotAsked {
        fields.push(("quick", report.met.patch().map_or(Json::Null, |works| quick(report, works))));
    }
    if !report.quick {
        fields.extend(wired_set(report, report.answer, report.patch));
    }
    fields.push(("drawing", report.drawn.words().map_or(Json::Null, Json::from)));
    Json::Object(fields).written()
}

/// What is said beside the words for the reply.
fn notes(report: &Report) -> Vec<String> {
    let no_patch = report.beside().filter(|_| report.met.patch().is_none());
    let others = [report.no_such_set(), no_patch, report.long_listing()];
    report.notes().into_iter().chain(others.into_iter().flatten()).collect()
}

/// The wiring of an answer's set, and its listing where that was asked for.
fn wired_set(report: &Report, answer: &Answer, patch: Option<&Patch>) -> Vec<(&'static str, Json)> {
    let listing = answer.listing.as_deref().map_or(Json::Null, Json::from);
    let listing = report.as_listing.then_some(("listing", listing));
    let wiring = patch.map_or(Json::Null, |patch| wiring(report, answer, patch));
    listing.into_iter().chain([("wiring", wiring)]).collect()
}

/// A patch that works. It is no find of a search.
fn quick(report: &Report, works: &Works) -> Json {
    let mut fields = vec![
        ("searched", Json::Bool(false)),
        ("words", report.beside().unwrap_or(report.said().words).replace('\n', " ").into()),
        ("order", whole(works.size())),
        ("at_least", whole(report.known().least)),
    ];
    fields.extend(works.answer.sets.iter().flat_map(|set| signals(report, set)));
    fields.extend(wired_set(report, &works.answer, Some(&works.patch)));
    Json::Object(fields)
}

/// No answer, and why.
pub fn error(sources: &[Source], fault: &Fault) -> String {
    let place = fault.span.map_or(Json::Null, |span| location(sources, span));
    Json::Object(vec![("error", fault.words.as_str().into()), ("place", place)]).written()
}

fn whole(number: u64) -> Json {
    i64::try_from(number).map_or(Json::Text(number.to_string()), Json::Number)
}

fn operation(report: &Report) -> &'static str {
    match report.system.aim() {
        None if report.pasted.is_some() => "reading",
        None if report.quick => "trying",
        None => "planning",
        Some(Aim::Thinning) => "thinning",
        Some(Aim::Wiring) => "wiring",
    }
}

/// Those that were sent, for the full kit too. Of a given set or listing all that is asked is judged, and no search is
/// limited; nor is one where none is made.
fn settings(report: &Report) -> Json {
    let count = |c: &Count| c.value().map_or(Json::from(c.digits()), whole);
    let mut fields = vec![
        ("n", whole(report.system.names.len() as u64)),
        ("marks", whole(report.system.marks())),
        ("degree", count(&report.settings.degree)),
    ];
    if report.system.given.is_none() && report.pasted.is_none() {
        fields.push(("cards", count(&report.settings.cards)));
        let limits = [("steps", count(&report.settings.steps)), ("sets", count(&report.settings.sets))];
        fields.extend(limits.into_iter().filter(|_| !report.quick));
    }
    Json::Object(fields)
}

/// The names that were typed: each is the number of its variable, and of the bit that marks it.
fn names(system: &System) -> Json {
    let stands = |&i: &usize| system.used[i] || system.only_given().contains(&system.names[i].as_str());
    let name = |i: usize| {
        Json::Object(vec![
            ("number", whole(i as u64 + 1)),
            ("name", system.names[i].as_str().into()),
            ("kind", system.kind(i).word().into()),
        ])
    };
    Json::List((0..system.names.len()).filter(stands).map(name).collect())
}

fn system(report: &Report) -> Json {
    let record = |r: &Record| {
        Json::Object(vec![
            ("equation", Json::Number(r.equation.into())),
            ("exponents", exponents(&r.exponents)),
            ("coefficient", Json::Number(r.coefficient.into())),
        ])
    };
    Json::Object(vec![
        ("variables", Json::list(report.system.names.iter().cloned())),
        ("names", names(report.system)),
        ("unfed", Json::list(report.system.unfed())),
        ("equations", Json::list(report.system.as_read())),
        ("records", Json::List(report.system.records().unwrap_or_default().iter().map(record).collect())),
    ])
}

fn signals(report: &Report, set: &[Exponents]) -> Vec<(&'static str, Json)> {
    vec![
        ("signals", Json::list(report.system.set(set))),
        ("exponents", Json::List(set.iter().map(exponents).collect())),
    ]
}

/// The given set as it was sent, ascending (nothing where it fits no record), and what is said of it.
fn about_set(report: &Report, set: &Given) -> Vec<(&'static str, Json)> {
    let mut fields = vec![("given", set.set().map_or(Json::Null, |set| Json::Object(signals(report, &set))))];
    match set.aim {
        Aim::Thinning => fields.push(("subsets", sets(report))),
        Aim::Wiring => fields.extend([
            ("verdict", wired::verdict(&report.answer.reply).map_or(Json::Null, Json::from)),
            ("reason", reason(report, set)),
        ]),
    }
    fields
}

/// The file of a listing; the byte that the place of an unreadable one is, and where it stands; why a line is false; and
/// the set of a listing that is right.
fn about_listing(report: &Report, pasted: &Pasted) -> Vec<(&'static str, Json)> {
    let reply = &report.answer.reply;
    let place = reply.place as usize;
    let stands = (reply.code == UNREADABLE).then(|| {
        let (line, byte) = pasted.line_of(place);
        Json::Object(vec![
            ("line", whole(line as u64)),
            ("byte", whole(byte as u64)),
            ("value", pasted.byte(place).map_or(Json::Null, |value| Json::Number(value.into()))),
        ])
    });
    let difference = (reply.code == FALSE).then(|| read::difference(place, pasted, report.system)).flatten();
    let reason = difference.map(|difference| {
        Json::Object(vec![
            ("of", difference.of.into()),
            ("exponents", exponents(&difference.product)),
            ("listed", Json::Number(difference.listed)),
            ("derivative", Json::Number(difference.derivative)),
        ])
    });
    let set = report.answer.sets.first().map(|set| Json::Object(signals(report, set)));
    vec![
        ("file", pasted.file.as_str().into()),
        ("stands", stands.unwrap_or(Json::Null)),
        ("reason", reason.unwrap_or(Json::Null)),
        ("set", set.unwrap_or(Json::Null)),
    ]
}

/// The signal that cannot be wired, and the term of its derivative that no two signals multiply to.
fn reason(report: &Report, set: &Given) -> Json {
    let reply = &report.answer.reply;
    given::reason(reply, set, report.system).map_or(Json::Null, |(coefficient, product)| {
        Json::Object(vec![
            ("signal", whole(reply.place)),
            ("exponents", exponents(&product)),
            ("coefficient", Json::Number(coefficient)),
        ])
    })
}

fn sets(report: &Report) -> Json {
    Json::List((0..report.answer.sets.len()).map(|number| set(report, number)).collect())
}

fn set(report: &Report, number: usize) -> Json {
    let mut fields = signals(report, &report.answer.sets[number]);
    if report.system.given.is_some() {
        fields.push(("can_go", Json::list(report.can_go(number))));
    }
    Json::Object(fields)
}

/// With the number of the set where it is one of a list.
fn wiring(report: &Report, answer: &Answer, patch: &Patch) -> Json {
    let wires = answer.wires.iter();
    let records = wires.map(|w| Json::list([w.left as i64, w.a as i64, w.b as i64, w.coefficient.into()]));
    let which = report.thing().filter(|_| report.patch.is_some()).map(|thing| (thing, whole(report.settings.which)));
    let own = [
        ("signals", Json::list(patch.signals.iter().cloned())),
        ("records", Json::List(records.collect())),
        ("equations", Json::list(patch.equations())),
    ];
    Json::Object(which.into_iter().chain(own).collect())
}

fn exponents(exponents: &Exponents) -> Json {
    Json::list(exponents.iter().map(|&e| i64::from(e)))
}

/// Line and columns count from 1; the last column belongs to the place.
fn location(sources: &[Source], span: Span) -> Json {
    let place = place(sources, span);
    Json::Object(vec![
        ("file", place.file.map_or(Json::Null, Json::from)),
        ("line", whole(place.line as u64)),
        ("text", place.text.into()),
        ("from", whole(place.from as u64 + 1)),
        ("to", whole(place.to as u64)),
    ])
}
