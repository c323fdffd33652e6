//! A search, and what is told while it runs: how far it has got, and a patch that works.

use std::cell::RefCell;
use std::io::{IsTerminal, Stderr};
use std::time::{Duration, Instant};

use crate::asking::answer::{Answer, DONE, FULL, NOT_QUADRATIC, SETTING, SPENT};
use crate::asking::beside::Beside;
use crate::asking::climb::climb;
use crate::asking::planner::Planner;
use crate::drawing::sheet::Heading;
use crate::saying::drawn::Drawn;
use crate::saying::searched::Searched;
use crate::saying::watch::{is_long, Watch};
use crate::saying::works::{heading, told, Known};
use crate::typed::settings::Settings;
use crate::typed::system::System;
use crate::works::{Met, Works};

/// What was asked, and what came of it.
pub struct Asked {
    pub answer: Answer,
    pub met: Met,
    /// Whether a patch was drawn while the search ran.
    pub drawn: bool,
}

impl From<Answer> for Asked {
    fn from(answer: Answer) -> Asked {
        Asked { answer, met: Met::NotAsked, drawn: false }
    }
}

pub struct Search<'a> {
    pub planner: &'a Planner,
    pub system: &'a System,
    pub settings: &'a Settings,
    /// Where a patch is drawn.
    pub svg: Option<&'a str>,
}

impl Search<'_> {
    /// Searches until the planner says how it ended. A patch is asked for where it was stopped short.
    pub fn run(&self) -> Result<Asked, String> {
        let searched = Searched::of(self.system, self.settings);
        let began = Instant::now();
        let progress = RefCell::new(Progress::begin(self, &searched));
        let mut known = String::new();
        let answer = climb(
            self.settings,
            |settings| self.planner.ask(settings, || progress.borrow_mut().tick(began.elapsed())),
            |cards, steps| {
                progress.borrow_mut().shown(cards, steps, began.elapsed());
                known = format!("; what it had shown: {}", searched.excluded(cards));
            },
        );
        let mut progress = progress.into_inner();
        progress.watch.end();
        progress.ended(answer.map_err(|why| why + &known)?)
    }

    /// Tries for a patch alone. The empty set is judged first: so what the box refuses is refused, and what needs no new
    /// signals gets none. The answer is that of the set that is shown, or of the empty one.
    pub fn quick(&self) -> Result<Asked, String> {
        // Wiring has no cards to refuse.
        if !self.settings.out_of_range().is_empty() {
            return Ok(Answer::refused(SETTING, 0).into());
        }
        let empty = self.planner.wire(&[])?;
        let met = match empty.reply.code {
            DONE => Met::wired(self.system, empty.clone()),
            NOT_QUADRATIC => Beside::begin(self.system, self.settings).met(self.planner, self.system),
            _ => Met::NotAsked,
        };
        match met {
            Met::Unasked(why) => Err(why),
            met => Ok(Asked { answer: met.patch().map_or(empty, |works| works.answer.clone()), met, drawn: false }),
        }
    }

    fn draw(&self, works: &Works) -> Drawn {
        let heading = Heading { equations: self.system.as_read(), given: None, which: heading(works) };
        self.svg.map_or(Drawn::NotAsked, |file| Drawn::draw(file, &works.patch, &heading))
    }
}

/// What is told of a search while it runs.
struct Progress<'a> {
    search: &'a Search<'a>,
    searched: &'a Searched<'a>,
    watch: Watch<'a, Stderr>,
    /// The try that goes on beside it, until it is waited for.
    beside: Option<Beside>,
    met: Met,
    drawn: bool,
}

impl<'a> Progress<'a> {
    fn begin(search: &'a Search, searched: &'a Searched) -> Progress<'a> {
        let watch = Watch::new(std::io::stderr(), std::io::stderr().is_terminal(), searched);
        let beside = Some(Beside::begin(search.system, search.settings));
        Progress { search, searched, watch, beside, met: Met::NotAsked, drawn: false }
    }

    fn tick(&mut self, elapsed: Duration) {
        self.watch.tick(elapsed);
        self.tell(elapsed);
    }

    fn shown(&mut self, cards: u64, steps: u64, elapsed: Duration) {
        self.watch.shown(cards, steps, elapsed);
        self.tell(elapsed);
    }

    /// Tells of a patch, once, where the search is long.
    fn tell(&mut self, elapsed: Duration) {
        if self.beside.is_none() || !is_long(elapsed) {
            return;
        }
        self.wait();
        if let Met::Patch(works) = &self.met {
            let drawn = self.search.draw(works);
            self.drawn = matches!(drawn, Drawn::In(_));
            self.watch.tell(&told(works, Known::in_level(self.watch.level()), self.searched, drawn.words()));
        }
    }

    fn wait(&mut self) {
        if let Some(beside) = self.beside.take() {
            self.met = beside.met(self.search.planner, self.search.system);
        }
    }

    /// Nothing is said of a patch where the search has ended, or never began.
    fn ended(mut self, answer: Answer) -> Result<Asked, String> {
        let short = matches!(answer.reply.code, FULL | SPENT);
        if short {
            self.wait();
        }
        match self.met.patch() {
            Some(works) if works.size() < answer.reply.order => {
                Err("the planner's answers contradict each other".into())
            }
            _ => Ok(Asked { answer, met: if short { self.met } else { Met::NotAsked }, drawn: self.drawn }),
        }
    }
}
