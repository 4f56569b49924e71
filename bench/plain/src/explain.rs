//! Why two actions are ordered: docs/explain.md. The rules are read once more here, each as a test of two events, since the steps name the rules.

use crate::Form::*;
use crate::{Action, Cause, Element, Form, Key, Kind, Made, Number, Of, Page, Record};
use std::io::{self, Write};

/// What a graph keeps where it is to explain: of each action the record that starts it, and the links into it.
#[derive(Default)]
pub struct Told { starts: Vec<Start>, pub links: Vec<Vec<Action>> }

/// A record that starts an action, and the dispatches that are on the stack then.
struct Start { form: Form, pattern: &'static [u8], numbers: [Number; 3], within: Vec<Number> }

impl Told {
    pub fn note(&mut self, record: &Record, stack: &[Number]) {
        let within = if record.form == Job { stack.to_vec() } else { Vec::new() };
        self.starts.push(Start { form: record.form, pattern: record.pattern, numbers: record.numbers, within });
    }
}

pub struct Explanation { from: Action, to: Action, steps: Option<Vec<(Action, Action, u32)>> }

/// Goes back from the last action: of the links into it, the one from the least action to which there is a path from the first.
pub fn find(page: &Page, from: Number, to: Number) -> Result<Explanation, Cause> {
    let count = page.event.len();
    if [from, to].iter().any(|&action| action as usize >= count) {
        return Err("no-action");
    }
    let told = page.told.as_ref().expect("it is kept for an explanation");
    let (mut steps, mut at) = (Vec::new(), to);
    if !page.clocks.joins(from, to) {
        return Ok(Explanation { from, to, steps: None });
    }
    while at != from {
        let links = told.links[at as usize].iter().copied();
        let source = links.filter(|&link| page.clocks.joins(from, link)).min().expect("a path ends with a link");
        steps.push((source, at, Pair { page, told, first: source, second: at }.rule()));
        at = source;
    }
    steps.reverse();
    Ok(Explanation { from, to, steps: Some(steps) })
}

pub fn write(found: &Explanation, out: &mut impl Write) -> io::Result<()> {
    writeln!(out, "explain {} {}", found.from, found.to)?;
    match &found.steps {
        None => writeln!(out, "unordered")?,
        Some(steps) => {
            for (source, target, rule) in steps {
                writeln!(out, "step {source} {target} {rule}")?;
            }
        }
    }
    writeln!(out, "end")
}

/// Two actions, of which the rules are asked.
struct Pair<'a> { page: &'a Page, told: &'a Told, first: Action, second: Action }

/// The two events of a pair: u before v.
struct Events<'a> { page: &'a Page, u: Action, v: Action, from: &'a Start, to: &'a Start }

impl Pair<'_> {
    fn event(&self, action: Action) -> Action {
        self.page.event[action as usize]
    }

    /// The least rule that puts the first before the second.
    fn rule(&self) -> u32 {
        let [u, v] = [self.event(self.first), self.event(self.second)];
        let events = Events { page: self.page, u, v, from: &self.told.starts[u as usize], to: &self.told.starts[v as usize] };
        let of_pieces = if self.is_around_inline() { 22 } else if u == v { 23 } else { u32::MAX };
        let of_events = (1..=31).find(|&number| u != v && events.are_ordered_by(number));
        of_events.unwrap_or(u32::MAX).min(of_pieces)
    }

    /// Rule 22.
    fn is_around_inline(&self) -> bool {
        let start = &self.told.starts[self.second as usize];
        match start.form {
            Inline => self.first + 1 == self.second,
            Back => self.page.dispatches[&start.numbers[0]].close == Some(self.event(self.first)),
            _ => false,
        }
    }
}

impl Events<'_> {
    fn are_ordered_by(&self, rule: u32) -> bool {
        let recorded = self.u < self.v;
        match rule {
            1..=7 => self.by_parsing(rule, recorded),
            8..=13 => self.by_loading(rule, recorded),
            14..=17 | 21 => self.by_dispatching(rule, recorded),
            18..=20 | 24..=30 => self.by_tasks(rule, recorded),
            31 => recorded && self.from.form == Job && self.to.form == Close && self.from.within.contains(&self.to.numbers[0]),
            _ => false,
        }
    }

    fn element(&self, number: Number) -> &Element {
        &self.page.elements[&number]
    }

    fn made(&self, letter: u8, number: Number) -> Option<&Made> {
        self.page.made.get(&(letter, number))
    }

    /// Whether the first event declared this.
    fn declared(&self, letter: u8, number: Number) -> bool {
        self.made(letter, number).is_some_and(|made| made.maker == self.u)
    }

    /// The static script of that test that an event runs, and the piece that made it.
    fn script(&self, start: &Start, test: fn(Kind) -> bool) -> Option<(&Element, Action)> {
        let e = (start.form == Exec).then(|| self.element(start.numbers[0]))?;
        (e.is_static && test(e.kind)).then(|| (e, self.page.made[&(b'e', start.numbers[0])].piece))
    }

    fn by_parsing(&self, rule: u32, recorded: bool) -> bool {
        let (from, to) = (self.from, self.to);
        let step = (to.form == Parse).then_some(to.numbers[0]);
        let blocking = self.script(from, is_blocking);
        let deferred = self.script(to, is_deferred);
        match rule {
            1 => recorded && from.form == Parse && step == Some(from.numbers[0]),
            2 => step.is_some_and(|document| self.declared(b'd', document)),
            3 => to.form == Exec && self.declared(b'e', to.numbers[0]),
            4 => blocking.is_some_and(|(e, piece)| step == Some(e.document) && piece < self.v),
            5 => from.form == Parse && deferred.is_some_and(|(e, _)| e.document == from.numbers[0]),
            6 => blocking.zip(deferred).is_some_and(|((x, _), (y, _))| x.document == y.document),
            _ => self.script(from, is_deferred).zip(deferred).is_some_and(|(x, y)| x.0.document == y.0.document && x.1 < y.1),
        }
    }

    /// Whether the first event is a parse step of the document, or the run of a static script of it that passes the test.
    fn parses(&self, document: Number, test: fn(Kind) -> bool) -> bool {
        self.from.form == Parse && self.from.numbers[0] == document
            || self.script(self.from, test).is_some_and(|(e, _)| e.document == document)
    }

    /// The place of the dispatch of which the first event is the close, or also the start or a handler.
    fn place_of(&self, forms: &[Form]) -> Option<&Key> {
        let is_so = forms.contains(&self.from.form);
        is_so.then(|| &self.page.dispatches[&self.from.numbers[0]].place)
    }

    fn by_loading(&self, rule: u32, recorded: bool) -> bool {
        let target = self.to.numbers[1];
        let closed = self.place_of(&[Close]);
        match (self.to.form, rule) {
            (Dcl, 8) => self.parses(target, |kind| is_blocking(kind) || is_deferred(kind)),
            (Load, 9) => self.place_of(&[Dcl, Run, Close]) == Some(&(Of::Close(Dcl), target, 0)),
            (Load, 10) => self.parses(target, |_| true),
            (Load, 11) => recorded && closed.is_some_and(|place| {
                place.0 == Of::Close(Eload) && {
                    let e = self.element(place.1);
                    e.is_static && e.kind != Kind::Plain && e.document == target
                }
            }),
            (Eload, 12) => self.declared(b'e', target) || (self.from.form == Exec && self.from.numbers[0] == target),
            (Eload, 13) => match self.element(target).kind {
                Kind::Frame(inner) => recorded && closed == Some(&(Of::Close(Load), inner, 0)),
                _ => false,
            },
            _ => false,
        }
    }

    fn by_dispatching(&self, rule: u32, recorded: bool) -> bool {
        let (from, to) = (self.from, self.to);
        let target = to.numbers[1];
        match (rule, to.form) {
            (14, Fire | Inline) => self.declared(b'e', target),
            (14, Wfire | Dcl | Load) => self.declared(b'd', target),
            (15, Run) => self.declared(b'h', to.numbers[2]),
            (16, Run | Close) if from.numbers[0] == to.numbers[0] => match from.form {
                Dcl | Load | Eload | Fire | Wfire | Reply | Inline => true,
                Run => to.form == Close || from.numbers[1] < to.numbers[1],
                _ => false,
            },
            (17, Fire | Inline | Wfire) => recorded && self.place_of(&[Close]) == Some(&self.page.dispatches[&to.numbers[0]].place),
            (21, Reply) => self.declared(b'r', target) || (recorded && self.place_of(&[Close]) == Some(&(Of::Close(Reply), target, 0))),
            _ => false,
        }
    }

    /// The task that an event runs, a timeout, an interval, a message, an animation callback or a job: what it is, and how it was declared.
    fn task(&self, start: &Start) -> Option<(u8, &Made)> {
        let letter = start.pattern[0];
        let task = b"TIMAJ".contains(&letter).then(|| self.made(letter.to_ascii_lowercase(), start.numbers[0]))?;
        task.map(|made| (letter, made))
    }

    fn by_tasks(&self, rule: u32, recorded: bool) -> bool {
        let (from, to) = (self.from, self.to);
        let Some((letter, task)) = self.task(to) else { return false };
        let earlier = self.task(from).filter(|_| recorded);
        match (rule, letter) {
            (18, b'T') | (24, b'M') | (26, b'A') | (28, b'J') => task.maker == self.u,
            (20, b'I') => task.maker == self.u || earlier.is_some_and(|one| one.0 == letter && from.numbers[0] == to.numbers[0]),
            (19, b'T') | (25, b'M') | (27, b'A') | (29, b'J') => earlier.is_some_and(|one| one.0 == letter && self.is_earlier(one.1, task, letter)),
            (30, b'T' | b'I' | b'M' | b'A') => earlier.is_some_and(|one| one.0 == b'J' && one.1.maker == task.maker),
            _ => false,
        }
    }

    /// Whether a task was declared earlier than another of its kind, with no greater delay of a timeout.
    fn is_earlier(&self, earlier: &Made, task: &Made, letter: u8) -> bool {
        let is_timer = letter == b'T';
        let is_led = match self.page.version {
            1 if is_timer => earlier.maker == task.maker,
            _ => self.page.clocks.joins(earlier.piece, task.piece),
        };
        earlier.order < task.order && (!is_timer || earlier.delay <= task.delay) && is_led
    }
}

fn is_blocking(kind: Kind) -> bool {
    matches!(kind, Kind::Inline | Kind::Sync)
}

fn is_deferred(kind: Kind) -> bool {
    kind == Kind::Defer
}
