//! The plain program: docs/format.md and docs/rules.md read once more, without proofs, in Rust of the standard library.
//! It takes the arguments of docs/report.md. docs/performance.md measures the product against it, `tools/check-plain` compares the answers of both, and it
//! answers while the product is not built (docs/report.md, "Before it is built").

mod arguments;
mod explain;
mod json;
mod json_lines;
mod schedule;

use arguments::Command;
use std::collections::HashMap;
use std::hash::{BuildHasherDefault, Hasher};
use std::{io::{self, BufRead, BufWriter, Read, Write}, process::exit};

const MOST_LINES: usize = 2_097_152;
const MOST_LINE_BYTES: usize = 1_024;
const MOST_JSON_BYTES: usize = 4_096;
const MOST_NAME: usize = 255;
const MOST_ACTIONS: usize = 32_768;
const MOST_INLINE: usize = 256;
const MOST_ACCESSES: usize = 1_048_576;
const MOST_PAIRS: u64 = 16_777_216;
const MOST_RACES: usize = 262_144;
const MOST_CLASSES: usize = 32_768;
const MOST_ROUNDS: u32 = 1_500;

/// Why a line is refused, in the words of docs/format.md.
type Cause = &'static str;
type Number = u32;
/// An event is identified by its first action.
type Action = u32;

// ---------------------------------------------------------------- tables
/// Mixes numbers and short byte strings, for tables.
#[derive(Default)]
struct Mix(u64);

impl Hasher for Mix {
    fn finish(&self) -> u64 {
        self.0 ^ (self.0 >> 29)
    }
    fn write(&mut self, bytes: &[u8]) {
        for part in bytes.chunks(8) {
            let mut word = [0; 8];
            word[..part.len()].copy_from_slice(part);
            self.0 = (self.0.rotate_left(5) ^ u64::from_le_bytes(word)).wrapping_mul(0x517c_c1b7_2722_0a95);
        }
    }
}

type Table<K, V> = HashMap<K, V, BuildHasherDefault<Mix>>;

/// Byte strings with their numbers, in the order in which they came.
type Texts = Table<Box<[u8]>, u32>;

fn number_of(texts: &mut Texts, text: &[u8]) -> u32 {
    if let Some(&number) = texts.get(text) {
        return number;
    }
    texts.insert(text.into(), texts.len() as u32);
    texts.len() as u32 - 1
}

// ---------------------------------------------------------------- records
/// The forms of a record except accesses: those before `New` begin an action.
#[derive(Clone, Copy, PartialEq, Eq, Hash, PartialOrd)]
enum Form {
    Parse, Exec, Timer, Tick, Dcl, Load, Eload, Fire, Wfire, Reply, Inline, Run, Close, Back, Message, Anim, Job,
    New, On, Set, Every, Send, Post, Ask, Queue,
}
use Form::*;

/// Each form with its keyword and what comes after it. A letter is a number of what begins with it, `m` say a message:
/// a small one is declared here, a capital one must be declared before; `#` is any number, `?` a kind, `"` a name.
const FORMS: [(Form, &[u8], &[u8]); 25] = [
    (Parse, b"parse", b"De?"), (Exec, b"exec", b"E"), (Timer, b"timer", b"T"), (Tick, b"tick", b"I"),
    (Dcl, b"dcl", b"pD"), (Load, b"load", b"pD"), (Eload, b"eload", b"pE"), (Fire, b"fire", b"pE\""),
    (Wfire, b"wfire", b"pD\""), (Reply, b"reply", b"pR"), (Inline, b"inline", b"pE\""), (Run, b"run", b"P#H"),
    (Close, b"close", b"P"), (Back, b"back", b"P"), (Message, b"message", b"M"), (Anim, b"anim", b"A"),
    (Job, b"job", b"J"), (New, b"new", b"De?"), (On, b"on", b"h"), (Set, b"set", b"t#"), (Every, b"every", b"i#"),
    (Send, b"send", b"r"), (Post, b"post", b"m"), (Ask, b"ask", b"a"), (Queue, b"queue", b"j"),
];

#[derive(Clone, Copy, PartialEq)]
enum Kind { Plain, Inline, Sync, Defer, Async, Image, Frame(Number) }

struct Record<'a> { form: Form, pattern: &'static [u8], numbers: [Number; 3], kind: Kind, name: &'a [u8] }

impl Record<'_> {
    /// The numbers with their letters.
    fn lettered(&self) -> impl Iterator<Item = (u8, Number)> + '_ {
        self.pattern.iter().copied().zip(self.numbers).filter(|(letter, _)| letter.is_ascii_alphabetic())
    }

    /// What happens once: by its form and the number of what it happens to.
    fn once(&self) -> Option<(Form, Number)> {
        let is_once = matches!(self.form, Exec | Timer | Message | Anim | Job | Dcl | Load | Eload);
        self.lettered().last().filter(|_| is_once).map(|(_, number)| (self.form, number))
    }
}

/// The tokens of a line that are still to be read; of a line of JSON also whether each is a number.
#[derive(Clone, Copy)]
struct Tokens<'a> { rest: Option<&'a [u8]>, are_numbers: Option<&'a [bool]> }

impl<'a> Tokens<'a> {
    fn of_text(line: &'a [u8]) -> Self {
        Tokens { rest: Some(line), are_numbers: None }
    }

    fn next(&mut self, is_number: bool) -> Option<&'a [u8]> {
        if let Some(are_numbers) = &mut self.are_numbers {
            let (&first, left) = are_numbers.split_first()?;
            *are_numbers = left;
            if first != is_number {
                return None;
            }
        }
        let rest = self.rest?;
        let end = rest.iter().position(|&b| b == b' ');
        self.rest = end.map(|at| &rest[at + 1..]);
        Some(&rest[..end.unwrap_or(rest.len())])
    }

    fn word(&mut self) -> Option<&'a [u8]> {
        self.next(false)
    }

    fn is_at_end(&self) -> bool {
        self.rest.is_none()
    }

    /// Whether these are all tokens: a keyword, and in a first line a number after it.
    fn are(mut self, keyword: &[u8], version: Option<Number>) -> bool {
        self.word() == Some(keyword) && version.map_or(true, |version| self.number() == Some(version)) && self.is_at_end()
    }

    fn number(&mut self) -> Option<Number> {
        let token = self.next(true)?;
        if token.is_empty() || token.len() > 10 || (token[0] == b'0' && token.len() > 1) {
            return None;
        }
        let digit = |value: u64, &byte: &u8| byte.is_ascii_digit().then(|| value * 10 + u64::from(byte - b'0'));
        Number::try_from(token.iter().try_fold(0, digit)?).ok()
    }

    /// A name stays as it is written, since it can be written in one way.
    fn name(&mut self) -> Option<&'a [u8]> {
        let token = self.word()?;
        let (mut at, mut bytes) = (0, 0);
        while at < token.len() {
            at += if stands_for_itself(token[at]) { 1 } else if is_escape(&token[at..]) { 3 } else { return None };
            bytes += 1;
        }
        (1..=MOST_NAME).contains(&bytes).then_some(token)
    }

    fn kind(&mut self, is_parsed: bool) -> Option<Kind> {
        Some(match self.word()? {
            b"plain" => Kind::Plain,
            b"inline" if is_parsed => Kind::Inline,
            b"sync" if is_parsed => Kind::Sync,
            b"defer" if is_parsed => Kind::Defer,
            b"async" => Kind::Async,
            b"image" => Kind::Image,
            b"frame" => Kind::Frame(self.number()?),
            _ => return None,
        })
    }
}

fn stands_for_itself(byte: u8) -> bool {
    (0x21..=0x7e).contains(&byte) && byte != b'%'
}

fn is_escape(bytes: &[u8]) -> bool {
    let digit = |byte: &u8| b"0123456789ABCDEF".iter().position(|one| one == byte);
    let [b'%', high, low, ..] = bytes else { return false };
    digit(high).zip(digit(low)).is_some_and(|(high, low)| !stands_for_itself((high * 16 + low) as u8))
}

/// An access: whether it writes, and its location as it is written, which can be written in one way.
fn access_of(mut tokens: Tokens<'_>) -> Option<(bool, &[u8])> {
    let mode = tokens.word()?;
    if !matches!(mode, b"r" | b"w") {
        return None;
    }
    let location = tokens.rest?;
    let is_one = matches!(tokens.word()?, b"var" | b"elem" | b"slot");
    (is_one && tokens.number().is_some() && tokens.name().is_some() && tokens.is_at_end())
        .then_some((mode == b"w", location))
}

/// The record that a line encodes in a trace of the version, except an access.
fn record_of(mut tokens: Tokens<'_>, version: usize) -> Option<Record<'_>> {
    let word = tokens.word()?;
    let &(form, _, pattern) = FORMS.iter().find(|known| known.1 == word)?;
    if version < 3 && matches!(form, Message | Anim | Job | Post | Ask | Queue) {
        return None;
    }
    let mut record = Record { form, pattern, numbers: [0; 3], kind: Kind::Plain, name: b"" };
    for (at, part) in pattern.iter().enumerate() {
        match part {
            b'"' => record.name = tokens.name()?,
            b'?' => record.kind = tokens.kind(form == Parse)?,
            _ => record.numbers[at] = tokens.number()?,
        }
    }
    tokens.is_at_end().then_some(record)
}

// ---------------------------------------------------------------- clocks
/// The actions on chains, and for each action how many members of each chain have a path to it.
/// A row is not asked for its action's own chain, so actions may share one.
#[derive(Default)]
struct Clocks {
    chain: Vec<u16>, place: Vec<u16>, row: Vec<u32>, rows: Vec<Box<[u16]>>, lengths: Vec<u16>, links: u64,
    last_sources: Vec<Action>, last_links: Vec<Action>,
    /// Whether the last row has its own chain's number too, as others with its sources need it.
    is_whole: bool,
}

impl Clocks {
    fn joins(&self, from: Action, to: Action) -> bool {
        let (x, y) = (from as usize, to as usize);
        if x >= y || self.chain[x] == self.chain[y] {
            return x <= y;
        }
        reaches(&self.rows[self.row[y] as usize], self.chain[x], self.place[x])
    }

    /// One action more, with edges from these.
    fn push(&mut self, sources: &mut Vec<Action>) {
        let (row, chain) = if self.is_whole && *sources == self.last_sources {
            let row = self.row[self.row.len() - 1];
            (row, self.fit(&self.rows[row as usize], self.chain[self.chain.len() - 1] + 1))
        } else {
            std::mem::swap(sources, &mut self.last_sources);
            sources.clone_from(&self.last_sources);
            self.make_row(sources)
        };
        if chain as usize == self.lengths.len() {
            self.lengths.push(0);
        }
        self.links += self.last_links.len() as u64;
        self.chain.push(chain);
        self.place.push(self.lengths[chain as usize]);
        self.row.push(row);
        self.lengths[chain as usize] += 1;
    }

    /// The row of an action with these sources, and its chain. Of two sources the later one may cover the other.
    fn make_row(&mut self, sources: &mut Vec<Action>) -> (u32, u16) {
        sources.sort_unstable_by(|a, b| b.cmp(a));
        sources.dedup();
        let mut row = Vec::new();
        self.last_links.clear();
        for &source in sources.iter() {
            let (chain, place) = (self.chain[source as usize], self.place[source as usize]);
            if reaches(&row, chain, place) {
                continue;
            }
            self.last_links.push(source);
            let other = &self.rows[self.row[source as usize] as usize];
            row.resize(row.len().max(other.len()).max(chain as usize + 1), 0);
            row.iter_mut().zip(other).for_each(|(count, &one)| *count = (*count).max(one));
            row[chain as usize] = place + 1;
        }
        let chain = self.fit(&row, 0);
        self.is_whole = self.last_links.len() != 1 || chain != self.chain[sources[0] as usize];
        if !self.is_whole {
            return (self.row[sources[0] as usize], chain);
        }
        self.rows.push(row.into());
        (self.rows.len() as u32 - 1, chain)
    }

    /// The first chain from that one on of which each member is in the row, or a new one.
    fn fit(&self, row: &[u16], first: u16) -> u16 {
        let found = (first as usize..row.len()).find(|&chain| row[chain] == self.lengths[chain]);
        found.unwrap_or(self.lengths.len()) as u16
    }
}

fn reaches(row: &[u16], chain: u16, place: u16) -> bool {
    row.get(chain as usize).is_some_and(|&count| count > place)
}

// ---------------------------------------------------------------- the page
/// What was declared: by which event, in which of its pieces, in which order, with which delay.
#[derive(Clone, Copy)]
struct Made { maker: Action, piece: Action, order: usize, delay: Number }

struct Element { document: Number, kind: Kind, is_static: bool }

struct Dispatch {
    /// What its close is kept by, and the event that it suspends, of an inline one.
    place: Key, begin: Action, close: Option<Action>, suspends: Option<Action>,
    /// The greatest group that has run, its handlers, and those of the greatest group below it.
    group: Number, runs: Vec<Action>, runs_below: Vec<Action>,
}

/// A task that has begun. Of those right before it in the list three runs are passed in one step:
/// those that have a path to it, those that were declared no earlier, and those with no lesser delay.
struct Begun { task: Made, event: Action, before: u32, later: u32, slower: u32 }

/// What came last, or all that came, of a document, an interval, an event that queued jobs, a dispatch;
/// what begins once, by its number; the last close of dispatches of a form, by their target and type.
#[derive(Clone, Copy, PartialEq, Eq, Hash)]
enum Of {
    Parse, BlockingRun, DeferredRun, DeferredParse, AsyncRuns, LoadCloses, Tick, Queued, Within,
    Once(Form), Close(Form),
}
type Key = (Of, Number, u32);

#[derive(Default)]
struct Page {
    version: usize, clocks: Clocks,
    /// For each action its event; for each event, by its first action, its latest piece and whether it may call.
    event: Vec<Action>, latest: Vec<Action>, may_call: Vec<bool>,
    stack: Vec<Number>, inline_depth: usize, elements: Table<Number, Element>, dispatches: Table<Number, Dispatch>,
    /// What was declared, by letter and number.
    made: Table<(u8, Number), Made>,
    last: Table<Key, Action>, all: Table<(Of, Number), Vec<Action>>, begun: Table<Form, Vec<Begun>>,
    types: Texts, place_of_close: Table<Action, Key>, sources: Vec<Action>,
    /// Only for an explanation.
    told: Option<explain::Told>,
}

impl Page {
    fn running(&self) -> Option<Action> {
        self.event.len().checked_sub(1).map(|action| action as Action)
    }
    fn is_known(&self, letter: u8, number: Number) -> bool {
        (letter, number) == (b'd', 0) || self.made.contains_key(&(letter, number))
    }
    fn maker(&self, letter: u8, number: Number) -> Option<Action> {
        self.made.get(&(letter, number)).map(|made| made.maker)
    }
    fn last(&self, of: Of, number: Number) -> Option<Action> {
        self.last.get(&(of, number, 0)).copied()
    }

    /// Why the record may not come next: the first cause of the table in docs/format.md.
    fn check(&self, record: &Record) -> Result<(), Cause> {
        let is_script = |kind: Kind| matches!(kind, Kind::Inline | Kind::Sync | Kind::Defer | Kind::Async);
        let causes: [(&dyn Fn() -> bool, Cause); 7] = [
            (&|| self.is_unknown(record), "unknown"),
            (&|| self.is_again(record), "again"),
            (&|| record.form == Exec && !is_script(self.elements[&record.numbers[0]].kind), "not-script"),
            (&|| self.is_misplaced(record), "misplaced"),
            (&|| self.is_out_of_order(record), "out-of-order"),
            (&|| record.form < New && self.event.len() == MOST_ACTIONS, "too-many-actions"),
            (&|| record.form == Inline && self.inline_depth == MOST_INLINE, "too-deep"),
        ];
        causes.iter().find(|(holds, _)| holds()).map_or(Ok(()), |(_, cause)| Err(cause))
    }

    fn is_unknown(&self, record: &Record) -> bool {
        let mut used = record.lettered().filter(|(letter, _)| letter.is_ascii_uppercase());
        used.any(|(letter, number)| !self.is_known(letter.to_ascii_lowercase(), number))
    }

    fn is_again(&self, record: &Record) -> bool {
        record.lettered().any(|(letter, number)| letter.is_ascii_lowercase() && self.is_known(letter, number))
            || matches!(record.kind, Kind::Frame(inner) if self.is_known(b'd', inner))
            || record.once().is_some_and(|(form, number)| self.last(Of::Once(form), number).is_some())
    }

    fn is_misplaced(&self, record: &Record) -> bool {
        let dispatch = record.numbers[0];
        let is_top = self.stack.last() == Some(&dispatch);
        match record.form {
            Run | Close => !is_top || self.dispatches[&dispatch].close.is_some(),
            Back => !is_top || self.dispatches[&dispatch].close.is_none(),
            Inline => !self.running().is_some_and(|action| self.may_call[self.event[action as usize] as usize]),
            Job => self.inline_depth > 0,
            _ if record.form < New => !self.stack.is_empty(),
            _ => self.running().is_none(),
        }
    }

    /// Whether a rule leads from the event that the record begins back to one that has begun.
    fn is_out_of_order(&self, record: &Record) -> bool {
        let [first, second, _] = record.numbers;
        match record.form {
            Parse => self.last(Of::DeferredRun, first).is_some() || self.is_loaded(first, &[Dcl, Load]),
            Exec => self.last(Of::Once(Eload), first).is_some() || self.is_late_script(first),
            Dcl => self.is_loaded(second, &[Load]),
            Run => second < self.dispatches[&first].group,
            _ => false,
        }
    }

    fn is_loaded(&self, document: Number, forms: &[Form]) -> bool {
        forms.iter().any(|&form| self.last(Of::Once(form), document).is_some())
    }

    fn is_late_script(&self, number: Number) -> bool {
        let e = &self.elements[&number];
        let made = Some(self.made[&(b'e', number)].piece);
        let (is_late, loads) = match e.kind {
            Kind::Async => (false, &[Load][..]),
            Kind::Defer => (self.last(Of::DeferredParse, e.document) > made, &[Dcl, Load][..]),
            _ => (self.last(Of::Parse, e.document) > made
                || self.last(Of::DeferredRun, e.document).is_some(), &[Dcl, Load][..]),
        };
        e.is_static && (is_late || self.is_loaded(e.document, loads))
    }

    /// The latest pieces of these events come before the action that begins.
    fn come_first(&mut self, events: impl IntoIterator<Item = Option<Action>>) {
        self.sources.extend(events.into_iter().flatten().map(|event| self.latest[event as usize]));
    }

    fn all_come_first(&mut self, of: Of, number: Number) {
        let events = self.all.get(&(of, number)).into_iter().flatten();
        self.sources.extend(events.map(|&event| self.latest[event as usize]));
    }
    /// Collects actions with edges to the one that begins, so that each other one has a path to one of them.
    fn collect(&mut self, record: &Record) {
        let [first, second, third] = record.numbers;
        self.sources.clear();
        match record.form {
            Parse => {
                self.come_first([self.maker(b'd', first)]);
                self.come_first([Of::Parse, Of::BlockingRun].map(|of| self.last(of, first)));
            }
            Exec => {
                self.come_first([self.maker(b'e', first)]);
                let e = &self.elements[&first];
                if e.is_static && e.kind == Kind::Defer {
                    self.come_first(self.parsed(e.document));
                }
            }
            Tick => {
                let last = self.last(Of::Tick, first);
                self.come_first([self.maker(b'i', first), last]);
                self.collect_jobs(self.made[&(b'i', first)].maker, last.unwrap_or(0));
            }
            Run => {
                self.come_first([self.maker(b'h', third)]);
                self.collect_runs(first, Some(second));
            }
            Close => {
                self.collect_runs(first, None);
                self.all_come_first(Of::Within, first);
            }
            Back => self.come_first([self.dispatches[&first].suspends, self.dispatches[&first].close]),
            Timer | Message | Anim | Job => self.collect_for_task(record),
            _ => self.collect_for_dispatch(record),
        }
    }

    /// The latest parse step, blocking run and deferred run of a document: rules 5 to 8 and 10.
    fn parsed(&self, document: Number) -> [Option<Action>; 3] {
        [Of::Parse, Of::BlockingRun, Of::DeferredRun].map(|of| self.last(of, document))
    }

    /// Rules 8 to 14, 17, 21 and 22.
    fn collect_for_dispatch(&mut self, record: &Record) {
        let target = record.numbers[1];
        let letter = record.pattern[1].to_ascii_lowercase();
        self.come_first([self.maker(letter, target)]);
        match record.form {
            Dcl | Load => {
                self.come_first(self.parsed(target));
                if record.form == Load {
                    self.come_first([self.last(Of::Close(Dcl), target)]);
                    self.all_come_first(Of::AsyncRuns, target);
                    self.all_come_first(Of::LoadCloses, target);
                }
            }
            Eload => {
                self.come_first([self.last(Of::Once(Exec), target)]);
                if let Kind::Frame(inner) = self.elements[&target].kind {
                    self.come_first([self.last(Of::Close(Load), inner)]);
                }
            }
            _ => {
                let place = self.place(record);
                self.come_first([self.last.get(&place).copied()]);
                if record.form == Inline {
                    self.sources.extend(self.running());
                }
            }
        }
    }

    fn place(&mut self, record: &Record) -> Key {
        let form = if record.form == Inline { Fire } else { record.form };
        let name = if record.name.is_empty() { 0 } else { number_of(&mut self.types, record.name) };
        (Of::Close(form), record.numbers[1], name)
    }

    /// Rule 16: what comes before a handler of that group, or before the close.
    fn collect_runs(&mut self, dispatch: Number, group: Option<Number>) {
        let p = &self.dispatches[&dispatch];
        let runs = if group == Some(p.group) { &p.runs_below } else { &p.runs };
        if runs.is_empty() {
            self.sources.push(p.begin);
        }
        self.sources.extend(runs.iter().map(|&event| self.latest[event as usize]));
    }

    fn task(&self, record: &Record) -> Made {
        self.made[&(record.pattern[0].to_ascii_lowercase(), record.numbers[0])]
    }

    /// Rules 18, 19 and 24 to 30.
    fn collect_for_task(&mut self, record: &Record) {
        let (form, task) = (record.form, self.task(record));
        self.come_first([Some(task.maker)]);
        let leads = |one: &Made| match self.version {
            1 => one.maker == task.maker,
            _ => self.clocks.joins(one.piece, task.piece),
        };
        let mut left = self.begun.get(&form).map_or(&[][..], |list| list);
        while let Some((one, rest)) = left.split_last() {
            let passed = if one.task.order > task.order {
                one.later
            } else if one.task.delay > task.delay {
                one.slower
            } else if leads(&one.task) {
                self.sources.push(self.latest[one.event as usize]);
                one.before
            } else {
                0
            };
            left = &rest[..rest.len() - passed as usize];
        }
        if form != Job {
            self.collect_jobs(task.maker, 0);
        }
    }

    /// Rule 30: the jobs that the event queued and that have begun, from that action on.
    fn collect_jobs(&mut self, maker: Action, from: Action) {
        let jobs = self.all.get(&(Of::Queued, maker)).into_iter().flatten().rev();
        self.sources.extend(jobs.take_while(|&&job| job >= from).map(|&job| self.latest[job as usize]));
    }

    fn accept(&mut self, record: &Record) {
        if record.form < New {
            self.collect(record);
            self.clocks.push(&mut self.sources);
            if let Some(told) = &mut self.told {
                told.note(record, &self.stack);
                told.links.push(self.clocks.last_links.clone());
            }
            self.begin(record);
        }
        let piece = self.event.len() as Action - 1;
        let maker = self.event[piece as usize];
        let made = Made { maker, piece, order: self.made.len(), delay: record.numbers[1] };
        for (letter, number) in record.lettered().filter(|(letter, _)| letter.is_ascii_lowercase()) {
            self.made.insert((letter, number), made);
        }
        if let (Parse | New, [document, element, _]) = (record.form, record.numbers) {
            let is_static = record.form == Parse;
            self.elements.insert(element, Element { document, kind: record.kind, is_static });
            if let Kind::Frame(inner) = record.kind {
                self.made.insert((b'd', inner), made);
            }
        }
    }

    fn begin(&mut self, record: &Record) {
        let action = self.event.len() as Action;
        let number = record.numbers[0];
        let resumed = if record.form == Back { self.dispatches[&number].suspends } else { None };
        let event = resumed.unwrap_or(action);
        self.event.push(event);
        self.latest.push(action);
        self.latest[event as usize] = action;
        self.may_call.push(!matches!(record.form, Parse | Dcl | Load | Eload | Fire | Wfire | Reply | Inline));
        self.last.extend(record.once().map(|(form, number)| ((Of::Once(form), number, 0), action)));
        match record.form {
            Parse => drop(self.last.insert((Of::Parse, number, 0), action)),
            Exec => self.run_script(number, action),
            Tick => drop(self.last.insert((Of::Tick, number, 0), action)),
            Run => self.run_handler(number, record.numbers[1], action),
            Close => self.close(number, action),
            Back => {
                self.stack.pop();
                self.inline_depth -= 1;
                let place = self.place_of_close.get(&event);
                self.last.extend(place.map(|&place| (place, event)));
            }
            Timer | Message | Anim | Job => self.start(record, action),
            _ => self.begin_dispatch(record, action),
        }
    }

    fn run_script(&mut self, element: Number, action: Action) {
        let &Element { document, kind, is_static } = &self.elements[&element];
        let made = self.made[&(b'e', element)].piece;
        match kind {
            Kind::Async if is_static => self.all.entry((Of::AsyncRuns, document)).or_default().push(action),
            Kind::Async => {}
            Kind::Defer => {
                self.last.insert((Of::DeferredRun, document, 0), action);
                self.last.insert((Of::DeferredParse, document, 0), made);
            }
            _ => drop(self.last.insert((Of::BlockingRun, document, 0), action)),
        }
    }

    fn run_handler(&mut self, dispatch: Number, group: Number, action: Action) {
        let p = self.dispatches.get_mut(&dispatch).unwrap();
        if group != p.group {
            p.runs_below = std::mem::take(&mut p.runs);
        }
        p.group = group;
        p.runs.push(action);
    }

    fn begin_dispatch(&mut self, record: &Record, begin: Action) {
        let is_inline = record.form == Inline;
        self.inline_depth += is_inline as usize;
        let suspends = is_inline.then(|| self.event[begin as usize - 1]);
        let (runs, runs_below) = (Vec::new(), Vec::new());
        let place = self.place(record);
        let new = Dispatch { place, begin, suspends, group: 0, runs, runs_below, close: None };
        self.dispatches.insert(record.numbers[0], new);
        self.stack.push(record.numbers[0]);
    }

    fn close(&mut self, number: Number, action: Action) {
        let p = self.dispatches.get_mut(&number).unwrap();
        p.close = Some(action);
        self.last.insert(p.place, action);
        self.place_of_close.insert(action, p.place);
        if p.place.0 == Of::Close(Eload) {
            let e = &self.elements[&p.place.1];
            if e.is_static && e.kind != Kind::Plain {
                self.all.entry((Of::LoadCloses, e.document)).or_default().push(action);
            }
        }
        if p.suspends.is_none() {
            self.stack.pop();
        }
    }

    fn start(&mut self, record: &Record, event: Action) {
        let (form, task) = (record.form, self.task(record));
        if form == Job {
            self.all.entry((Of::Queued, task.maker)).or_default().push(event);
            if let Some(&top) = self.stack.last() {
                self.all.entry((Of::Within, top)).or_default().push(event);
            }
        }
        let list = self.begun.entry(form).or_default();
        let joins = |one: &Begun| self.clocks.joins(self.latest[one.event as usize], event);
        let before = length_of_run(list, joins, |one| one.before);
        let later = length_of_run(list, |one| one.task.order >= task.order, |one| one.later);
        let slower = length_of_run(list, |one| one.task.delay >= task.delay, |one| one.slower);
        list.push(Begun { task, event, before, later, slower });
    }
}

/// How many at the end of a list are of a kind; with one that is, so are those of its own run.
fn length_of_run(list: &[Begun], is_so: impl Fn(&Begun) -> bool, run: fn(&Begun) -> u32) -> u32 {
    let mut at = list.len();
    while at > 0 && is_so(&list[at - 1]) {
        at -= 1 + run(&list[at - 1]) as usize;
    }
    (list.len() - at) as u32
}

// ---------------------------------------------------------------- accesses
struct Access { line: u32, action: Action, location: u32, writes: bool }

/// Of a location: the last action that read it and that wrote it, plus one; how many reads and writes are kept.
#[derive(Default, Clone)]
struct Touched { last: [Action; 2], count: [u32; 2] }

#[derive(Default)]
struct Accesses {
    locations: Texts, touched: Vec<Touched>, kept: Vec<Access>, pairs: u64,
    /// The location that was asked for last, and its number.
    asked: Vec<u8>, answered: u32,
}

impl Accesses {
    fn location(&mut self, spelled: &[u8]) -> u32 {
        if self.asked != spelled {
            self.answered = number_of(&mut self.locations, spelled);
            self.touched.resize(self.locations.len(), Touched::default());
            self.asked.clear();
            self.asked.extend_from_slice(spelled);
        }
        self.answered
    }

    /// Keeps an access that repeats none of its action.
    fn add(&mut self, line: u32, action: Action, writes: bool, spelled: &[u8]) -> Result<(), Cause> {
        let location = self.location(spelled);
        let touched = &mut self.touched[location as usize];
        if touched.last[writes as usize] == action + 1 {
            return Ok(());
        }
        if self.kept.len() == MOST_ACCESSES {
            return Err("too-many-accesses");
        }
        let others = |mode: usize| u64::from(touched.count[mode]) - u64::from(touched.last[mode] == action + 1);
        self.pairs += others(1) + if writes { others(0) } else { 0 };
        touched.last[writes as usize] = action + 1;
        touched.count[writes as usize] += 1;
        self.kept.push(Access { line, action, location, writes });
        Ok(())
    }

    /// The candidate pairs that no path joins, by their numbers among the kept accesses.
    fn races(&self, clocks: &Clocks) -> Result<Vec<(u32, u32)>, Cause> {
        let mut lists = vec![Vec::new(); self.touched.len()];
        for (number, access) in self.kept.iter().enumerate() {
            let [reads, writes] = self.touched[access.location as usize].count;
            if writes > 0 && reads + writes > 1 {
                lists[access.location as usize].push(number as u32);
            }
        }
        let mut races = Vec::new();
        for list in lists {
            let writes: Vec<u32> = list.iter().copied().filter(|&number| self.kept[number as usize].writes).collect();
            for &second in &list {
                let y = &self.kept[second as usize];
                let earlier = if y.writes { &list } else { &writes };
                for &first in earlier.iter().take_while(|&&first| first < second) {
                    if !clocks.joins(self.kept[first as usize].action, y.action) {
                        races.push((first, second));
                    }
                }
                if races.len() > MOST_RACES {
                    return Err("too-many-races");
                }
            }
        }
        races.sort_unstable();
        Ok(races)
    }
}

// ---------------------------------------------------------------- groups
type Class = (Action, Action);

/// The classes that no other covers. What covers one has no lesser first action, and no greater second one.
fn maximal(clocks: &Clocks, classes: &[Class]) -> Vec<usize> {
    let mut order: Vec<usize> = (0..classes.len()).collect();
    order.sort_unstable_by_key(|&class| (std::cmp::Reverse(classes[class].0), classes[class].1));
    let mut found: Vec<(Class, usize)> = Vec::new();
    // the second actions of those found to whose first action a path leads from x
    let (mut reached, mut last) = (Vec::new(), None);
    for class in order {
        let (x, y) = classes[class];
        if last.replace(x) != Some(x) {
            reached = found.iter().filter(|((a, _), _)| clocks.joins(x, *a)).map(|((_, b), _)| *b).collect();
        }
        if !reached.iter().any(|&b| clocks.joins(b, y)) {
            found.push((classes[class], class));
            reached.push(y);
        }
    }
    found.sort_unstable_by_key(|&(_, class)| class);
    found.iter().map(|&(_, class)| class).collect()
}

/// For each race the group that it names, and for each group its first race and its size.
fn group(clocks: &Clocks, pairs: &[Class]) -> Result<(Vec<usize>, Vec<(usize, usize)>), Cause> {
    let (mut numbers, mut classes, mut firsts, mut class_of) = (Table::default(), vec![], vec![], vec![]);
    for (race, &pair) in pairs.iter().enumerate() {
        let class: usize = *numbers.entry(pair).or_insert(classes.len());
        if class == classes.len() {
            classes.push(pair);
            firsts.push(race);
        }
        class_of.push(class);
    }
    if classes.len() > MOST_CLASSES {
        return Err("too-many-classes");
    }
    let heads = maximal(clocks, &classes);
    let covers = |(a, b): Class, (x, y): Class| clocks.joins(x, a) && clocks.joins(b, y);
    let covering = |class: usize| heads.iter().position(|&head| covers(classes[head], classes[class])).unwrap();
    let named = |class: usize| heads.binary_search(&class).unwrap_or_else(|_| covering(class));
    let group_of: Vec<usize> = (0..classes.len()).map(named).collect();
    let mut groups: Vec<(usize, usize)> = heads.iter().map(|&head| (firsts[head], 0)).collect();
    let named: Vec<usize> = class_of.iter().map(|&class| group_of[class]).collect();
    named.iter().for_each(|&group| groups[group].1 += 1);
    Ok((named, groups))
}

// ---------------------------------------------------------------- reading
/// Why there is no report: the line that is refused and its cause, or a read or a write that failed.
enum Stop { Refused(usize, Cause), ReadFault, WriteFault }

impl From<io::Error> for Stop {
    fn from(_: io::Error) -> Self {
        Stop::WriteFault
    }
}

/// The lines of an input that is read as it comes, with the line read last, without its LF, and its number.
/// A line of JSON is made a line of text, and `are_numbers` says which of its tokens are numbers.
struct Lines<R> { input: R, line: Vec<u8>, number: usize, of_json: bool, are_numbers: Vec<bool> }

impl<R: BufRead> Lines<R> {
    fn refuse(&self, cause: Cause) -> Stop {
        Stop::Refused(self.number, cause)
    }

    fn is_at_end(&mut self) -> Result<bool, Stop> {
        Ok(self.input.fill_buf().map_err(|_| Stop::ReadFault)?.is_empty())
    }

    fn next(&mut self) -> Result<(), Stop> {
        let most = if self.of_json { MOST_JSON_BYTES } else { MOST_LINE_BYTES };
        self.number += 1;
        if self.number > MOST_LINES && !self.is_at_end()? {
            return Err(self.refuse("too-many-lines"));
        }
        self.line.clear();
        let mut front = (&mut self.input).take(most as u64 + 1);
        front.read_until(b'\n', &mut self.line).map_err(|_| Stop::ReadFault)?;
        match self.line.pop() {
            Some(b'\n') => {}
            Some(_) if self.line.len() == most => return Err(self.refuse("long-line")),
            _ => return Err(self.refuse("no-end")),
        }
        if self.of_json {
            (self.line, self.are_numbers) = json_lines::text_of(&self.line);
        }
        Ok(())
    }

    fn tokens(&self) -> Tokens<'_> {
        Tokens { rest: Some(&self.line), are_numbers: self.of_json.then_some(&self.are_numbers) }
    }
}

/// What a report contains.
struct Judged {
    page: Page, accesses: Accesses, races: Vec<(u32, u32)>, named: Vec<usize>, groups: Vec<(usize, usize)>,
}

/// Reads a trace to its end, and answers by `find`.
fn read<T>(
    input: impl BufRead, of_json: bool, told: Option<explain::Told>, find: impl FnOnce(Page, Accesses) -> Result<T, Cause>,
) -> Result<T, Stop> {
    let mut lines = Lines { input, line: Vec::new(), number: 0, of_json, are_numbers: Vec::new() };
    lines.next()?;
    let newest = if of_json { 2 } else { 3 };
    let is_of = |version: &Number| lines.tokens().are(b"webtrace", Some(*version));
    let version = (1..=newest).find(is_of).ok_or(lines.refuse("bad-header"))? as usize;
    let mut page = Page { version, told, ..Page::default() };
    let mut accesses = Accesses::default();
    lines.next()?;
    while !lines.tokens().are(b"end", None) {
        let taken = take(lines.tokens(), lines.number as u32, &mut page, &mut accesses);
        taken.map_err(|cause| lines.refuse(cause))?;
        lines.next()?;
    }
    let found = find(page, accesses).map_err(|cause| lines.refuse(cause))?;
    if lines.is_at_end()? { Ok(found) } else { Err(Stop::Refused(lines.number + 1, "after-end")) }
}

fn take(line: Tokens<'_>, number: u32, page: &mut Page, accesses: &mut Accesses) -> Result<(), Cause> {
    if let Some((writes, location)) = access_of(line) {
        return accesses.add(number, page.running().ok_or("misplaced")?, writes, location);
    }
    let record = record_of(line, page.version).ok_or("bad-record")?;
    page.check(&record)?;
    page.accept(&record);
    Ok(())
}

fn judge(page: Page, accesses: Accesses) -> Result<Judged, Cause> {
    if accesses.pairs > MOST_PAIRS {
        return Err("too-many-pairs");
    }
    let races = accesses.races(&page.clocks)?;
    let action = |number: u32| accesses.kept[number as usize].action;
    let pairs: Vec<Class> = races.iter().map(|&(first, second)| (action(first), action(second))).collect();
    let (named, groups) = group(&page.clocks, &pairs)?;
    Ok(Judged { page, accesses, races, named, groups })
}

// ---------------------------------------------------------------- the report
fn mode_of(access: &Access) -> char {
    if access.writes { 'w' } else { 'r' }
}

/// The locations by their numbers.
fn spelled_locations(accesses: &Accesses) -> Vec<&[u8]> {
    let mut spelled: Vec<&[u8]> = vec![b""; accesses.locations.len()];
    for (text, &number) in &accesses.locations {
        spelled[number as usize] = text;
    }
    spelled
}

fn write_races(judged: &Judged, out: &mut impl Write) -> io::Result<()> {
    let spelled = spelled_locations(&judged.accesses);
    writeln!(out, "report 1")?;
    for (race, &(first, second)) in judged.races.iter().enumerate() {
        let (x, y) = (&judged.accesses.kept[first as usize], &judged.accesses.kept[second as usize]);
        write!(out, "race {} {} {} {}{} ", race + 1, x.line, y.line, mode_of(x), mode_of(y))?;
        write!(out, "{} {} ", x.action, y.action)?;
        out.write_all(spelled[x.location as usize])?;
        out.write_all(b"\n")?;
    }
    for (race, group) in judged.named.iter().enumerate() {
        writeln!(out, "cover {} {}", race + 1, group + 1)?;
    }
    Ok(())
}

fn write_counts(judged: &Judged, out: &mut impl Write) -> io::Result<()> {
    for (group, (first, size)) in judged.groups.iter().enumerate() {
        writeln!(out, "group {} {} {}", group + 1, first + 1, size)?;
    }
    let (page, accesses) = (&judged.page, &judged.accesses);
    writeln!(out, "actions {}\naccesses {}\npairs {}", page.event.len(), accesses.kept.len(), accesses.pairs)?;
    writeln!(out, "races {}\ngroups {}", judged.races.len(), judged.groups.len())?;
    writeln!(out, "chains {}\nlinks {}\nend", page.clocks.lengths.len(), page.clocks.links)
}

/// The generated trace of that many rounds: docs/report.md, "Arguments".
fn generated(rounds: u32) -> String {
    let mut text = String::from("webtrace 1\nparse 0 1 inline\nexec 1\non 1\non 2\nset 1 1\nset 2 0\n");
    for k in 1..=rounds {
        let (e, p, q) = (k + 1, 2 * k - 1, 2 * k);
        text += &format!("parse 0 {e} plain\nw var 0 a\nfire {p} 1 click\nrun {p} 0 1\nw var 0 b\n");
        text += &format!("inline {q} 1 focus\nrun {q} 0 2\nr var 0 b\nclose {q}\nback {q}\nw var 0 b\nclose {p}\n");
    }
    text + "timer 2\nw var 0 a\ntimer 1\nr var 0 a\nend\n"
}

/// Writes the answer, and returns the status: docs/report.md, "Status".
fn answer(command: &Command, out: &mut impl Write) -> Result<i32, Stop> {
    let input = io::stdin().lock();
    let is_racy = |judged: &Judged| !judged.races.is_empty() as i32;
    match *command {
        Command::Check { json, of_json } => {
            let judged = read(input, of_json, None, judge)?;
            if json {
                json::write_report(&judged, out)?;
            } else {
                write_races(&judged, out)?;
                write_counts(&judged, out)?;
            }
            Ok(is_racy(&judged))
        }
        Command::Gen { rounds } => {
            let judged = read(generated(rounds).as_bytes(), false, None, judge)?;
            writeln!(out, "generated {rounds}")?;
            write_counts(&judged, out)?;
            Ok(is_racy(&judged))
        }
        Command::Schedule { race } => {
            let orders = read(input, false, None, |page, accesses| schedule::find(page, accesses, race as usize))?;
            schedule::write(&orders, out)?;
            Ok(1)
        }
        Command::Explain { from, to } => {
            let found = read(input, false, Some(explain::Told::default()), |page, _| explain::find(&page, from, to))?;
            explain::write(&found, out)?;
            Ok(0)
        }
    }
}

/// The same, with the line of a refusal.
fn run(command: &Command, out: &mut impl Write) -> Result<i32, Stop> {
    let status = match answer(command, out) {
        Err(Stop::Refused(line, cause)) if command.is_json() => {
            json::write_refusal(line, cause, out)?;
            3
        }
        Err(Stop::Refused(line, cause)) => {
            writeln!(out, "refused {line} {cause}")?;
            3
        }
        other => other?,
    };
    out.flush()?;
    Ok(status)
}

/// Prints why there is no answer, and ends.
fn fail(status: i32, line: &str) -> ! {
    // where standard error is closed, only the status says it
    let _ = writeln!(io::stderr(), "{line}");
    exit(status)
}

fn main() {
    let arguments: Result<Vec<String>, _> = std::env::args_os().skip(1).map(|argument| argument.into_string()).collect();
    let Ok(arguments) = arguments else { fail(7, "er_cli: arguments could not be read") };
    let Some(command) = arguments::command_of(&arguments) else { fail(2, arguments::USAGE) };
    match run(&command, &mut BufWriter::new(io::stdout().lock())) {
        Ok(status) => exit(status),
        Err(Stop::ReadFault) => fail(4, "er_cli: input could not be read"),
        Err(_) => fail(5, "er_cli: output could not be written"),
    }
}
