//! Demand 3 on the compiled library: a series of calls and steps, or moves, in two orders.

use crate::books::Book;
use crate::case::{hex, Track};
use crate::hostile::damaged;
use crate::random::Random;
use crate::requests::writing;
use crate::sides::{is_live, ours, Answer, Request};
use logbook::raw;

/// How the reading of a series goes.
#[derive(Clone, Copy, PartialEq, Debug)]
pub enum Pace {
    /// By steps.
    Steps,
    /// Slowly, by moves. Where the premise of 02 [9] is kept, no call stores in a record whose type
    /// is taken and whose data isn't, by a wipe.
    Moves { premise: bool },
}

/// One event of a series. A step, or a move, is one of the series' own reading.
#[derive(Clone, Debug)]
pub enum Event {
    /// A step, or a move.
    Step,
    /// Any other call, with its request.
    Call(Request),
}

/// Where an event goes in the other order.
#[derive(Clone, Copy, PartialEq, Debug)]
pub enum Sort {
    /// Before the reading.
    Early,
    /// A step up to the first end.
    Reading,
    /// Behind the reading.
    Late,
}

/// Where the reading of a series stands.
#[derive(Clone, Copy, Debug)]
pub struct Stand {
    /// Its position.
    pub position: usize,
    /// It is a slow one and holds the size of the record there.
    pub sized: bool,
    /// It holds the type too.
    pub typed: bool,
}

/// Sorts an event by where the reading stands at it, and whether its first end has come.
pub type Sorter = fn(&Event, Stand, bool) -> Sort;

/// 00, demand 3: until the first end a step reads, an erase or wipe aimed at
/// a passed place is late, every other call is early; then all is late. With 02 [9] the
/// position itself is passed once the type there is taken.
pub fn as_demanded(event: &Event, stand: Stand, ended: bool) -> Sort {
    match event {
        _ if ended => Sort::Late,
        Event::Step => Sort::Reading,
        Event::Call(Request::Erase { place } | Request::Wipe { place, .. })
            if *place < stand.position || stand.typed && *place == stand.position =>
        {
            Sort::Late
        }
        Event::Call(_) => Sort::Early,
    }
}

/// A buffer of the library alone.
#[derive(Clone)]
struct State {
    pace: Pace,
    buf: Box<[u8]>,
    track: Track,
}

impl State {
    fn stand(&self) -> Stand {
        let slow = &self.track.slow;
        match self.pace {
            Pace::Steps => Stand {
                position: self.track.reading.position,
                sized: false,
                typed: false,
            },
            Pace::Moves { .. } => Stand {
                position: slow.reading.position,
                sized: slow.type_place != 0,
                typed: slow.number != 0,
            },
        }
    }

    /// Whether 02 [9]'s premise shuts the call out: a wipe that stores in a record whose type
    /// is taken and whose data isn't.
    fn is_shut_out(&self, request: &Request) -> bool {
        let stand = self.stand();
        match request {
            Request::Wipe { place, .. } if stand.typed && *place == stand.position => {
                let mut buf = self.buf.clone();
                ours(&mut buf, self.track.used, request);
                buf != self.buf
            }
            _ => false,
        }
    }

    fn take(&mut self, event: &Event) -> Answer {
        let step = match self.pace {
            Pace::Steps => Request::Step {
                reading: Box::new(self.track.reading),
            },
            Pace::Moves { .. } => Request::Move {
                slow: Box::new(self.track.slow),
            },
        };
        let request = match event {
            Event::Step => &step,
            Event::Call(request) => request,
        };
        let answer = ours(&mut self.buf, self.track.used, request);
        self.track.take(request, &answer);
        answer
    }

    /// The reading's steps from here to its end, which none of them may refuse.
    fn read_to_end(&mut self) -> Result<Vec<Answer>, String> {
        let mut list = Vec::new();
        loop {
            let answer = self.take(&Event::Step);
            let kind = kind_of(&answer);
            list.push(answer);
            match kind {
                Some(raw::END) => return Ok(list),
                Some(raw::REFUSED) => return Err(format!("refused: {:?}", list.last())),
                _ => {}
            }
        }
    }
}

/// The kind of a step's or a move's item.
fn kind_of(answer: &Answer) -> Option<usize> {
    match answer {
        Answer::Stepped { step, .. } => Some(step.item.kind),
        Answer::Moved { moved, .. } => Some(moved.item.kind),
        _ => None,
    }
}

/// A live entry that a move shows, with the bytes of its URI and data.
type Line<'a> = (&'a raw::Item, &'a [u8], &'a [u8]);

/// The live entries among the answers: the list of a slow reading.
fn lines<'a>(answers: impl Iterator<Item = &'a Answer>) -> Vec<Line<'a>> {
    answers
        .filter_map(|answer| match answer {
            Answer::Moved { moved, uri, data } if is_live(&moved.item) => {
                Some((&moved.item, &uri[..], &data[..]))
            }
            _ => None,
        })
        .collect()
}

/// A series as it came, with all that was answered.
pub struct Series {
    name: String,
    before: State,
    events: Vec<Event>,
    /// Where the reading stands at each event.
    stands: Vec<Stand>,
    answers: Vec<Answer>,
    /// Which event brought the first end.
    end: Option<usize>,
    after: State,
}

/// What the series of a run were.
#[derive(Clone, Copy, Default, Debug)]
pub struct Counts {
    /// Series run in both orders.
    pub series: u64,
    /// Series whose reading came to its end.
    pub ended: u64,
    /// Events in all.
    pub events: u64,
    /// Calls that went early.
    pub early: u64,
    /// Calls and steps that went late.
    pub late: u64,
    /// Calls that were refused.
    pub refused: u64,
    /// Erases and wipes done at a place that the reading had passed, before its end.
    pub passed: u64,
    /// Erases and wipes done to a record of which a slow reading held the size alone.
    pub sized: u64,
    /// Erases done to a record of which a slow reading held the type.
    pub typed: u64,
}

impl Counts {
    /// Takes over what another one counted.
    pub fn join(&mut self, other: Counts) {
        self.series += other.series;
        self.ended += other.ended;
        self.events += other.events;
        self.early += other.early;
        self.late += other.late;
        self.refused += other.refused;
        self.passed += other.passed;
        self.sized += other.sized;
        self.typed += other.typed;
    }
}

impl Series {
    /// A series of 5 to 60 events, by moves 10 to 120, over a logbook that reads to its end, run as
    /// it comes.
    pub fn draw(pace: Pace, seed: u64, round: usize) -> Series {
        let random = &mut Random::new(seed, round);
        let before = readable(random, pace);
        let mut series = Series {
            name: format!("series by {pace:?}, seed {seed}, round {round}"),
            after: before.clone(),
            before,
            events: Vec::new(),
            stands: Vec::new(),
            answers: Vec::new(),
            end: None,
        };
        let often = random.pick(&[15, 40, 60, 85]);
        let events = match pace {
            Pace::Steps => random.between(5, 60),
            Pace::Moves { .. } => random.between(10, 120),
        };
        for _ in 0..events {
            let event = match random.below(100) {
                chance if chance < often => Event::Step,
                _ => Event::Call(series.call(random)),
            };
            series.run(event);
        }
        series
    }

    /// The next call: any but what the premise shuts out; among moves often one that is aimed at the
    /// record in work.
    fn call(&self, random: &mut Random) -> Request {
        let state = &self.after;
        let stand = state.stand();
        let request = match stand.sized && random.one_in(2) {
            true => aimed(random, stand.position),
            false => writing(random, &state.track),
        };
        let premise = state.pace == Pace::Moves { premise: true };
        match premise && self.end.is_none() && state.is_shut_out(&request) {
            true => self.call(random),
            false => request,
        }
    }

    fn run(&mut self, event: Event) {
        self.stands.push(self.after.stand());
        let answer = self.after.take(&event);
        if self.end.is_none() && kind_of(&answer) == Some(raw::END) {
            self.end = Some(self.events.len());
        }
        self.events.push(event);
        self.answers.push(answer);
    }

    /// How each event is sorted.
    fn sorts(&self, sorter: Sorter) -> Vec<Sort> {
        let ended = |index| self.end.is_some_and(|end| index > end);
        let events = self.events.iter().zip(&self.stands).enumerate();
        events
            .map(|(index, (event, &stand))| sorter(event, stand, ended(index)))
            .collect()
    }

    /// Runs the other order and compares list, answers, final bytes and used length.
    pub fn compare(&self, sorter: Sorter) -> Result<(), String> {
        let sorts = self.sorts(sorter);
        let mut state = self.before.clone();
        self.run_sorted(&mut state, &sorts, Sort::Early)?;
        let list = state.read_to_end()?;
        self.compare_list(&list, &sorts)?;
        self.run_sorted(&mut state, &sorts, Sort::Late)?;
        if state.track.used != self.after.track.used {
            return Err(format!("used length: {}", state.track.used));
        }
        if state.buf != self.after.buf {
            return Err(format!("final bytes: {}", hex(&state.buf)));
        }
        Ok(())
    }

    /// The calls that were sorted so, in their order.
    fn run_sorted(&self, state: &mut State, sorts: &[Sort], sort: Sort) -> Result<(), String> {
        for index in (0..sorts.len()).filter(|&index| sorts[index] == sort) {
            let answer = state.take(&self.events[index]);
            if answer != self.answers[index] {
                return Err(format!("answer of event {index}, {sort:?}: {answer:?}"));
            }
        }
        Ok(())
    }

    /// The steps up to the first end against those of the undisturbed reading;
    /// where no end came, against the beginning of these. Of moves, the live entries.
    fn compare_list(&self, list: &[Answer], sorts: &[Sort]) -> Result<(), String> {
        let steps: Vec<usize> = (0..sorts.len())
            .filter(|&index| sorts[index] == Sort::Reading)
            .collect();
        if self.before.pace != Pace::Steps {
            return self.compare_lines(list, &steps);
        }
        if steps.len() > list.len() || (self.end.is_some() && steps.len() != list.len()) {
            return Err(format!("the list has {} items", list.len()));
        }
        for (item, &index) in list.iter().zip(&steps) {
            if *item != self.answers[index] {
                return Err(format!("answer of the step {index}: {item:?}"));
            }
        }
        Ok(())
    }

    /// The live entries of these moves, none of which may be refused, against those of the list.
    fn compare_lines(&self, list: &[Answer], moves: &[usize]) -> Result<(), String> {
        let answers = || moves.iter().map(|&index| &self.answers[index]);
        if let Some(refused) = answers().find(|answer| kind_of(answer) == Some(raw::REFUSED)) {
            return Err(format!("a move is refused: {refused:?}"));
        }
        let (here, whole) = (lines(answers()), lines(list.iter()));
        let same = match self.end {
            Some(_) => here == whole,
            None => whole.starts_with(&here),
        };
        match same {
            true => Ok(()),
            false => Err(format!("the list is {whole:?}, here {here:?}")),
        }
    }

    /// Compares both orders as demanded; a difference is printed whole and ends the run.
    pub fn check(&self, counts: &mut Counts) {
        if let Err(difference) = self.compare(as_demanded) {
            eprintln!("{}: the two orders differ: {difference}", self.name);
            eprintln!("used length: {}", self.before.track.used);
            eprintln!("buffer: {}", hex(&self.before.buf));
            for (event, answer) in self.events.iter().zip(&self.answers) {
                eprintln!("{event:?}\n    {answer:?}");
            }
            eprintln!("final bytes: {}", hex(&self.after.buf));
            panic!("{}: the two orders differ", self.name);
        }
        self.count(counts);
    }

    fn count(&self, counts: &mut Counts) {
        counts.series += 1;
        counts.ended += u64::from(self.end.is_some());
        counts.events += self.events.len() as u64;
        for (index, sort) in self.sorts(as_demanded).into_iter().enumerate() {
            let refused = self.answers[index].column(0) != 0;
            let ended = self.end.is_some_and(|end| index > end);
            counts.early += u64::from(sort == Sort::Early);
            counts.late += u64::from(sort == Sort::Late);
            counts.refused += u64::from(refused);
            counts.passed += u64::from(sort == Sort::Late && !ended && !refused);
            let stand = self.stands[index];
            let aimed = match &self.events[index] {
                Event::Call(Request::Erase { place } | Request::Wipe { place, .. }) => {
                    *place == stand.position && !ended && !refused
                }
                _ => false,
            };
            counts.sized += u64::from(aimed && stand.sized && !stand.typed);
            counts.typed += u64::from(aimed && stand.typed);
        }
    }
}

/// An erase or a wipe of the record at a place, or of one that doesn't start there.
fn aimed(random: &mut Random, place: usize) -> Request {
    let place = match random.below(8) {
        0 => place + random.between(1, 6),
        _ => place,
    };
    match random.below(3) {
        0 => Request::Erase { place },
        _ => Request::Wipe {
            place,
            limit: random.pick(&[0, 1, 1, 1, 2, 5, usize::MAX]),
        },
    }
}

/// A logbook that reads to its end, a damaged one at times, with room behind it.
fn readable(random: &mut Random, pace: Pace) -> State {
    let items = random.below(14);
    let book = match random.below(4) {
        0 => damaged(random, items),
        _ => Book::grown(random, items),
    };
    let slack = random.pick(&[0, 10, 60, 300, 1_000]);
    let state = State {
        pace,
        buf: [book.bytes.clone(), random.bytes(slack)].concat().into(),
        track: Track::new(book.bytes.len(), book.places),
    };
    match state.clone().read_to_end() {
        Ok(_) => state,
        Err(_) => readable(random, pace),
    }
}
