//! What `bench_calls` does, in plain Rust, as a mark to measure it against:
//! `plain_load KIND EVENTS`.
//!
//! Steps a store with limits through about so many events, which a small generator
//! makes, and prints what has become of it, byte for byte as bench_calls does. It goes
//! the same way: it keeps how far each change moved its object beside the change, it
//! finds the weight of a span by adding these up over the log, and at each settlement
//! it tests the limits of each site one by one, in their order. What the span weighs on
//! all objects is found first: a limit of that much is kept without a sum of its own.

mod random;

use random::Random;
use std::env;
use std::process::ExitCode;

const LARGEST_VALUE: i64 = 1_000_000_000;
const LARGEST_AMOUNT: u64 = 1_000_000_000_000_000_000;
const MOST_UPDATES: usize = 1_000_000;

const OBJECTS: usize = 16;
const SITES: usize = 4;
const CAPACITY: usize = 4;
/// The site that seldom reports where the load is `lagging`.
const LAGGING_SITE: usize = 3;
/// That site reports after every so many updates.
const UPDATES_UNREPORTED: usize = 1000;

#[derive(Debug)]
enum Refusal {
    OutOfRange,
    LogFull,
    NothingToSend,
    FeedFull,
    NothingToApply,
    NothingToSettle,
}

#[derive(Clone, Copy)]
enum Operation {
    Add(i64),
    Set(i64),
}

impl Operation {
    fn on(self, value: i64) -> i64 {
        match self {
            Operation::Add(amount) => value + amount,
            Operation::Set(amount) => amount,
        }
    }
}

struct Change {
    object: usize,
    operation: Operation,
    /// How far it moved its object's value when it was proposed.
    distance: u64,
}

/// What a weight is taken on.
#[derive(Clone, Copy)]
enum Scope {
    Object(usize),
    Group(usize),
    All,
    Count,
}

struct Update {
    changes: Vec<Change>,
}

impl Update {
    fn weight(&self, scope: Scope, groups: &[Vec<usize>]) -> u64 {
        match scope {
            Scope::Object(object) => self.distance_of(object),
            Scope::Group(group) => groups[group].iter().map(|&object| self.distance_of(object)).sum(),
            Scope::All => self.changes.iter().map(|change| change.distance).sum(),
            Scope::Count => 1,
        }
    }

    fn distance_of(&self, object: usize) -> u64 {
        let change = self.changes.iter().find(|change| change.object == object);
        change.map_or(0, |change| change.distance)
    }
}

struct Limit {
    scope: Scope,
    amount: u64,
}

struct Site {
    limits: Vec<Limit>,
    sent: usize,
    applied: usize,
    reported: usize,
    /// What it had reported when each update was decided.
    reports: Vec<usize>,
    /// The updates at which it had a forced round.
    rounds: Vec<usize>,
    values: Vec<i64>,
}

enum Event {
    Propose(usize, Operation),
    Send(usize),
    Apply(usize),
    Report(usize),
    Settle,
}

enum Answer {
    Done,
    /// The head is not acknowledged: these sites have a forced round at it.
    Round(Vec<usize>),
    /// The head is not acknowledged: a site of its forced round has still to report.
    Waiting,
}

struct World {
    groups: Vec<Vec<usize>>,
    /// The objects' values at the end of the log.
    values: Vec<i64>,
    log: Vec<Update>,
    sites: Vec<Site>,
    acknowledged: usize,
    decided: usize,
}

impl World {
    fn step(&mut self, event: Event) -> Result<Answer, Refusal> {
        match event {
            Event::Propose(object, operation) => self.propose(object, operation),
            Event::Send(site) => self.send(site),
            Event::Apply(site) => self.apply(site),
            Event::Report(site) => self.report(site),
            Event::Settle => self.settle(),
        }
    }

    fn propose(&mut self, object: usize, operation: Operation) -> Result<Answer, Refusal> {
        if self.log.len() == MOST_UPDATES {
            return Err(Refusal::LogFull);
        }
        let before = self.values[object];
        let after = operation.on(before);
        if !(-LARGEST_VALUE..=LARGEST_VALUE).contains(&after) {
            return Err(Refusal::OutOfRange);
        }
        self.values[object] = after;
        let distance = before.abs_diff(after);
        self.log.push(Update { changes: vec![Change { object, operation, distance }] });
        Ok(Answer::Done)
    }

    fn send(&mut self, site: usize) -> Result<Answer, Refusal> {
        let site = &mut self.sites[site];
        if site.sent == self.log.len() {
            return Err(Refusal::NothingToSend);
        }
        if site.sent - site.applied == CAPACITY {
            return Err(Refusal::FeedFull);
        }
        site.sent += 1;
        Ok(Answer::Done)
    }

    fn apply(&mut self, site: usize) -> Result<Answer, Refusal> {
        let site = &mut self.sites[site];
        if site.applied == site.sent {
            return Err(Refusal::NothingToApply);
        }
        for change in &self.log[site.applied].changes {
            let value = &mut site.values[change.object];
            *value = change.operation.on(*value);
        }
        site.applied += 1;
        Ok(Answer::Done)
    }

    fn report(&mut self, site: usize) -> Result<Answer, Refusal> {
        let site = &mut self.sites[site];
        site.reported = site.applied;
        Ok(Answer::Done)
    }

    /// The head is the update after the last acknowledged one. The first settlement of
    /// it decides which sites have a forced round at it, and it is acknowledged once
    /// each of these has reported it.
    fn settle(&mut self) -> Result<Answer, Refusal> {
        if self.acknowledged == self.log.len() {
            return Err(Refusal::NothingToSettle);
        }
        let head = self.acknowledged + 1;
        if self.decided < head {
            let forced = self.decide(head);
            if !forced.is_empty() {
                return Ok(Answer::Round(forced));
            }
        } else if self.sites.iter().any(|site| self.is_waited_for(site, head)) {
            return Ok(Answer::Waiting);
        }
        self.acknowledged = head;
        Ok(Answer::Done)
    }

    fn decide(&mut self, head: usize) -> Vec<usize> {
        let is_forced = |place: &usize| {
            let site = &self.sites[*place];
            self.is_over(site, site.reported, head)
        };
        let forced: Vec<usize> = (0..SITES).filter(is_forced).collect();
        for site in &mut self.sites {
            site.reports.push(site.reported);
        }
        for &place in &forced {
            self.sites[place].rounds.push(head);
        }
        self.decided = head;
        forced
    }

    /// Whether the site has a forced round at the head, which is decided, and has not
    /// reported it.
    fn is_waited_for(&self, site: &Site, head: usize) -> bool {
        site.reported < head && self.is_over(site, site.reports[head - 1], head)
    }

    /// Whether a span weighs more than one of the site's limits.
    fn is_over(&self, site: &Site, from: usize, to: usize) -> bool {
        if from >= to {
            return false;
        }
        let all = self.span(Scope::All, from, to);
        site.limits.iter().any(|limit| match limit.scope {
            Scope::All => all > limit.amount,
            Scope::Count => (to - from) as u64 > limit.amount,
            scope => all > limit.amount && self.span(scope, from, to) > limit.amount,
        })
    }

    fn span(&self, scope: Scope, from: usize, to: usize) -> u64 {
        self.log[from..to].iter().map(|update| update.weight(scope, &self.groups)).sum()
    }
}

#[derive(Clone, Copy, PartialEq, Eq)]
enum Kind {
    /// Every site reports soon, so settlements weigh short spans.
    Settled,
    /// One site seldom reports, and has limits that it never passes, so settlements
    /// weigh long spans of it.
    Lagging,
}

impl Kind {
    fn of(word: &str) -> Option<Kind> {
        match word {
            "settled" => Some(Kind::Settled),
            "lagging" => Some(Kind::Lagging),
            _ => None,
        }
    }

    /// Whether a site reports so seldom that it lags far.
    fn lags(self, site: usize) -> bool {
        self == Kind::Lagging && site == LAGGING_SITE
    }
}

/// A store under load.
struct Load {
    kind: Kind,
    random: Random,
    world: World,
    /// How many more events are wanted. An update that has begun is carried to its end,
    /// where it may take more than these.
    left: u64,
}

impl Load {
    /// Starts 16 objects at 0, a group of the first four of them, and 4 sites, each with
    /// a limit on an object, on the group, on all objects and on the count of updates.
    fn start(kind: Kind, events: u64) -> Load {
        let sites = (0..SITES).map(|site| {
            let limit = |scope, amount| {
                let amount = if kind.lags(site) { LARGEST_AMOUNT } else { amount };
                Limit { scope, amount }
            };
            Site {
                limits: vec![
                    limit(Scope::Object(0), 2000),
                    limit(Scope::Group(0), 3000),
                    limit(Scope::All, 5000),
                    limit(Scope::Count, 6),
                ],
                sent: 0,
                applied: 0,
                reported: 0,
                reports: Vec::new(),
                rounds: Vec::new(),
                values: vec![0; OBJECTS],
            }
        });
        let world = World {
            groups: vec![vec![0, 1, 2, 3]],
            values: vec![0; OBJECTS],
            log: Vec::new(),
            sites: sites.collect(),
            acknowledged: 0,
            decided: 0,
        };
        Load { kind, random: Random(1), world, left: events }
    }

    fn run(&mut self) -> Result<(), Refusal> {
        while self.left > 0 {
            self.update()?;
        }
        Ok(())
    }

    /// One update: it is proposed, sent to every site, applied there and settled, and
    /// then sites report.
    fn update(&mut self) -> Result<(), Refusal> {
        let (object, operation) = self.draw_change();
        self.step(Event::Propose(object, operation))?;
        for site in 0..SITES {
            self.step(Event::Send(site))?;
            self.step(Event::Apply(site))?;
        }
        self.settle()?;
        for site in 0..SITES {
            if self.is_time_to_report(site) {
                self.step(Event::Report(site))?;
            }
        }
        Ok(())
    }

    /// A change that adds to an object four times in five, and sets one else.
    fn draw_change(&mut self) -> (usize, Operation) {
        let object = self.random.below(OBJECTS as u64) as usize;
        let is_set = self.random.one_in(5);
        let amount = self.random.below(2001) as i64 - 1000;
        (object, if is_set { Operation::Set(amount) } else { Operation::Add(amount) })
    }

    /// Settles the update. Where it has a forced round, each site of the round reports,
    /// and it is settled once more.
    fn settle(&mut self) -> Result<(), Refusal> {
        if let Answer::Round(sites) = self.step(Event::Settle)? {
            for site in sites {
                self.step(Event::Report(site))?;
            }
            self.step(Event::Settle)?;
        }
        Ok(())
    }

    fn is_time_to_report(&mut self, site: usize) -> bool {
        if self.kind.lags(site) {
            self.world.log.len() % UPDATES_UNREPORTED == 0
        } else {
            self.random.one_in(2)
        }
    }

    fn step(&mut self, event: Event) -> Result<Answer, Refusal> {
        self.left = self.left.saturating_sub(1);
        self.world.step(event)
    }

    /// Prints the numbers of the log and of each site, with its values.
    fn print(&self) {
        println!("proposed {}", self.world.log.len());
        println!("acknowledged {}", self.world.acknowledged);
        for (index, site) in self.world.sites.iter().enumerate() {
            print!("site {index} sent {} applied {} ", site.sent, site.applied);
            print!("reported {} rounds {} values", site.reported, site.rounds.len());
            for value in &site.values {
                print!(" {value}");
            }
            println!();
        }
    }
}

fn main() -> ExitCode {
    let words: Vec<String> = env::args().skip(1).collect();
    let [kind, events] = words.as_slice() else {
        eprintln!("usage: plain_load KIND EVENTS");
        return ExitCode::FAILURE;
    };
    let (Some(kind), Ok(events)) = (Kind::of(kind), events.parse()) else {
        eprintln!("plain_load: no load {kind} of {events} events");
        return ExitCode::FAILURE;
    };
    let mut load = Load::start(kind, events);
    if let Err(refusal) = load.run() {
        eprintln!("plain_load: refused {refusal:?}");
        return ExitCode::FAILURE;
    }
    load.print();
    ExitCode::SUCCESS
}
