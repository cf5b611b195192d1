//! The log, the sites' events and settlements.

use crate::answers::{answer, put, Out, Refusal};
use crate::lag::{Lag, Limit};
use crate::names::Names;
use crate::store::{is_value, repeats, Store, MOST_CHANGES, MOST_UPDATES};
use crate::words::{Kind, Operand, Word, Words};

/// No window of a certificate has more bytes.
const LONGEST_WINDOW: usize = 16;

#[derive(Clone, Copy)]
pub struct Change {
    /// A number of the change, or the place of the object that it takes from.
    pub operand: i32,
    /// How far it moved its object's value when it was proposed.
    pub distance: u32,
    pub object: u8,
    pub kind: Kind,
}

impl Change {
    /// The result on the values before the set.
    #[inline]
    pub fn result(&self, held: &[Held]) -> i64 {
        let value = held[usize::from(self.object)].value;
        let operand = i64::from(self.operand);
        match self.kind {
            Kind::Add => value + operand,
            Kind::Set => operand,
            Kind::Mul => value * operand,
            Kind::Max => value.max(operand),
            Kind::Min => value.min(operand),
            Kind::Take => held[operand as usize].value,
        }
    }
}

/// An object's value, and how far all updates up to now moved it.
#[derive(Clone, Copy)]
pub struct Held {
    pub value: i64,
    pub travelled: u64,
}

/// The updates' changes, one list after the other.
pub struct Log {
    pub changes: Vec<Change>,
    /// Where the changes of the first so many updates end.
    pub ends: Vec<u32>,
}

impl Log {
    pub fn new() -> Log {
        Log { changes: Vec::new(), ends: vec![0] }
    }

    pub fn len(&self) -> usize {
        self.ends.len() - 1
    }

    /// The changes of update `place + 1`.
    #[inline]
    pub fn after(&self, place: usize) -> &[Change] {
        &self.changes[self.ends[place] as usize..self.ends[place + 1] as usize]
    }
}

/// A forced round at the update `to`, which the site had reported up to `from`.
#[derive(Clone, Copy)]
pub struct Window {
    pub from: usize,
    pub to: usize,
}

pub struct Site {
    pub name: Word,
    pub capacity: usize,
    pub sent: usize,
    pub applied: usize,
    pub reported: usize,
    pub held: Vec<Held>,
    pub limits: Vec<Limit>,
    pub lag: Lag,
    /// The decided updates at which what the site had reported is more than at the one before, with that.
    pub reports: Vec<(u32, u32)>,
    pub rounds: Vec<Window>,
}

/// What a settlement made of the head. Sites are one bit each.
pub enum Settled {
    Acked,
    Round(u32),
    Waiting(u32),
}

/// Reads the changes of a line to the end of a list. They belong together as a set: what is left to ask is whether the log
/// may have one more update, and whether the results are in range.
#[inline]
pub fn read_set(objects: &Names, is_started: bool, words: &mut Words, to: &mut Vec<Change>) -> Result<(), Refusal> {
    let from = to.len();
    let (mut is_unknown, mut is_out_of_range) = (false, false);
    let mut find = |word| {
        let found = objects.find(word);
        is_unknown |= found.is_none();
        found.unwrap_or(0)
    };
    while let Some(change) = words.change()? {
        let operand = match change.operand {
            Operand::Number(number) => {
                is_out_of_range |= !is_value(number);
                number as i32
            }
            Operand::Object(source) => find(source) as i32,
        };
        let object = find(change.object) as u8;
        to.push(Change { operand, distance: 0, object, kind: change.kind });
    }
    words.end()?;
    Refusal::NotStarted.when(!is_started)?;
    let changes = &to[from..];
    Refusal::UnknownObject.when(is_unknown)?;
    Refusal::OutOfRange.when(is_out_of_range)?;
    Refusal::TooMany.when(changes.len() > MOST_CHANGES)?;
    Refusal::Empty.when(changes.is_empty())?;
    Refusal::Repeated.when(changes.len() > 1 && repeats(changes.iter().map(|change| usize::from(change.object))))
}

impl Store {
    pub fn propose(&mut self, words: &mut Words, out: &mut Out) -> Result<(), Refusal> {
        let from = self.log.changes.len();
        let proposed = self.append(words, from);
        if proposed.is_err() {
            self.log.changes.truncate(from);
            return proposed;
        }
        answer!(out, b"ok proposed ", self.log.len())
    }

    /// Reads the changes to the end of the log, where those of a refused line are left,
    /// and makes an update of them.
    pub fn append(&mut self, words: &mut Words, from: usize) -> Result<(), Refusal> {
        read_set(&self.objects, self.is_started, words, &mut self.log.changes)?;
        self.number(from)
    }

    /// Makes an update of the changes at the end of the log.
    #[inline]
    pub fn number(&mut self, from: usize) -> Result<(), Refusal> {
        let changes = &mut self.log.changes[from..];
        Refusal::LogFull.when(self.log.ends.len() > MOST_UPDATES)?;
        for (change, result) in changes.iter_mut().zip(&mut self.results) {
            *result = change.result(&self.held);
            Refusal::OutOfRange.when(!is_value(*result))?;
            change.distance = self.held[usize::from(change.object)].value.abs_diff(*result) as u32;
        }
        put_results(&mut self.held, changes, &self.results);
        self.log.ends.push(self.log.changes.len() as u32);
        Ok(())
    }

    pub fn find_site(&self, site: Word) -> Result<usize, Refusal> {
        self.after_start()?;
        self.site_names.find(site).ok_or(Refusal::UnknownSite)
    }

    pub fn send(&mut self, name: Word, out: &mut Out) -> Result<(), Refusal> {
        let place = self.find_site(name)?;
        let site = &mut self.sites[place];
        Refusal::NothingToSend.when(site.sent == self.log.len())?;
        Refusal::FeedFull.when(site.sent - site.applied == site.capacity)?;
        site.sent += 1;
        answer!(out, b"ok sent ", name, b" ", site.sent)
    }

    pub fn apply(&mut self, name: Word, out: &mut Out) -> Result<(), Refusal> {
        let place = self.find_site(name)?;
        let site = &mut self.sites[place];
        Refusal::NothingToApply.when(site.applied == site.sent)?;
        apply_set(&mut site.held, self.log.after(site.applied), &mut self.results);
        site.applied += 1;
        answer!(out, b"ok applied ", name, b" ", site.applied)
    }

    pub fn report(&mut self, name: Word, out: &mut Out) -> Result<(), Refusal> {
        let place = self.find_site(name)?;
        let applied = self.sites[place].applied;
        self.learn(place, applied);
        answer!(out, b"ok reported ", name, b" ", applied)
    }

    /// The site has reported so many updates. Its span begins there now: what it began with is taken off.
    #[inline]
    pub fn learn(&mut self, place: usize, applied: usize) {
        let site = &mut self.sites[place];
        if applied >= self.decided {
            if site.reported < self.decided {
                site.lag.clear();
            }
        } else {
            for place in site.reported..applied {
                site.lag.shorten(self.log.after(place));
            }
        }
        site.reported = applied;
    }

    pub fn settle(&mut self, out: &mut Out) -> Result<(), Refusal> {
        self.after_start()?;
        let head = self.acknowledged + 1;
        match self.settle_head()? {
            Settled::Acked => answer!(out, b"ok acked ", head),
            Settled::Round(sites) => {
                put!(out, b"ok round ", head);
                self.answer_sites(sites, out)
            }
            Settled::Waiting(sites) => {
                put!(out, b"ok waiting ", head);
                self.answer_sites(sites, out)
            }
        }
    }

    /// The head is the update after the last acknowledged one. The first settlement of
    /// it decides which sites have a forced round at it, and it is acknowledged once each
    /// of these has reported it.
    #[inline]
    pub fn settle_head(&mut self) -> Result<Settled, Refusal> {
        Refusal::NothingToSettle.when(self.acknowledged == self.log.len())?;
        let head = self.acknowledged + 1;
        if self.decided < head {
            self.decide(head);
            if self.forced != 0 {
                return Ok(Settled::Round(self.forced));
            }
        } else {
            let waited_for = self.waited_for(head);
            if waited_for != 0 {
                return Ok(Settled::Waiting(waited_for));
            }
        }
        for change in self.log.after(head - 1) {
            self.marks[usize::from(change.object)] += u64::from(change.distance);
        }
        self.acknowledged = head;
        Ok(Settled::Acked)
    }

    /// The sites that have a forced round at the head, which is decided, and have not reported it.
    #[inline]
    pub fn waited_for(&self, head: usize) -> u32 {
        bits(self.forced)
            .filter(|&place| self.sites[place].reported < head)
            .fold(0, |sites, place| sites | 1 << place)
    }

    /// No limit of a site is passed before: where one was at the update before the head,
    /// the site has reported that update since. So those of the head's objects are tested.
    pub fn decide(&mut self, head: usize) {
        let changes = self.log.after(head - 1);
        self.forced = 0;
        for (index, site) in self.sites.iter_mut().enumerate() {
            if site.reports.last().map_or(0, |&(_, report)| report) < site.reported as u32 {
                site.reports.push((head as u32, site.reported as u32));
            }
            if site.reported < head && site.lag.extend(changes) {
                site.rounds.push(Window { from: site.reported, to: head });
                self.forced |= 1 << index;
            }
        }
        self.decided = head;
    }

    pub fn answer_sites(&self, sites: u32, out: &mut Out) -> Result<(), Refusal> {
        for place in bits(sites) {
            put!(out, b" ", self.sites[place].name);
        }
        answer!(out)
    }

    pub fn show(&self, name: Word, out: &mut Out) -> Result<(), Refusal> {
        let site = &self.sites[self.find_site(name)?];
        put!(out, b"ok show ", name, b" sent ", site.sent, b" applied ", site.applied);
        put!(out, b" reported ", site.reported, b" rounds ", site.rounds.len());
        for (&object, held) in self.objects.words().iter().zip(&site.held) {
            put!(out, b" ", object, b"=", held.value);
        }
        answer!(out)
    }

    /// Answers the rounds of a site and the window of each, which show that they are the fewest.
    pub fn certify(&self, name: Word, out: &mut Out) -> Result<(), Refusal> {
        let rounds = &self.sites[self.find_site(name)?].rounds;
        out.reserve(LONGEST_WINDOW * rounds.len());
        put!(out, b"ok certified ", name, b" ", rounds.len());
        for round in rounds {
            put!(out, b" ", round.from, b"-", round.to);
        }
        answer!(out)
    }
}

/// Applies a set.
#[inline]
pub fn apply_set(held: &mut [Held], changes: &[Change], results: &mut [i64]) {
    for (change, result) in changes.iter().zip(&mut *results) {
        *result = change.result(held);
    }
    put_results(held, changes, results);
}

/// Moves the objects to the results, which all were found before.
#[inline]
pub fn put_results(held: &mut [Held], changes: &[Change], results: &[i64]) {
    for (change, &result) in changes.iter().zip(results) {
        let held = &mut held[usize::from(change.object)];
        held.value = result;
        held.travelled += u64::from(change.distance);
    }
}

/// The places of the bits that are set, from the lowest on.
pub fn bits(mut bits: u32) -> impl Iterator<Item = usize> {
    std::iter::from_fn(move || {
        let place = bits.trailing_zeros();
        (bits != 0).then(|| {
            bits &= bits - 1;
            place as usize
        })
    })
}
