//! The store, the commands, and what is declared.

use crate::answers::{answer, Out, Refusal};
use crate::lag::{Lag, Limit, Scope};
use crate::names::{Names, Table};
use crate::queries::Query;
use crate::updates::{Held, Log, Site};
use crate::words::{key, Word, Words};

pub const LARGEST_VALUE: i64 = 1_000_000_000;
pub const LARGEST_CAPACITY: i64 = 1024;
pub const LARGEST_AMOUNT: i64 = 1_000_000_000_000_000_000;
pub const MOST_OBJECTS: usize = 256;
pub const MOST_GROUPS: usize = 32;
pub const MOST_MEMBERS: usize = 64;
pub const MOST_SITES: usize = 16;
pub const MOST_LIMITS: usize = 64;
/// So many limits of a site are kept with their places.
pub const MOST_PLACED_LIMITS: usize = 1088;
pub const MOST_UPDATES: usize = 1_000_000;
pub const MOST_CHANGES: usize = 64;
pub const MOST_QUERIES: usize = 64;
pub const MOST_READS: usize = 256;

pub fn is_value(number: i64) -> bool {
    (-LARGEST_VALUE..=LARGEST_VALUE).contains(&number)
}

pub fn is_amount(number: i64) -> bool {
    (0..=LARGEST_AMOUNT).contains(&number)
}

pub fn repeats(objects: impl Iterator<Item = usize>) -> bool {
    let mut seen = [0_u64; MOST_OBJECTS / 64];
    let mut repeats = false;
    for object in objects {
        let (word, bit) = (object / 64, 1 << (object % 64));
        repeats |= seen[word] & bit != 0;
        seen[word] |= bit;
    }
    repeats
}

pub struct Store {
    pub is_started: bool,
    pub objects: Names,
    pub groups: Names,
    pub members: Vec<Vec<usize>>,
    pub site_names: Names,
    pub sites: Vec<Site>,
    /// The values that the objects were declared with.
    pub first_values: Vec<i64>,
    /// The objects at the end of the log; before the start, the first ones.
    pub held: Vec<Held>,
    pub log: Log,
    /// The results of the changes of one update.
    pub results: [i64; MOST_CHANGES],
    pub acknowledged: usize,
    pub decided: usize,
    /// The sites that have a forced round at the head, one bit each.
    pub forced: u32,
    /// How far the acknowledged updates moved each object.
    pub marks: Vec<u64>,
    pub open: Table,
    /// Queries, with those that are no longer open: the memory of these is used again.
    pub queries: Vec<Query>,
    pub unused: Vec<usize>,
}

struct ReadLimit {
    site: Word,
    scope: Result<Scope, Refusal>,
    amount: i64,
}

const OBJECT: u64 = key(b"object");
const GROUP: u64 = key(b"group");
const SITE: u64 = key(b"site");
const LIMIT: u64 = key(b"limit");
const START: u64 = key(b"start");
pub const PROPOSE: u64 = key(b"propose");
const SEND: u64 = key(b"send");
const APPLY: u64 = key(b"apply");
const REPORT: u64 = key(b"report");
const SETTLE: u64 = key(b"settle");
const BEGIN: u64 = key(b"begin");
const READ: u64 = key(b"read");
const END: u64 = key(b"end");
const ABANDON: u64 = key(b"abandon");
const SHOW: u64 = key(b"show");
const RELIMIT: u64 = key(b"relimit");
const CERTIFY: u64 = key(b"certify");
const ALL: u64 = key(b"all");
const COUNT: u64 = key(b"count");

impl Store {
    pub fn new() -> Store {
        Store {
            is_started: false,
            objects: Names::new(MOST_OBJECTS),
            groups: Names::new(MOST_GROUPS),
            members: Vec::new(),
            site_names: Names::new(MOST_SITES),
            sites: Vec::new(),
            first_values: Vec::new(),
            held: Vec::new(),
            log: Log::new(),
            results: [0; MOST_CHANGES],
            acknowledged: 0,
            decided: 0,
            forced: 0,
            marks: Vec::new(),
            open: Table::new(MOST_QUERIES),
            queries: Vec::new(),
            unused: Vec::new(),
        }
    }

    /// Answers a line that is accepted. Each command reads all its words before it
    /// refuses anything else.
    pub fn line(&mut self, words: &mut Words, out: &mut Out) -> Result<(), Refusal> {
        match words.word()?.short_key() {
            SEND => self.send(last_word(words)?, out),
            APPLY => self.apply(last_word(words)?, out),
            REPORT => self.report(last_word(words)?, out),
            READ => self.read(words.word()?, last_word(words)?, out),
            PROPOSE => self.propose(words, out),
            SETTLE => {
                words.end()?;
                self.settle(out)
            }
            BEGIN => self.begin(words.word()?, words.word()?, last_number(words)?, out),
            END => self.end(last_word(words)?, out),
            ABANDON => self.abandon(last_word(words)?, out),
            SHOW => self.show(last_word(words)?, out),
            RELIMIT => self.relimit(words, out),
            CERTIFY => self.certify(last_word(words)?, out),
            OBJECT => self.object(words.word()?, last_number(words)?, out),
            GROUP => self.group(words, out),
            SITE => self.site(words.word()?, last_number(words)?, out),
            LIMIT => self.limit(words, out),
            START => {
                words.end()?;
                self.start(out)
            }
            _ => Err(Refusal::Syntax),
        }
    }

    // Declarations.

    pub fn before_start(&self) -> Result<(), Refusal> {
        Refusal::AlreadyStarted.when(self.is_started)
    }

    pub fn object(&mut self, name: Word, value: i64, out: &mut Out) -> Result<(), Refusal> {
        self.before_start()?;
        self.objects.judge(name)?;
        Refusal::OutOfRange.when(!is_value(value))?;
        Refusal::TooMany.when(self.objects.is_full())?;
        self.objects.add(name);
        self.first_values.push(value);
        self.held.push(Held { value, travelled: 0 });
        answer!(out, b"ok object ", name)
    }

    pub fn group(&mut self, words: &mut Words, out: &mut Out) -> Result<(), Refusal> {
        let name = words.word()?;
        let mut members = Vec::new();
        while !words.is_at_end() {
            members.push(self.objects.find(words.word()?));
        }
        words.end()?;
        self.before_start()?;
        self.groups.judge(name)?;
        let members = members.into_iter().collect::<Option<Vec<_>>>().ok_or(Refusal::UnknownObject)?;
        Refusal::TooMany.when(self.groups.is_full() || members.len() > MOST_MEMBERS)?;
        Refusal::Empty.when(members.is_empty())?;
        Refusal::Repeated.when(repeats(members.iter().copied()))?;
        self.groups.add(name);
        self.members.push(members);
        answer!(out, b"ok group ", name)
    }

    pub fn site(&mut self, name: Word, capacity: i64, out: &mut Out) -> Result<(), Refusal> {
        self.before_start()?;
        self.site_names.judge(name)?;
        Refusal::OutOfRange.when(!(1..=LARGEST_CAPACITY).contains(&capacity))?;
        Refusal::TooMany.when(self.site_names.is_full())?;
        self.site_names.add(name);
        self.sites.push(Site {
            name,
            capacity: capacity as usize,
            sent: 0,
            applied: 0,
            reported: 0,
            held: Vec::new(),
            limits: Vec::new(),
            lag: Lag::new(&[], 0, &[]),
            reports: Vec::new(),
            rounds: Vec::new(),
        });
        answer!(out, b"ok site ", name)
    }

    pub fn limit(&mut self, words: &mut Words, out: &mut Out) -> Result<(), Refusal> {
        let read = self.read_limit(words)?;
        self.before_start()?;
        let (site, scope) = self.find_limit(&read)?;
        let limits = &mut self.sites[site].limits;
        Refusal::TooMany.when(limits.len() == MOST_LIMITS)?;
        Refusal::Repeated.when(limits.iter().any(|limit| limit.scope == scope))?;
        limits.push(Limit { scope, amount: read.amount, place: 1 });
        answer!(out, b"ok limit ", read.site)
    }

    /// Changes a limit from the head on. No update is decided and not acknowledged then, so the lag of the site is that of
    /// what is acknowledged.
    fn relimit(&mut self, words: &mut Words, out: &mut Out) -> Result<(), Refusal> {
        let read = self.read_limit(words)?;
        self.after_start()?;
        let (site, scope) = self.find_limit(&read)?;
        let place = self.acknowledged + 1;
        let limit = Limit { scope, amount: read.amount, place: place as u32 };
        let site = &mut self.sites[site];
        let known = site.lag.find(scope);
        let same = site.limits.iter().rposition(|other| other.place == limit.place && other.scope == scope);
        let is_full = known.is_none() && site.lag.count() == MOST_LIMITS || site.limits.len() == MOST_PLACED_LIMITS;
        Refusal::TooMany.when(same.is_none() && is_full)?;
        Refusal::HeadPending.when(self.decided > self.acknowledged)?;
        if let Some(known) = known {
            site.lag.change(known, limit.amount)?;
        } else {
            let limits = [&site.limits[..], &[limit]].concat();
            let mut lag = Lag::new(&limits, self.objects.len(), &self.members);
            let is_over = (site.reported..self.acknowledged).any(|update| lag.extend(self.log.after(update)));
            Refusal::LagOver.when(is_over)?;
            site.lag = lag;
        }
        match same {
            Some(same) => site.limits[same] = limit,
            None => site.limits.push(limit),
        }
        answer!(out, b"ok relimit ", read.site, b" ", place)
    }

    /// The words of a limit, after the command.
    fn read_limit(&self, words: &mut Words) -> Result<ReadLimit, Refusal> {
        let site = words.word()?;
        let scope = match words.word()?.short_key() {
            OBJECT => self.objects.find(words.word()?).map(Scope::Object).ok_or(Refusal::UnknownObject),
            GROUP => self.groups.find(words.word()?).map(Scope::Group).ok_or(Refusal::UnknownGroup),
            ALL => Ok(Scope::All),
            COUNT => Ok(Scope::Count),
            _ => return Err(Refusal::Syntax),
        };
        Ok(ReadLimit { site, scope, amount: last_number(words)? })
    }

    /// The site and the scope of a limit, whose amount is in range.
    fn find_limit(&self, read: &ReadLimit) -> Result<(usize, Scope), Refusal> {
        let scope = read.scope?;
        let site = self.site_names.find(read.site).ok_or(Refusal::UnknownSite)?;
        Refusal::OutOfRange.when(!is_amount(read.amount))?;
        Ok((site, scope))
    }

    pub fn start(&mut self, out: &mut Out) -> Result<(), Refusal> {
        self.before_start()?;
        Refusal::Empty.when(self.objects.len() == 0 || self.sites.is_empty())?;
        for site in &mut self.sites {
            site.held.clone_from(&self.held);
            site.lag = Lag::new(&site.limits, self.objects.len(), &self.members);
        }
        self.marks = vec![0; self.objects.len()];
        self.is_started = true;
        answer!(out, b"ok start")
    }

    pub fn after_start(&self) -> Result<(), Refusal> {
        Refusal::NotStarted.when(!self.is_started)
    }
}

#[inline]
fn last_word(words: &mut Words) -> Result<Word, Refusal> {
    let word = words.word()?;
    words.end()?;
    Ok(word)
}

#[inline]
fn last_number(words: &mut Words) -> Result<i64, Refusal> {
    let number = words.number()?;
    words.end()?;
    Ok(number)
}
