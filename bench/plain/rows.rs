//! A record, from its rows. It takes no quotes; a row ends with LF or CRLF.

use std::io;

use crate::lag::{Limit, Scope};
use crate::names::Names;
use crate::store::{
    repeats, LARGEST_AMOUNT, MOST_CHANGES, MOST_GROUPS, MOST_LIMITS, MOST_MEMBERS, MOST_OBJECTS, MOST_PLACED_LIMITS,
    MOST_UPDATES,
};
use crate::updates::{Change, Log, Window};
use crate::words::{Kind, Word};

/// What an auditor is told of a site.
pub struct Record {
    pub decided: usize,
    pub objects: Names,
    pub values: Vec<i64>,
    pub members: Vec<Vec<usize>>,
    pub limits: Vec<Limit>,
    pub log: Log,
    pub reports: Vec<(u32, u32)>,
    pub rounds: Vec<u32>,
    pub windows: Vec<Window>,
}

impl Record {
    /// The number of rows before the first change.
    pub fn rows_before_changes(&self) -> usize {
        1 + self.values.len() + self.members.iter().map(Vec::len).sum::<usize>() + self.limits.len()
    }
}

/// The kinds of rows in their order.
#[derive(Clone, Copy, PartialEq, Eq, PartialOrd, Ord)]
enum Stage {
    Unread,
    Head,
    Objects,
    Members,
    Limits,
    Changes,
    Reports,
    Rounds,
    Windows,
}

pub struct Reader {
    stage: Stage,
    row: usize,
    /// Whether the limits have places: so it is in version 2.
    has_places: bool,
    groups: Names,
    member_rows: usize,
    /// On how many scopes there are limits.
    scopes: usize,
    record: Record,
}

/// A number of the grammar that lies in a range, or else none.
fn number(word: &[u8], least: i64, most: i64) -> Option<i64> {
    let digits = word.strip_prefix(b"-").unwrap_or(word);
    let is_zero_led = digits.first() == Some(&b'0') && word.len() > 1;
    if !(1..=19).contains(&digits.len()) || is_zero_led {
        return None;
    }
    let mut size: u64 = 0;
    for digit in digits {
        let digit = digit.wrapping_sub(b'0');
        if digit > 9 {
            return None;
        }
        size = size * 10 + u64::from(digit);
    }
    let size = i64::try_from(size).ok()?;
    let number = if digits.len() < word.len() { -size } else { size };
    (least..=most).contains(&number).then_some(number)
}

fn place(word: &[u8], least: usize, most: usize) -> Option<usize> {
    number(word, least as i64, most as i64).map(|place| place as usize)
}

fn holds(condition: bool) -> Option<()> {
    condition.then_some(())
}

impl Reader {
    pub fn new() -> Reader {
        Reader {
            stage: Stage::Unread,
            row: 0,
            has_places: false,
            groups: Names::new(MOST_GROUPS),
            member_rows: 0,
            scopes: 0,
            record: Record {
                decided: 0,
                objects: Names::new(MOST_OBJECTS),
                values: Vec::new(),
                members: Vec::new(),
                limits: Vec::new(),
                log: Log::new(),
                reports: Vec::new(),
                rounds: Vec::new(),
                windows: Vec::new(),
            },
        }
    }

    fn malformed(&self) -> io::Error {
        io::Error::new(io::ErrorKind::InvalidData, self.row.to_string())
    }

    /// Reads rows, each of them ended.
    pub fn lines(&mut self, text: &[u8]) -> io::Result<()> {
        for line in text.split_inclusive(|&byte| byte == b'\n') {
            let line = &line[..line.len() - 1];
            let mut line = line.strip_suffix(b"\r").unwrap_or(line);
            if self.row == 0 {
                line = line.strip_prefix(b"\xEF\xBB\xBF").unwrap_or(line);
            }
            if line.is_empty() {
                continue;
            }
            self.row += 1;
            self.line(line).ok_or_else(|| self.malformed())?;
        }
        Ok(())
    }

    /// The record, where no row is missing at the end.
    pub fn end(mut self) -> io::Result<Record> {
        self.row += 1;
        self.finish_update();
        if self.stage < Stage::Objects || self.record.log.len() < self.record.decided {
            return Err(self.malformed());
        }
        Ok(self.record)
    }

    /// Goes on to a later kind of row, where the kinds before it are complete.
    fn go_on(&mut self, stage: Stage) -> Option<()> {
        if stage != self.stage {
            holds(self.stage < stage && self.stage != Stage::Unread)?;
            holds(stage == Stage::Objects || self.stage >= Stage::Objects)?;
            if stage > Stage::Changes {
                self.finish_update();
                holds(self.record.log.len() == self.record.decided)?;
            }
            self.stage = stage;
        }
        Some(())
    }

    /// Puts an end to the update that the last change row belongs to.
    fn finish_update(&mut self) {
        let log = &mut self.record.log;
        if log.ends[log.len()] < log.changes.len() as u32 {
            log.ends.push(log.changes.len() as u32);
        }
    }

    fn line(&mut self, line: &[u8]) -> Option<()> {
        let mut columns = line.split(|&byte| byte == b',');
        let (kind, first, second, third) = (columns.next()?, columns.next()?, columns.next()?, columns.next()?);
        holds(columns.next().is_none())?;
        match kind {
            b"change" => self.change(first, second, third),
            b"report" => self.report(first, second, third),
            b"round" => self.round(first, second, third),
            b"window" => self.window(first, second, third),
            b"object" => self.object(first, second, third),
            b"member" => self.member(first, second, third),
            b"limit" => self.limit(first, second, third),
            b"ordup" => {
                holds(self.stage == Stage::Unread && (first == b"1" || first == b"2") && Word::new(second).is_name())?;
                self.has_places = first == b"2";
                self.record.decided = place(third, 0, MOST_UPDATES)?;
                self.stage = Stage::Head;
                Some(())
            }
            _ => None,
        }
    }

    fn object(&mut self, counter: &[u8], name: &[u8], value: &[u8]) -> Option<()> {
        self.go_on(Stage::Objects)?;
        let (record, name) = (&mut self.record, Word::new(name));
        let next = record.values.len() + 1;
        place(counter, next, next.min(MOST_OBJECTS))?;
        record.objects.judge(name).ok()?;
        record.values.push(number(value, -1_000_000_000, 1_000_000_000)?);
        record.objects.add(name);
        Some(())
    }

    fn member(&mut self, counter: &[u8], group: &[u8], object: &[u8]) -> Option<()> {
        self.go_on(Stage::Members)?;
        let (record, group) = (&mut self.record, Word::new(group));
        self.member_rows += 1;
        place(counter, self.member_rows, self.member_rows)?;
        if self.groups.words().last().map(|last| last.key) != Some(group.key) {
            self.groups.judge(group).ok()?;
            holds(!self.groups.is_full())?;
            self.groups.add(group);
            record.members.push(Vec::new());
        }
        let members = record.members.last_mut()?;
        let object = record.objects.find(Word::new(object))?;
        holds(members.len() < MOST_MEMBERS && !members.contains(&object))?;
        members.push(object);
        Some(())
    }

    fn limit(&mut self, counter: &[u8], scope: &[u8], amount: &[u8]) -> Option<()> {
        self.go_on(Stage::Limits)?;
        let record = &mut self.record;
        let next = record.limits.len() + 1;
        place(counter, next, next.min(MOST_PLACED_LIMITS))?;
        let scope = match scope {
            b"all" => Scope::All,
            b"count" => Scope::Count,
            _ => match scope.strip_prefix(b"object:") {
                Some(object) => Scope::Object(record.objects.find(Word::new(object))?),
                None => Scope::Group(self.groups.find(Word::new(scope.strip_prefix(b"group:")?))?),
            },
        };
        let (amount, from) = if self.has_places {
            let at = amount.iter().position(|&byte| byte == b'@')?;
            let least = record.limits.last().map_or(1, |last| last.place as usize);
            (&amount[..at], place(&amount[at + 1..], least, record.decided + 1)? as u32)
        } else {
            (amount, 1)
        };
        let amount = number(amount, 0, LARGEST_AMOUNT)?;
        let earlier = record.limits.iter().rfind(|limit| limit.scope == scope);
        holds(!earlier.is_some_and(|earlier| earlier.place >= from))?;
        self.scopes += usize::from(earlier.is_none());
        holds(self.scopes <= MOST_LIMITS)?;
        record.limits.push(Limit { scope, amount, place: from });
        Some(())
    }

    fn change(&mut self, update: &[u8], position: &[u8], change: &[u8]) -> Option<()> {
        self.go_on(Stage::Changes)?;
        let position = place(position, 1, MOST_CHANGES)?;
        if position == 1 {
            self.finish_update();
        }
        let record = &mut self.record;
        let next = record.log.len() + 1;
        place(update, next, next.min(record.decided))?;
        let from = record.log.ends[record.log.len()] as usize;
        holds(position == record.log.changes.len() - from + 1)?;
        let mut parts = change.split(|&byte| byte == b':');
        let (kind, object, operand) = (parts.next()?, parts.next()?, parts.next()?);
        holds(parts.next().is_none())?;
        let kind = match kind {
            b"add" => Kind::Add,
            b"set" => Kind::Set,
            b"mul" => Kind::Mul,
            b"max" => Kind::Max,
            b"min" => Kind::Min,
            b"take" => Kind::Take,
            _ => return None,
        };
        let object = record.objects.find(Word::new(object))? as u8;
        let operand = match kind {
            Kind::Take => record.objects.find(Word::new(operand))? as i32,
            _ => number(operand, -1_000_000_000, 1_000_000_000)? as i32,
        };
        record.log.changes.push(Change { operand, distance: 0, object, kind });
        let changes = &record.log.changes[from..];
        holds(changes.len() == 1 || !repeats(changes.iter().map(|change| usize::from(change.object))))
    }

    fn report(&mut self, decided: &[u8], reported: &[u8], rest: &[u8]) -> Option<()> {
        self.go_on(Stage::Reports)?;
        let record = &mut self.record;
        let (last_place, last) = record.reports.last().copied().unwrap_or((0, 0));
        let decided = place(decided, last_place as usize + 1, record.decided)?;
        let reported = place(reported, last as usize + 1, MOST_UPDATES)?;
        record.reports.push((decided as u32, reported as u32));
        holds(rest == b"-")
    }

    fn round(&mut self, counter: &[u8], decided: &[u8], rest: &[u8]) -> Option<()> {
        self.go_on(Stage::Rounds)?;
        let record = &mut self.record;
        let next = record.rounds.len() + 1;
        place(counter, next, next)?;
        let last = record.rounds.last().copied().unwrap_or(0);
        record.rounds.push(place(decided, last as usize + 1, record.decided)? as u32);
        holds(rest == b"-")
    }

    fn window(&mut self, counter: &[u8], from: &[u8], to: &[u8]) -> Option<()> {
        self.go_on(Stage::Windows)?;
        let record = &mut self.record;
        let next = record.windows.len() + 1;
        place(counter, next, next.min(MOST_UPDATES))?;
        record.windows.push(Window { from: place(from, 0, record.decided)?, to: place(to, 0, record.decided)? });
        Some(())
    }
}
