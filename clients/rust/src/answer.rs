//! What the store answers.

use crate::error::Refused;
use std::str::FromStr;

/// An answer that begins with `ok`. A place is the number of an update in the log, from 1.
#[derive(Clone, Debug, PartialEq, Eq)]
pub enum Answer {
    /// An object, a group, a site or a limit was declared. The name of a limit is that of its site.
    Declared { kind: String, name: String },
    /// The store is started.
    Started,
    /// The update has this place.
    Proposed { place: u64 },
    /// The update at this place is in the feed of the site.
    Sent { site: String, place: u64 },
    /// The site applied the update at this place.
    Applied { site: String, place: u64 },
    /// The primary goes by so many updates that the site has applied.
    Reported { site: String, applied: u64 },
    Settled(Settled),
    /// The query began. Its reference is this place: so many updates were acknowledged then.
    Begun { query: String, place: u64 },
    Read(Read),
    Ended(Ended),
    /// The query ended without its sum.
    Abandoned { query: String },
    Shown(Shown),
    Certified(Certified),
    /// The limit is in force from this place on.
    Relimited { site: String, place: u64 },
}

/// What became of the head, which is the first update that is not acknowledged.
#[derive(Clone, Debug, PartialEq, Eq)]
pub enum Settled {
    /// It is acknowledged.
    Acked { place: u64 },
    /// It has a forced round: it waits for the reports of these sites.
    Round { place: u64, sites: Vec<String> },
    /// It still waits for these sites.
    Waiting { place: u64, sites: Vec<String> },
}

/// What a read gives: the value at the query's site, no further than `imported` from the one at the query's reference. `total` is what
/// all its reads imported, in the unit of the values.
#[derive(Clone, Debug, PartialEq, Eq)]
pub struct Read {
    pub query: String,
    pub object: String,
    pub value: i64,
    pub imported: u64,
    pub total: u64,
}

/// The `sum` of the values of all `reads`, no further than `total` from the sum at `place`, the query's reference. Refused reads do not
/// count.
#[derive(Clone, Debug, PartialEq, Eq)]
pub struct Ended {
    pub query: String,
    pub place: u64,
    pub sum: i64,
    pub total: u64,
    pub reads: u64,
}

/// How far a site is: how many updates were `sent` to it, `applied` by it, and last `reported`, and how many forced `rounds` it had, with
/// one that is waited for. Its values are in the order in which the objects were declared.
#[derive(Clone, Debug, PartialEq, Eq)]
pub struct Shown {
    pub site: String,
    pub sent: u64,
    pub applied: u64,
    pub reported: u64,
    pub rounds: u64,
    pub values: Vec<(String, i64)>,
}

impl Shown {
    /// The value of an object, or None where there is no such object.
    pub fn value(&self, object: &str) -> Option<i64> {
        self.values.iter().find(|(name, _)| name == object).map(|(_, value)| *value)
    }
}

/// How many forced rounds a site had: no schedule that keeps its limits has fewer. There is a window for each. A window `(a, b)` is of the
/// updates a + 1 to b, which pass a limit alone, and no two windows share an update.
#[derive(Clone, Debug, PartialEq, Eq)]
pub struct Certified {
    pub site: String,
    pub rounds: u64,
    pub windows: Vec<(u64, u64)>,
}

/// What a record shows.
#[derive(Clone, Debug, PartialEq, Eq)]
pub enum Verdict {
    /// No schedule that keeps the site's limits has fewer than these rounds.
    Yes { rounds: u64 },
    /// There is a reason against the record, in this row. docs/FORMATS.md has the reasons. Rows are counted from 1.
    No { row: u64, reason: String },
    /// This row is the first that breaks a rule of the format.
    Malformed { row: u64 },
}

/// What the records of a site show, one after another. Records and rows are counted from 1.
#[derive(Clone, Debug, PartialEq, Eq)]
pub enum SeriesVerdict {
    /// No schedule of all their updates that keeps the site's limits has fewer than these rounds.
    Yes { rounds: u64 },
    /// There is a reason against this record, in this row of it.
    No { record: u64, row: u64, reason: String },
    /// This row of this record is the first that breaks a rule of the format.
    Malformed { record: u64, row: u64 },
}

/// The words of an answer that are left, or none.
struct Words<'a>(Option<&'a str>);

impl<'a> Iterator for Words<'a> {
    type Item = &'a str;

    fn next(&mut self) -> Option<&'a str> {
        let rest = self.0?;
        // Words are so short that a look at each byte is the fastest.
        let end = rest.bytes().position(|byte| byte == b' ');
        self.0 = end.map(|end| &rest[end + 1..]);
        Some(end.map_or(rest, |end| &rest[..end]))
    }
}

impl<'a> Words<'a> {
    fn of(text: &'a str) -> Words<'a> {
        Words(Some(text))
    }

    fn text(&mut self) -> Option<String> {
        self.next().map(String::from)
    }

    fn number<T: FromStr>(&mut self) -> Option<T> {
        self.next()?.parse().ok()
    }

    /// The number behind this word.
    fn number_after<T: FromStr>(&mut self, word: &str) -> Option<T> {
        (self.next()? == word).then_some(())?;
        self.number()
    }

    /// What is made of each word that is left.
    fn all<T>(&mut self, made: impl FnMut(&'a str) -> Option<T>) -> Option<Vec<T>> {
        self.by_ref().map(made).collect()
    }

    /// This, if no word is left.
    fn end<T>(mut self, made: T) -> Option<T> {
        self.next().is_none().then_some(made)
    }
}

fn pair<T: FromStr>((a, b): (&str, &str)) -> Option<(T, T)> {
    Some((a.parse().ok()?, b.parse().ok()?))
}

fn value((object, value): (&str, &str)) -> Option<(String, i64)> {
    Some((object.to_string(), value.parse().ok()?))
}

impl Answer {
    /// What an answer says, without its line feed. None where the text is no answer.
    pub fn parse(text: &str) -> Option<Result<Answer, Refused>> {
        let mut words = Words::of(text);
        let answer = match words.next()? {
            "refused" => Err(Refused { number: words.number()?, name: words.text()? }),
            "ok" => Ok(Answer::of(&mut words)?),
            _ => return None,
        };
        words.end(answer)
    }

    fn of(words: &mut Words<'_>) -> Option<Answer> {
        Some(match words.next()? {
            kind @ ("object" | "group" | "site" | "limit") => Answer::Declared { kind: kind.to_string(), name: words.text()? },
            "start" => Answer::Started,
            "proposed" => Answer::Proposed { place: words.number()? },
            "sent" => Answer::Sent { site: words.text()?, place: words.number()? },
            "applied" => Answer::Applied { site: words.text()?, place: words.number()? },
            "reported" => Answer::Reported { site: words.text()?, applied: words.number()? },
            "acked" => Answer::Settled(Settled::Acked { place: words.number()? }),
            "round" => Answer::Settled(Settled::Round { place: words.number()?, sites: words.all(|site| Some(site.into()))? }),
            "waiting" => Answer::Settled(Settled::Waiting { place: words.number()?, sites: words.all(|site| Some(site.into()))? }),
            "begun" => Answer::Begun { query: words.text()?, place: words.number()? },
            "read" => Answer::Read(Read {
                query: words.text()?,
                object: words.text()?,
                value: words.number_after("value")?,
                imported: words.number_after("import")?,
                total: words.number_after("total")?,
            }),
            "end" => Answer::Ended(Ended {
                query: words.text()?,
                place: words.number_after("place")?,
                sum: words.number_after("sum")?,
                total: words.number_after("total")?,
                reads: words.number_after("reads")?,
            }),
            "abandoned" => Answer::Abandoned { query: words.text()? },
            "show" => Answer::Shown(Shown {
                site: words.text()?,
                sent: words.number_after("sent")?,
                applied: words.number_after("applied")?,
                reported: words.number_after("reported")?,
                rounds: words.number_after("rounds")?,
                values: words.all(|word| word.split_once('=').and_then(value))?,
            }),
            "certified" => Answer::Certified(Certified {
                site: words.text()?,
                rounds: words.number()?,
                windows: words.all(|word| word.split_once('-').and_then(pair))?,
            }),
            "relimit" => Answer::Relimited { site: words.text()?, place: words.number()? },
            _ => return None,
        })
    }
}

impl Verdict {
    /// What a verdict says, without its line feed. None where the text is none.
    pub fn parse(text: &str) -> Option<Verdict> {
        let mut words = Words::of(text);
        let verdict = match words.next()? {
            "yes" => Verdict::Yes { rounds: words.number()? },
            "no" => Verdict::No { row: words.number()?, reason: words.text()? },
            "malformed" => Verdict::Malformed { row: words.number()? },
            _ => return None,
        };
        words.end(verdict)
    }
}

impl SeriesVerdict {
    /// What a verdict on a series says, without its line feed. None where the text is none.
    pub fn parse(text: &str) -> Option<SeriesVerdict> {
        let mut words = Words::of(text);
        let verdict = match words.next()? {
            "yes" => SeriesVerdict::Yes { rounds: words.number()? },
            "no" => SeriesVerdict::No { record: words.number()?, row: words.number()?, reason: words.text()? },
            "malformed" => SeriesVerdict::Malformed { record: words.number()?, row: words.number()? },
            _ => return None,
        };
        words.end(verdict)
    }
}
