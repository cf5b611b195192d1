//! A store whose sites have appliers of their own, and which the threads of the program share: a binding of `ordup_cluster.h`.
//!
//! Updates are numbered in one order. Each site applies them in this order, some time later, and its readers wait for nobody. A site may
//! have limits: no update is acknowledged before the site lags by at most so much. A [`Session`] sees its own updates, and never less
//! than it saw. A [`Query`] knows how far its values may be from those that are acknowledged. A record of a site lets an auditor check
//! all that ([`check`](crate::check)).
//!
//! ```
//! use ordup::cluster::{Builder, Error, Scope, Session, FOREVER};
//! use std::time::Duration;
//!
//! let mut builder = Builder::new()?;
//! let tea = builder.object("tea", 40)?;
//! let shop = builder.site("shop", 64)?;
//! builder.limit(shop, Scope::Object(tea), 10)?;
//! let cluster = builder.open()?; // with a thread for each site
//!
//! std::thread::scope(|scope| {
//!     for _ in 0..4 {
//!         scope.spawn(|| {
//!             let mut session = Session::default(); // one for each caller
//!             let sale = cluster.propose_if(&mut session, &[tea.add(-3)], &[tea.at_least(30)], Duration::from_secs(5));
//!             let left = cluster.read_when_level(&mut session, shop, tea, FOREVER).unwrap().value;
//!             match sale {
//!                 Ok(number) => println!("sale {number}: {left} left"),
//!                 Err(Error::Unmet { .. }) => println!("no sale: {left} left"),
//!                 Err(why) => panic!("{why}"),
//!             }
//!         });
//!     }
//! });
//!
//! cluster.finish(FOREVER)?; // each site has all that was proposed
//! let closed = cluster.close()?;
//! assert_eq!(closed.read(&mut Session::default(), shop, tea)?.value, 31);
//! assert!(matches!(ordup::check(closed.record(shop)?.as_bytes()), Ok(ordup::Verdict::Yes { .. })));
//! # Ok::<(), Error>(())
//! ```
//!
//! What a book, a site and a query do is proved. The locks and the waits around them are C, and this is a binding: both are tested, and
//! nothing proves them. A store at rest takes no time of a processor. In the forked child of a process a cluster is lost. A call wants 128
//! KB of stack.

mod builder;
mod change;
mod closed;
mod error;
mod query;

pub use crate::sys::cluster::{Change, Charged, Condition, Ended, Numbers, ObjectId, Seen, Session, SiteNumbers};
pub use builder::{Builder, GroupId, Scope, SiteId};
pub use closed::{Closed, Unclosed};
pub use error::{Error, Refusal};
pub use query::Query;

use crate::sys::cluster::{self as sys, RawLag, DONE, MORE, UNMET};
use error::{done, fault, BEHIND, NOT_YET};
use std::fmt;
use std::time::Duration;

/// A wait without an end.
pub const FOREVER: Duration = Duration::MAX;

/// How many bytes a record may have at first. There is more room where one is longer.
const RECORD: usize = 65_536;

/// How many limits of a site are asked for at first.
const LIMITS: usize = 16;

/// A cluster with its threads. They are stopped and joined when it is closed or dropped.
///
/// Threads share it by reference or in an `Arc`. A call that waits sleeps until what it waits for wakes it, or its time is over, or the
/// cluster is stopped. Times are rounded up to milliseconds.
pub struct Cluster {
    sys: sys::Cluster,
    has_threads: bool,
}

/// Values that were read at a site, all of one state.
#[derive(Clone, Debug, PartialEq, Eq)]
pub struct Snapshot {
    /// One for each object, in the order of the call.
    pub values: Vec<i64>,
    /// How many updates the site had applied: they are the values after these.
    pub applied: u64,
}

/// A limit of a site, and its lag beside it.
#[derive(Clone, Copy, Debug, PartialEq, Eq)]
pub struct Lag {
    pub scope: Scope,
    pub limit: u64,
    /// What the acknowledged updates weigh that the site has not reported.
    pub lag: u64,
}

/// Stops a cluster when it is dropped, also by a panic.
#[must_use = "it stops the cluster when it is dropped"]
pub struct StopOnDrop<'a>(&'a Cluster);

impl Drop for StopOnDrop<'_> {
    fn drop(&mut self) {
        self.0.stop();
    }
}

/// Threads.
impl Cluster {
    fn of(mut sys: sys::Cluster, has_threads: bool) -> Result<Cluster, Error> {
        if has_threads {
            done(sys.start())?;
        }
        Ok(Cluster { sys, has_threads })
    }

    /// Its sites, in the order of their declarations.
    pub fn sites(&self) -> impl ExactSizeIterator<Item = SiteId> {
        (0..self.sys.sites()).map(SiteId)
    }

    /// Applies at a site what is sent to it, until the cluster is stopped and all of it is applied. It is for a program with threads of its
    /// own, and needs one thread for each site, and another one for the keeper. The refusal is `UnknownSite`.
    ///
    /// ```
    /// use ordup::cluster::{Builder, Error, Session, FOREVER};
    ///
    /// let mut builder = Builder::new()?;
    /// let tea = builder.object("tea", 40)?;
    /// let shop = builder.site("shop", 64)?;
    /// let cluster = builder.without_threads().open()?;
    /// std::thread::scope(|scope| {
    ///     scope.spawn(|| cluster.keeper());
    ///     for site in cluster.sites() {
    ///         let cluster = &cluster;
    ///         scope.spawn(move || cluster.applier(site));
    ///     }
    ///     let _stop = cluster.stop_on_drop(); // else a panic here would wait for the appliers
    ///     let mut session = Session::default();
    ///     cluster.propose(&mut session, &[tea.add(2)], FOREVER)?;
    ///     assert_eq!(cluster.read_when_level(&mut session, shop, tea, FOREVER)?.value, 42);
    ///     Ok::<(), Error>(())
    /// })?;
    /// cluster.close()?;
    /// # Ok::<(), Error>(())
    /// ```
    pub fn applier(&self, site: SiteId) -> Result<(), Error> {
        done(self.sys.applier(site.0))
    }

    /// Finishes what no caller waits for, until the cluster is stopped. It is for a program with threads of its own.
    pub fn keeper(&self) {
        self.sys.keeper();
    }

    /// Ends the appliers, each once its site has applied what was sent, and the keeper. Proposals are refused from now on, and who waits is
    /// woken and answered.
    pub fn stop(&self) {
        self.sys.stop();
    }

    /// A guard that stops the cluster when it is dropped, also by a panic.
    pub fn stop_on_drop(&self) -> StopOnDrop<'_> {
        StopOnDrop(self)
    }
}

/// Updates.
impl Cluster {
    /// Numbers a message set as the next update, and waits until it is acknowledged. It answers the number, and the session has seen it.
    ///
    /// Where the time is over, or the cluster is stopped meanwhile, the error is `NotYet` with the number: **the update stands**. After all
    /// other errors nothing was numbered. They are `Stopped`, `NoMemory`, and the refusals `UnknownObject`, `OutOfRange`, `TooMany`,
    /// `Empty`, `Repeated`, `LogFull`.
    ///
    /// ```
    /// # use ordup::cluster::{Builder, Error, Session, FOREVER};
    /// # let mut builder = Builder::new()?;
    /// # let tea = builder.object("tea", 40)?;
    /// # let rye = builder.object("rye", 0)?;
    /// # let shop = builder.site("shop", 64)?;
    /// # let cluster = builder.open()?;
    /// # let mut session = Session::default();
    /// cluster.propose(&mut session, &[tea.add(-3), rye.max(7)], FOREVER)?;
    /// assert_eq!(session.seen, 1);
    /// # Ok::<(), Error>(())
    /// ```
    pub fn propose(&self, session: &mut Session, changes: &[Change], timeout: Duration) -> Result<u64, Error> {
        self.propose_if(session, changes, &[], timeout)
    }

    /// The same, if each condition is met by the values after the update and all before it. Else the error is `Unmet`, with the index of the
    /// first condition that is not met.
    ///
    /// ```
    /// # use ordup::cluster::{Builder, Error, Session, FOREVER};
    /// # let mut builder = Builder::new()?;
    /// # let tea = builder.object("tea", 3)?;
    /// # let shop = builder.site("shop", 64)?;
    /// # let cluster = builder.open()?;
    /// # let mut session = Session::default();
    /// assert_eq!(cluster.propose_if(&mut session, &[tea.add(-2)], &[tea.at_least(0)], FOREVER), Ok(1));
    /// assert_eq!(cluster.propose_if(&mut session, &[tea.add(-2)], &[tea.at_least(0)], FOREVER), Err(Error::Unmet { index: 0 }));
    /// # Ok::<(), Error>(())
    /// ```
    pub fn propose_if(
        &self,
        session: &mut Session,
        changes: &[Change],
        conditions: &[Condition],
        timeout: Duration,
    ) -> Result<u64, Error> {
        let (mut number, mut unmet) = (0, 0);
        match self.sys.propose_if(session, changes, conditions, ms(timeout), &mut number, &mut unmet) {
            NOT_YET => Err(Error::NotYet { number }),
            UNMET => Err(Error::Unmet { index: unmet }),
            status => done(status).map(|()| number),
        }
    }

    /// Waits until the update with this number is acknowledged. The session has then seen it.
    ///
    /// The error is `NotYet`, or the refusal `OutOfRange` where no update has this number.
    pub fn settle(&self, session: &mut Session, number: u64, timeout: Duration) -> Result<(), Error> {
        match self.sys.settle(session, number, ms(timeout)) {
            NOT_YET => Err(Error::NotYet { number }),
            status => done(status),
        }
    }

    /// Waits until all updates are acknowledged and sent to each site, which then applies them, also after `stop`. The error is
    /// `Unfinished`.
    pub fn finish(&self, timeout: Duration) -> Result<(), Error> {
        done(self.sys.finish(ms(timeout)))
    }
}

/// Reads. Each takes the lock of one site.
impl Cluster {
    /// Reads an object at a site, which has applied all that the session has seen. The session has then seen what the site has applied.
    ///
    /// The error is `Behind`, or a refusal: `UnknownSite`, `UnknownObject`.
    #[inline]
    pub fn read(&self, session: &mut Session, site: SiteId, object: ObjectId) -> Result<Seen, Error> {
        let mut out = Seen::default();
        match self.sys.read(session, site.0, object, &mut out) {
            DONE => Ok(out),
            BEHIND => Err(Error::Behind { applied: out.applied }),
            status => Err(fault(status)),
        }
    }

    /// The same, which waits until the site has applied what the session has seen. `Behind`: not in this time.
    pub fn read_when_level(&self, session: &mut Session, site: SiteId, object: ObjectId, timeout: Duration) -> Result<Seen, Error> {
        let mut out = Seen::default();
        match self.sys.read_when_level(session, site.0, object, ms(timeout), &mut out) {
            DONE => Ok(out),
            BEHIND => Err(Error::Behind { applied: out.applied }),
            status => Err(fault(status)),
        }
    }

    /// Reads several objects as `read` does one. All values are of one state.
    pub fn read_many(&self, session: &mut Session, site: SiteId, objects: &[ObjectId]) -> Result<Snapshot, Error> {
        self.read_many_when_level(session, site, objects, Duration::ZERO)
    }

    /// The same, which waits until the site has applied what the session has seen. `Behind`: not in this time.
    ///
    /// ```
    /// # use ordup::cluster::{Builder, Error, Session, Snapshot, FOREVER};
    /// # let mut builder = Builder::new()?;
    /// # let tea = builder.object("tea", 40)?;
    /// # let rye = builder.object("rye", 0)?;
    /// # let shop = builder.site("shop", 64)?;
    /// # let cluster = builder.open()?;
    /// # let mut session = Session::default();
    /// cluster.propose(&mut session, &[tea.add(-3), rye.add(3)], FOREVER)?;
    /// let snapshot = cluster.read_many_when_level(&mut session, shop, &[rye, tea], FOREVER)?;
    /// assert_eq!(snapshot, Snapshot { values: vec![3, 37], applied: 1 });
    /// # Ok::<(), Error>(())
    /// ```
    pub fn read_many_when_level(
        &self,
        session: &mut Session,
        site: SiteId,
        objects: &[ObjectId],
        timeout: Duration,
    ) -> Result<Snapshot, Error> {
        let (mut values, mut applied) = (room(objects.len())?, 0);
        match self.sys.read_many_when_level(session, site.0, objects, ms(timeout), &mut values, &mut applied) {
            DONE => Ok(Snapshot { values, applied }),
            BEHIND => Err(Error::Behind { applied }),
            status => Err(fault(status)),
        }
    }

    /// Begins a query at a site, which imports at most so much: what its reads miss of the updates that are acknowledged now.
    ///
    /// The error is `NoMemory`, or a refusal: `UnknownSite`, or `OutOfRange` for the limit.
    ///
    /// ```
    /// # use ordup::cluster::{Builder, Error, Session, FOREVER};
    /// # let mut builder = Builder::new()?;
    /// # let tea = builder.object("tea", 40)?;
    /// # let shop = builder.site("shop", 64)?;
    /// # let cluster = builder.open()?;
    /// cluster.propose(&mut Session::default(), &[tea.add(-3)], FOREVER)?;
    /// let mut query = cluster.query(shop, 5)?;
    /// let read = query.read(tea)?;
    /// assert!((read.value, read.import) == (40, 3) || (read.value, read.import) == (37, 0));
    /// assert_eq!(query.end()?.place, 1);
    /// # Ok::<(), Error>(())
    /// ```
    pub fn query(&self, site: SiteId, import_limit: u64) -> Result<Query<'_>, Error> {
        self.sys.begin(site.0, import_limit).map(Query).map_err(fault)
    }
}

/// Limits, numbers, records.
impl Cluster {
    /// Changes the limit of a site on a scope, or begins one. It answers the number of the first update that it is for.
    ///
    /// The error is `NoMemory`, or a refusal: `UnknownObject`, `UnknownGroup`, `UnknownSite`, `OutOfRange`, `TooMany`, `HeadPending`
    /// while an update waits for sites, `LagOver` where the site lags by more now.
    pub fn relimit(&self, site: SiteId, scope: Scope, amount: u64) -> Result<u64, Error> {
        let mut place = 0;
        done(self.sys.relimit(site.0, scope.code(), amount, &mut place))?;
        Ok(place)
    }

    /// The numbers of the cluster. It takes no lock.
    pub fn numbers(&self) -> Numbers {
        self.sys.count()
    }

    /// The numbers of a site. The refusal is `UnknownSite`.
    pub fn site_numbers(&self, site: SiteId) -> Result<SiteNumbers, Error> {
        let mut out = SiteNumbers::default();
        done(self.sys.site_count(site.0, &mut out))?;
        Ok(out)
    }

    /// Each limit of a site with its lag, all of one moment. The error is `NoMemory`, or the refusal `UnknownSite`.
    ///
    /// ```
    /// # use ordup::cluster::{Builder, Error, Lag, Scope, Session, FOREVER};
    /// # let mut builder = Builder::new()?;
    /// # let tea = builder.object("tea", 40)?;
    /// # let shop = builder.site("shop", 64)?;
    /// builder.limit(shop, Scope::Count, 100)?;
    /// let cluster = builder.open()?;
    /// assert_eq!(cluster.lags(shop)?, [Lag { scope: Scope::Count, limit: 100, lag: 0 }]);
    /// # Ok::<(), Error>(())
    /// ```
    pub fn lags(&self, site: SiteId) -> Result<Vec<Lag>, Error> {
        let lags = filled(LIMITS, |lags: &mut [RawLag], count| self.sys.lags(site.0, lags, count))?;
        let lag = |it: &RawLag| Some(Lag { scope: Scope::of(it.kind, it.id)?, limit: it.amount, lag: it.weight });
        lags.iter().map(|it| lag(it).ok_or(Error::Unknown(it.kind))).collect()
    }

    /// The record of a site in this cluster, for an auditor: what `ordup check` and [`check`](crate::check) take. Proposals wait meanwhile.
    ///
    /// The error is `NoMemory`, or the refusal `UnknownSite`.
    pub fn record(&self, site: SiteId) -> Result<String, Error> {
        let rows = filled(RECORD, |rows, written| self.sys.record(site.0, rows, written))?;
        String::from_utf8(rows).map_err(|_| Error::Unknown(MORE))
    }
}

impl fmt::Debug for Cluster {
    fn fmt(&self, f: &mut fmt::Formatter<'_>) -> fmt::Result {
        f.debug_struct("Cluster").field("sites", &self.sys.sites()).field("numbers", &self.numbers()).finish()
    }
}

/// A time in milliseconds, rounded up, or `sys::FOREVER`.
fn ms(time: Duration) -> u64 {
    u64::try_from((time.as_nanos() + 999_999) / 1_000_000).unwrap_or(sys::FOREVER)
}

/// So many empty values.
fn room<T: Clone + Default>(count: usize) -> Result<Vec<T>, Error> {
    let mut room = Vec::new();
    room.try_reserve_exact(count).map_err(|_| Error::NoMemory)?;
    room.resize(count, T::default());
    Ok(room)
}

/// What a call writes, which says how much room it needs. That may be more each time, as the cluster goes on.
fn filled<T: Clone + Default>(first: usize, mut call: impl FnMut(&mut [T], &mut usize) -> u32) -> Result<Vec<T>, Error> {
    let (mut given, mut written) = (room(first)?, 0);
    loop {
        match call(&mut given, &mut written) {
            DONE => {
                given.truncate(written);
                return Ok(given);
            }
            MORE => given = room(written.saturating_add(written / 8))?,
            status => return Err(fault(status)),
        }
    }
}
