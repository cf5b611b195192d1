//! What is left of a cluster.

use super::error::{fault, Error};
use super::Cluster;
use crate::sys::cluster::DONE;
use std::fmt;
use std::ops::Deref;

/// A cluster that is closed, whose sites all agree with the log. It answers reads, queries, records and numbers as before.
pub struct Closed(Cluster);

impl Closed {
    /// Opens the cluster that goes on from this one: with the same declarations and ids, each object at its last value, and numbers that
    /// go on. It has threads if this one had. It lives by itself.
    ///
    /// The error is `Unfinished`, `NoMemory`, or the refusal `LogFull` where more than 10^18 updates come before it.
    ///
    /// ```
    /// use ordup::cluster::{Builder, Error, Session, FOREVER};
    ///
    /// let mut builder = Builder::new()?;
    /// let tea = builder.object("tea", 40)?;
    /// let shop = builder.site("shop", 64)?;
    /// let cluster = builder.open()?;
    /// let mut session = Session::default();
    /// assert_eq!(cluster.propose(&mut session, &[tea.add(-3)], FOREVER)?, 1);
    /// cluster.finish(FOREVER)?;
    ///
    /// let mut closed = cluster.close()?;
    /// let cluster = closed.successor()?;
    /// let records = closed.record(shop)?;
    /// drop(closed);
    /// assert_eq!(cluster.propose(&mut session, &[tea.add(-3)], FOREVER)?, 2);
    /// assert_eq!(cluster.read_when_level(&mut session, shop, tea, FOREVER)?.value, 34);
    /// let records = records + &cluster.record(shop)?;
    /// assert!(matches!(ordup::check_series(records.as_bytes()), Ok(ordup::SeriesVerdict::Yes { .. })));
    /// # Ok::<(), Error>(())
    /// ```
    pub fn successor(&mut self) -> Result<Cluster, Error> {
        Cluster::of(self.0.sys.successor().map_err(fault)?, self.0.has_threads)
    }
}

impl Deref for Closed {
    type Target = Cluster;

    fn deref(&self) -> &Cluster {
        &self.0
    }
}

impl fmt::Debug for Closed {
    fn fmt(&self, f: &mut fmt::Formatter<'_>) -> fmt::Result {
        f.debug_tuple("Closed").field(&self.0).finish()
    }
}

/// A cluster that was stopped and could not be closed, and why: `Mixed`, or `NoMemory` after which it may be closed again.
#[derive(Debug)]
pub struct Unclosed {
    pub cluster: Cluster,
    pub why: Error,
}

impl fmt::Display for Unclosed {
    fn fmt(&self, f: &mut fmt::Formatter<'_>) -> fmt::Result {
        write!(f, "the cluster is not closed: {}", self.why)
    }
}

impl std::error::Error for Unclosed {
    fn source(&self) -> Option<&(dyn std::error::Error + 'static)> {
        Some(&self.why)
    }
}

impl From<Unclosed> for Error {
    fn from(unclosed: Unclosed) -> Error {
        unclosed.why
    }
}

impl Cluster {
    /// Stops the cluster, waits until its threads have ended, and compares each site with the log. No other thread can have it then:
    /// who shares it in an `Arc` takes it out by `Arc::try_unwrap`.
    ///
    /// ```compile_fail,E0505
    /// # use ordup::cluster::{Builder, Session, FOREVER};
    /// # let mut builder = Builder::new()?;
    /// # let tea = builder.object("tea", 40)?;
    /// # let shop = builder.site("shop", 64)?;
    /// let cluster = builder.open()?;
    /// let shared = &cluster;
    /// std::thread::scope(|scope| {
    ///     scope.spawn(|| shared.propose(&mut Session::default(), &[tea.add(1)], FOREVER));
    ///     cluster.close()
    /// });
    /// # Ok::<(), ordup::cluster::Error>(())
    /// ```
    pub fn close(mut self) -> Result<Closed, Unclosed> {
        match self.sys.close() {
            DONE => Ok(Closed(self)),
            status => Err(Unclosed { cluster: self, why: fault(status) }),
        }
    }
}
