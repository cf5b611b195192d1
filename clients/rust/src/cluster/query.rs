//! Queries at a site.

use super::error::{done, Error};
use crate::sys::cluster::{self as sys, Charged, Ended, ObjectId};

/// A query at a site, which imports at most so much. It reads while the site goes on. It ends when it is dropped.
///
/// It may go from thread to thread, but not live longer than its cluster:
///
/// ```compile_fail,E0505
/// # use ordup::cluster::{Builder, Error};
/// # let mut builder = Builder::new()?;
/// # let tea = builder.object("tea", 40)?;
/// # let shop = builder.site("shop", 64)?;
/// let cluster = builder.open()?;
/// let mut query = cluster.query(shop, 5)?;
/// drop(cluster);
/// query.read(tea)?;
/// # Ok::<(), Error>(())
/// ```
pub struct Query<'a>(pub(super) sys::Query<'a>);

impl Query<'_> {
    /// Reads an object.
    ///
    /// The refusals are `OverImport` where the total would pass the limit, `UnknownObject`, and `TooMany` after 256 reads. The query goes on
    /// after them.
    pub fn read(&mut self, object: ObjectId) -> Result<Charged, Error> {
        let mut out = Charged::default();
        done(self.0.read(object, &mut out))?;
        Ok(out)
    }

    /// Ends the query, and sums up its reads.
    pub fn end(mut self) -> Result<Ended, Error> {
        let mut out = Ended::default();
        done(self.0.end(&mut out))?;
        Ok(out)
    }
}
