//! What is declared before a cluster is opened.

use super::error::{done, fault, Error};
use super::Cluster;
use crate::sys::cluster::{ObjectId, Setup};

/// A group of objects.
#[derive(Clone, Copy, Debug, PartialEq, Eq, PartialOrd, Ord, Hash)]
pub struct GroupId(pub(super) u32);

/// A site: a copy of all values, which lags.
#[derive(Clone, Copy, Debug, PartialEq, Eq, PartialOrd, Ord, Hash)]
pub struct SiteId(pub(super) u32);

/// What a limit weighs of an update.
#[derive(Clone, Copy, Debug, PartialEq, Eq, Hash)]
pub enum Scope {
    /// How far it moves the value of an object.
    Object(ObjectId),
    /// How far it moves the values of a group's members, in sum.
    Group(GroupId),
    /// How far it moves all values, in sum.
    All,
    /// 1.
    Count,
}

impl Scope {
    /// Its kind and its id, as the library has them.
    pub(super) fn code(self) -> (u32, u32) {
        match self {
            Scope::Object(object) => (0, object.0),
            Scope::Group(group) => (1, group.0),
            Scope::All => (2, 0),
            Scope::Count => (3, 0),
        }
    }

    pub(super) fn of(kind: u32, id: u32) -> Option<Scope> {
        match kind {
            0 => Some(Scope::Object(ObjectId(id))),
            1 => Some(Scope::Group(GroupId(id))),
            2 => Some(Scope::All),
            3 => Some(Scope::Count),
            _ => None,
        }
    }
}

/// Declares the objects and the sites of a cluster, and opens it.
///
/// A name is a small letter, and then at most 15 small letters, digits and `_`. A refused call declares nothing: the refusals are `BadName`,
/// `NameTaken`, `OutOfRange`, `TooMany`, and those that a method names.
///
/// ```
/// use ordup::cluster::{Builder, Error, Refusal, Scope};
///
/// let mut builder = Builder::new()?;
/// let tea = builder.object("tea", 40)?;
/// let rye = builder.object("rye", 0)?;
/// let leaves = builder.group("leaves", &[tea, rye])?;
/// let shop = builder.site("shop", 64)?;
/// builder.limit(shop, Scope::Group(leaves), 10)?;
/// assert_eq!(builder.object("tea", 1), Err(Error::Refused(Refusal::NameTaken)));
/// let cluster = builder.open()?;
/// # Ok::<(), Error>(())
/// ```
pub struct Builder {
    setup: Setup,
    before: u64,
    has_threads: bool,
}

impl Builder {
    /// The error is `NoMemory`.
    pub fn new() -> Result<Builder, Error> {
        let mut setup = Setup::none();
        done(setup.open())?;
        Ok(Builder { setup, before: 0, has_threads: true })
    }

    /// Declares an object with its initial value.
    pub fn object(&mut self, name: &str, initial: i64) -> Result<ObjectId, Error> {
        given(|id| self.setup.object(name, initial, id)).map(ObjectId)
    }

    /// Declares a group of objects. More refusals: `UnknownObject`, `Empty`, `Repeated`.
    pub fn group(&mut self, name: &str, members: &[ObjectId]) -> Result<GroupId, Error> {
        given(|id| self.setup.group(name, members, id)).map(GroupId)
    }

    /// Declares a site, to which at most `capacity` updates are on their way.
    pub fn site(&mut self, name: &str, capacity: u64) -> Result<SiteId, Error> {
        given(|id| self.setup.site(name, capacity, id)).map(SiteId)
    }

    /// Limits what the acknowledged updates weigh that a site has not applied: an update that would pass the limit waits for the site.
    /// More refusals: `UnknownSite`, `UnknownObject`, `UnknownGroup`, and `Repeated` where the site has a limit on this scope.
    pub fn limit(&mut self, site: SiteId, scope: Scope, amount: u64) -> Result<(), Error> {
        done(self.setup.limit(site.0, scope.code(), amount))
    }

    /// The clusters that it opens come after so many updates, whose numbers go on. Without it, after none.
    pub fn after(&mut self, before: u64) -> &mut Builder {
        self.before = before;
        self
    }

    /// The clusters that it opens, and those that follow them, start no threads. The program runs [`Cluster::applier`] and
    /// [`Cluster::keeper`] in its own.
    pub fn without_threads(&mut self) -> &mut Builder {
        self.has_threads = false;
        self
    }

    /// Opens a cluster of what is declared, and starts its threads: an applier for each site, and a keeper. The builder may open more.
    ///
    /// The error is `NoMemory`, or a refusal: `Empty` where there is no object or no site, `LogFull` where more than 10^18 updates come
    /// before it.
    pub fn open(&mut self) -> Result<Cluster, Error> {
        Cluster::of(self.setup.cluster(self.before).map_err(fault)?, self.has_threads)
    }
}

fn given(declare: impl FnOnce(&mut u32) -> u32) -> Result<u32, Error> {
    let mut id = 0;
    done(declare(&mut id))?;
    Ok(id)
}
