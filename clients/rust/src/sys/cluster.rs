//! The functions of `ordup_cluster.h`, and the declarations of `ordup_holds.h`. The types of the caller that they take lie in memory as there.

use std::ffi::c_void;
use std::marker::PhantomData;
use std::ptr::{self, NonNull};

pub const DONE: u32 = 0;
pub const MORE: u32 = 1;
pub const UNMET: u32 = 12;
pub const REFUSED: u32 = 100;
pub const FOREVER: u64 = u64::MAX;

/// An object of a cluster and of those that follow it.
#[repr(transparent)]
#[derive(Clone, Copy, Debug, PartialEq, Eq, PartialOrd, Ord, Hash)]
pub struct ObjectId(pub(crate) u32);

/// A change of an object: what its value becomes. The changes of one update all read the values before it. [`ObjectId`] makes them.
#[repr(C)]
#[derive(Clone, Copy, Debug, PartialEq, Eq)]
pub struct Change {
    pub(crate) object: ObjectId,
    pub(crate) op: u32,
    pub(crate) operand: i64,
}

/// What an object must be after an update for it to be numbered. [`ObjectId`] makes them.
#[repr(C)]
#[derive(Clone, Copy, Debug, PartialEq, Eq)]
pub struct Condition {
    pub(crate) object: ObjectId,
    pub(crate) bound: u32,
    pub(crate) number: i64,
}

/// What the calls of one caller have seen: a thread, a request, a user. Its reads go never back behind it, and see its own updates.
///
/// It is that of a cluster and of those that follow it, whose numbers go on.
#[repr(C)]
#[derive(Clone, Debug, Default, PartialEq, Eq)]
pub struct Session {
    /// How many updates. A service may give it to its client, and take it back with the next request.
    pub seen: u64,
}

/// A value that was read at a site.
#[repr(C)]
#[derive(Clone, Copy, Debug, Default, PartialEq, Eq)]
pub struct Seen {
    pub value: i64,
    /// How many updates the site had applied: it is the value after these.
    pub applied: u64,
}

/// A value that was read for a query.
#[repr(C)]
#[derive(Clone, Copy, Debug, Default, PartialEq, Eq)]
pub struct Charged {
    pub value: i64,
    /// What this read imports: how far the value is at most from that after all updates which were acknowledged as the query began.
    pub import: u64,
    /// What all reads of the query import.
    pub total: u64,
    /// How many updates were acknowledged as the query began.
    pub place: u64,
    /// How many reads there were.
    pub reads: u64,
}

/// What a query told as it ended.
#[repr(C)]
#[derive(Clone, Copy, Debug, Default, PartialEq, Eq)]
pub struct Ended {
    /// How many updates were acknowledged as it began.
    pub place: u64,
    /// The sum of its values.
    pub sum: i64,
    /// The sum of what its reads imported.
    pub total: u64,
    /// How many reads there were.
    pub reads: u64,
}

/// The numbers of a cluster. Those of updates count the ones before it too.
#[repr(C)]
#[derive(Clone, Copy, Debug, Default, PartialEq, Eq)]
pub struct Numbers {
    /// How many updates came before the cluster.
    pub before: u64,
    /// How many there are.
    pub length: u64,
    /// How many of them are acknowledged.
    pub acknowledged: u64,
}

/// The numbers of a site. Those of updates count the ones before the cluster too: `reported <= applied <= sent`.
#[repr(C)]
#[derive(Clone, Copy, Debug, Default, PartialEq, Eq)]
pub struct SiteNumbers {
    pub sent: u64,
    pub applied: u64,
    pub reported: u64,
    /// How many updates of this cluster waited for the site.
    pub rounds: u64,
}

/// `ordup_lag`.
#[repr(C)]
#[derive(Clone, Copy, Default)]
pub struct RawLag {
    pub kind: u32,
    pub id: u32,
    pub amount: u64,
    pub weight: u64,
}

/// `ordup_handle`: none where it is all zero.
#[repr(C)]
struct RawHandle {
    at: *mut c_void,
    mark: u64,
}

const NONE: RawHandle = RawHandle { at: ptr::null_mut(), mark: 0 };

/// `ordup_cluster`.
#[repr(C)]
struct RawCluster {
    _private: [u8; 0],
}

/// `ordup_query`.
#[repr(C)]
struct RawQuery {
    handle: RawHandle,
    cluster: *mut RawCluster,
    before: u64,
    site: u32,
}

extern "C" {
    fn ordup_setup_open(setup: *mut RawHandle) -> u32;
    fn ordup_setup_object(setup: *mut RawHandle, name: *const u8, size: usize, initial: i64, id: *mut u32) -> u32;
    fn ordup_setup_group(setup: *mut RawHandle, name: *const u8, size: usize, objects: *const ObjectId, count: usize, id: *mut u32) -> u32;
    fn ordup_setup_site(setup: *mut RawHandle, name: *const u8, size: usize, capacity: u64, id: *mut u32) -> u32;
    fn ordup_setup_limit(setup: *mut RawHandle, site: u32, kind: u32, id: u32, amount: u64) -> u32;
    fn ordup_handle_close(handle: *mut RawHandle);

    fn ordup_cluster_open(setup: *mut RawHandle, before: u64, cluster: *mut *mut RawCluster) -> u32;
    fn ordup_cluster_sites(cluster: *const RawCluster) -> u32;
    fn ordup_cluster_start(cluster: *mut RawCluster) -> u32;
    fn ordup_cluster_stop(cluster: *mut RawCluster);
    fn ordup_cluster_applier(cluster: *mut RawCluster, site: u32) -> u32;
    fn ordup_cluster_keeper(cluster: *mut RawCluster);
    fn ordup_cluster_close(cluster: *mut RawCluster) -> u32;
    fn ordup_cluster_successor(cluster: *mut RawCluster, successor: *mut *mut RawCluster) -> u32;
    fn ordup_cluster_free(cluster: *mut RawCluster);

    fn ordup_cluster_propose_if(
        cluster: *mut RawCluster,
        session: *mut Session,
        changes: *const Change,
        count: usize,
        conditions: *const Condition,
        condition_count: usize,
        timeout_ms: u64,
        number: *mut u64,
        unmet: *mut usize,
    ) -> u32;
    fn ordup_cluster_settle(cluster: *mut RawCluster, session: *mut Session, number: u64, timeout_ms: u64) -> u32;
    fn ordup_cluster_finish(cluster: *mut RawCluster, timeout_ms: u64) -> u32;

    fn ordup_cluster_read(cluster: *mut RawCluster, session: *mut Session, site: u32, object: ObjectId, out: *mut Seen) -> u32;
    fn ordup_cluster_read_when_level(
        cluster: *mut RawCluster,
        session: *mut Session,
        site: u32,
        object: ObjectId,
        timeout_ms: u64,
        out: *mut Seen,
    ) -> u32;
    fn ordup_cluster_read_many_when_level(
        cluster: *mut RawCluster,
        session: *mut Session,
        site: u32,
        objects: *const ObjectId,
        count: usize,
        timeout_ms: u64,
        values: *mut i64,
        applied: *mut u64,
    ) -> u32;
    fn ordup_cluster_begin(cluster: *mut RawCluster, site: u32, import_limit: u64, query: *mut RawQuery) -> u32;
    fn ordup_cluster_query_read(query: *mut RawQuery, object: ObjectId, out: *mut Charged) -> u32;
    fn ordup_cluster_query_end(query: *mut RawQuery, out: *mut Ended) -> u32;

    fn ordup_cluster_relimit(cluster: *mut RawCluster, site: u32, kind: u32, id: u32, amount: u64, place: *mut u64) -> u32;
    fn ordup_cluster_count(cluster: *const RawCluster, out: *mut Numbers);
    fn ordup_cluster_site_count(cluster: *mut RawCluster, site: u32, out: *mut SiteNumbers) -> u32;
    fn ordup_cluster_lags(cluster: *mut RawCluster, site: u32, lags: *mut RawLag, room: usize, count: *mut usize) -> u32;
    fn ordup_cluster_record(cluster: *mut RawCluster, site: u32, rows: *mut u8, room: usize, written: *mut usize) -> u32;
}

/// What is declared before a cluster is opened.
pub struct Setup(RawHandle);

// SAFETY: a handle may be passed to another thread between two calls, and each takes `&mut`.
unsafe impl Send for Setup {}

// In all blocks below: a setup is all zero or as the last call left it, and the pointers are those of references and slices, as long as they
// say, none of which overlap.
impl Setup {
    pub fn none() -> Setup {
        Setup(NONE)
    }

    pub fn open(&mut self) -> u32 {
        // SAFETY: see above.
        unsafe { ordup_setup_open(&mut self.0) }
    }

    pub fn object(&mut self, name: &str, initial: i64, id: &mut u32) -> u32 {
        // SAFETY: see above.
        unsafe { ordup_setup_object(&mut self.0, name.as_ptr(), name.len(), initial, id) }
    }

    pub fn group(&mut self, name: &str, objects: &[ObjectId], id: &mut u32) -> u32 {
        // SAFETY: see above. An `ObjectId` lies in memory as its number.
        unsafe { ordup_setup_group(&mut self.0, name.as_ptr(), name.len(), objects.as_ptr(), objects.len(), id) }
    }

    pub fn site(&mut self, name: &str, capacity: u64, id: &mut u32) -> u32 {
        // SAFETY: see above.
        unsafe { ordup_setup_site(&mut self.0, name.as_ptr(), name.len(), capacity, id) }
    }

    pub fn limit(&mut self, site: u32, (kind, id): (u32, u32), amount: u64) -> u32 {
        // SAFETY: see above.
        unsafe { ordup_setup_limit(&mut self.0, site, kind, id, amount) }
    }

    /// Opens a cluster after so many updates.
    pub fn cluster(&mut self, before: u64) -> Result<Cluster, u32> {
        // SAFETY: see above.
        opened(|it| unsafe { ordup_cluster_open(&mut self.0, before, it) })
    }
}

impl Drop for Setup {
    fn drop(&mut self) {
        // SAFETY: see above.
        unsafe { ordup_handle_close(&mut self.0) }
    }
}

fn opened(open: impl FnOnce(&mut *mut RawCluster) -> u32) -> Result<Cluster, u32> {
    let mut at = ptr::null_mut();
    match (open(&mut at), NonNull::new(at)) {
        (DONE, Some(at)) => Ok(Cluster(at)),
        (status, _) => Err(status),
    }
}

/// A cluster. It is stopped, its threads are joined and it is freed when it is dropped.
pub struct Cluster(NonNull<RawCluster>);

// SAFETY: any thread may make any call at any time, but those that `ordup_cluster.h` names, which are one thread's at a time: they take
// `&mut self`, or are the drop.
unsafe impl Send for Cluster {}
// SAFETY: the same.
unsafe impl Sync for Cluster {}

// In all blocks below: the cluster is open until the drop, and the pointers are those of references and slices, as long as they say, none of
// which overlap. A session is used by one thread at a time, since it is borrowed by `&mut`.
impl Cluster {
    #[inline]
    fn at(&self) -> *mut RawCluster {
        self.0.as_ptr()
    }

    pub fn sites(&self) -> u32 {
        // SAFETY: see above.
        unsafe { ordup_cluster_sites(self.at()) }
    }

    pub fn start(&mut self) -> u32 {
        // SAFETY: see above.
        unsafe { ordup_cluster_start(self.at()) }
    }

    pub fn stop(&self) {
        // SAFETY: see above.
        unsafe { ordup_cluster_stop(self.at()) }
    }

    pub fn applier(&self, site: u32) -> u32 {
        // SAFETY: see above. Two at one site take turns at its lock.
        unsafe { ordup_cluster_applier(self.at(), site) }
    }

    pub fn keeper(&self) {
        // SAFETY: see above. Two take turns at the lock of the book.
        unsafe { ordup_cluster_keeper(self.at()) }
    }

    pub fn close(&mut self) -> u32 {
        // SAFETY: see above. Since the cluster is borrowed by `&mut`, all other threads have left it.
        unsafe { ordup_cluster_close(self.at()) }
    }

    pub fn successor(&mut self) -> Result<Cluster, u32> {
        // SAFETY: see above.
        opened(|it| unsafe { ordup_cluster_successor(self.at(), it) })
    }

    pub fn propose_if(
        &self,
        session: &mut Session,
        changes: &[Change],
        conditions: &[Condition],
        timeout_ms: u64,
        number: &mut u64,
        unmet: &mut usize,
    ) -> u32 {
        let (change, count) = (changes.as_ptr(), changes.len());
        let (condition, condition_count) = (conditions.as_ptr(), conditions.len());
        // SAFETY: see above.
        unsafe { ordup_cluster_propose_if(self.at(), session, change, count, condition, condition_count, timeout_ms, number, unmet) }
    }

    pub fn settle(&self, session: &mut Session, number: u64, timeout_ms: u64) -> u32 {
        // SAFETY: see above.
        unsafe { ordup_cluster_settle(self.at(), session, number, timeout_ms) }
    }

    pub fn finish(&self, timeout_ms: u64) -> u32 {
        // SAFETY: see above.
        unsafe { ordup_cluster_finish(self.at(), timeout_ms) }
    }

    #[inline]
    pub fn read(&self, session: &mut Session, site: u32, object: ObjectId, out: &mut Seen) -> u32 {
        // SAFETY: see above.
        unsafe { ordup_cluster_read(self.at(), session, site, object, out) }
    }

    pub fn read_when_level(&self, session: &mut Session, site: u32, object: ObjectId, timeout_ms: u64, out: &mut Seen) -> u32 {
        // SAFETY: see above.
        unsafe { ordup_cluster_read_when_level(self.at(), session, site, object, timeout_ms, out) }
    }

    /// `values` are as many as `objects`.
    pub fn read_many_when_level(
        &self,
        session: &mut Session,
        site: u32,
        objects: &[ObjectId],
        timeout_ms: u64,
        values: &mut [i64],
        applied: &mut u64,
    ) -> u32 {
        assert_eq!(objects.len(), values.len());
        let (object, count, value) = (objects.as_ptr(), objects.len(), values.as_mut_ptr());
        // SAFETY: see above.
        unsafe { ordup_cluster_read_many_when_level(self.at(), session, site, object, count, timeout_ms, value, applied) }
    }

    pub fn begin(&self, site: u32, import_limit: u64) -> Result<Query<'_>, u32> {
        let mut query = Query { raw: RawQuery { handle: NONE, cluster: ptr::null_mut(), before: 0, site: 0 }, of: PhantomData };
        // SAFETY: see above. All zero is no query.
        match unsafe { ordup_cluster_begin(self.at(), site, import_limit, &mut query.raw) } {
            DONE => Ok(query),
            status => Err(status),
        }
    }

    pub fn relimit(&self, site: u32, (kind, id): (u32, u32), amount: u64, place: &mut u64) -> u32 {
        // SAFETY: see above.
        unsafe { ordup_cluster_relimit(self.at(), site, kind, id, amount, place) }
    }

    pub fn count(&self) -> Numbers {
        let mut out = Numbers::default();
        // SAFETY: see above.
        unsafe { ordup_cluster_count(self.at(), &mut out) }
        out
    }

    pub fn site_count(&self, site: u32, out: &mut SiteNumbers) -> u32 {
        // SAFETY: see above.
        unsafe { ordup_cluster_site_count(self.at(), site, out) }
    }

    pub fn lags(&self, site: u32, room: &mut [RawLag], count: &mut usize) -> u32 {
        // SAFETY: see above.
        unsafe { ordup_cluster_lags(self.at(), site, room.as_mut_ptr(), room.len(), count) }
    }

    pub fn record(&self, site: u32, room: &mut [u8], written: &mut usize) -> u32 {
        // SAFETY: see above.
        unsafe { ordup_cluster_record(self.at(), site, room.as_mut_ptr(), room.len(), written) }
    }
}

impl Drop for Cluster {
    fn drop(&mut self) {
        // SAFETY: it is open, and no thread of the program has it any more.
        unsafe { ordup_cluster_free(self.at()) }
    }
}

/// A query, which reads the cluster as long as it lives. It is ended when it is dropped.
pub struct Query<'a> {
    raw: RawQuery,
    of: PhantomData<&'a Cluster>,
}

// SAFETY: one thread at a time uses it, since each call takes `&mut`, and the cluster is `Sync`.
unsafe impl Send for Query<'_> {}

impl Query<'_> {
    pub fn read(&mut self, object: ObjectId, out: &mut Charged) -> u32 {
        // SAFETY: it is as the last call left it, its cluster is borrowed, and `out` is a reference.
        unsafe { ordup_cluster_query_read(&mut self.raw, object, out) }
    }

    pub fn end(&mut self, out: &mut Ended) -> u32 {
        // SAFETY: as in `read`.
        unsafe { ordup_cluster_query_end(&mut self.raw, out) }
    }
}

impl Drop for Query<'_> {
    fn drop(&mut self) {
        self.end(&mut Ended::default());
    }
}
