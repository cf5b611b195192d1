//! A replicated store with a proved bound on its lag, in this process: a binding of `libordup`. The crate has no dependencies.
//!
//! - A [`Cluster`] is for the threads of a program: each site has an applier of its own, proposals wait, and readers do not.
//!   [`cluster`] has it and an example.
//! - A [`Store`] is for scripts: it has a method for each command of docs/FORMATS.md, and [`Store::run`] for the lines of many. The program
//!   moves updates by `send`, `apply` and `report`. Threads share a [`SharedStore`].
//!
//! docs/EMBEDDING.md says what is proved of the library. This crate keeps to what `ordup.h` and `ordup_cluster.h` ask of a caller, but for
//! the stack, of which a call wants 128 KB, and for the allocator and the processor, which are the program's. The library takes memory by
//! `malloc`, and [`Error::NoMemory`] says that this has none left.
//!
//! ```
//! use ordup::{Change, Scope, Settled, Store};
//!
//! let mut store = Store::new()?;
//! store.object("tea", 40)?;
//! store.site("south", 2)?;
//! store.limit("south", Scope::Object("tea"), 6)?;
//! store.start()?;
//! assert_eq!(store.propose(&[("tea", Change::Add(-5))])?, 1);
//! assert_eq!(store.settle()?, Settled::Acked { place: 1 });
//! assert_eq!(store.show("south")?.value("tea"), Some(40));
//! # Ok::<(), ordup::Error>(())
//! ```

#![deny(unsafe_code, unsafe_op_in_unsafe_fn)]

mod answer;
pub mod cluster;
mod commands;
mod error;
mod store;
#[allow(unsafe_code)]
mod sys;

pub use answer::{Answer, Certified, Ended, Read, SeriesVerdict, Settled, Shown, Verdict};
pub use cluster::Cluster;
pub use commands::{Change, Scope};
pub use error::{Error, Refused};
pub use store::{check, check_series, Outcome, SharedStore, Store};
