//! The record of a site, and its rows, from the store.

use std::io::{self, Write};

use crate::answers::{put, Out};
use crate::lag::Scope;
use crate::store::Store;
use crate::updates::Change;
use crate::words::Kind;

impl Kind {
    /// The word of the kind.
    pub fn word(self) -> &'static [u8] {
        match self {
            Kind::Add => b"add",
            Kind::Set => b"set",
            Kind::Mul => b"mul",
            Kind::Max => b"max",
            Kind::Min => b"min",
            Kind::Take => b"take",
        }
    }
}

impl Store {
    /// Prints the record of a site. The buffer is written whenever it has so many bytes.
    pub fn record(&self, site: usize, most: usize, out: &mut Out, output: &mut impl Write) -> io::Result<()> {
        let site = &self.sites[site];
        let has_places = site.limits.iter().any(|limit| limit.place > 1);
        put!(out, b"ordup,", 1 + usize::from(has_places), b",", site.name, b",", self.decided, b"\n");
        for (index, (&name, &value)) in self.objects.words().iter().zip(&self.first_values).enumerate() {
            put!(out, b"object,", index + 1, b",", name, b",", value, b"\n");
        }
        let mut counter = 0_usize;
        for (&group, members) in self.groups.words().iter().zip(&self.members) {
            for &member in members {
                counter += 1;
                put!(out, b"member,", counter, b",", group, b",", self.objects.words()[member], b"\n");
            }
            out.write_from(most, output)?;
        }
        for (index, limit) in site.limits.iter().enumerate() {
            put!(out, b"limit,", index + 1, b",");
            match limit.scope {
                Scope::Object(object) => put!(out, b"object:", self.objects.words()[object]),
                Scope::Group(group) => put!(out, b"group:", self.groups.words()[group]),
                Scope::All => put!(out, b"all"),
                Scope::Count => put!(out, b"count"),
            }
            put!(out, b",", limit.amount);
            if has_places {
                put!(out, b"@", limit.place as usize);
            }
            put!(out, b"\n");
        }
        for index in 0..self.decided {
            for (position, change) in self.log.after(index).iter().enumerate() {
                put!(out, b"change,", index + 1, b",", position + 1, b",");
                self.put_change(change, out);
            }
            out.write_from(most, output)?;
        }
        for &(place, report) in &site.reports {
            put!(out, b"report,", place as usize, b",", report as usize, b",-\n");
            out.write_from(most, output)?;
        }
        for (index, round) in site.rounds.iter().enumerate() {
            put!(out, b"round,", index + 1, b",", round.to, b",-\n");
            out.write_from(most, output)?;
        }
        for (index, round) in site.rounds.iter().enumerate() {
            put!(out, b"window,", index + 1, b",", round.from, b",", round.to, b"\n");
            out.write_from(most, output)?;
        }
        Ok(())
    }

    #[inline]
    fn put_change(&self, change: &Change, out: &mut Out) {
        let objects = self.objects.words();
        put!(out, change.kind.word(), b":", objects[usize::from(change.object)], b":");
        match change.kind {
            Kind::Take => put!(out, objects[change.operand as usize], b"\n"),
            _ => put!(out, i64::from(change.operand), b"\n"),
        }
    }
}
