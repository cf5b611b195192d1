//! Queries.

use crate::answers::{answer, Out, Refusal};
use crate::store::{is_amount, Store, MOST_QUERIES, MOST_READS};
use crate::words::Word;

pub struct Query {
    pub site: usize,
    pub place: usize,
    pub limit: u64,
    pub total: u64,
    pub sum: i64,
    pub reads: usize,
    /// How far the updates before its begin that were acknowledged moved each object.
    pub marks: Vec<u64>,
}

impl Store {
    pub fn begin(&mut self, name: Word, site: Word, limit: i64, out: &mut Out) -> Result<(), Refusal> {
        self.after_start()?;
        Refusal::BadName.when(!name.is_name())?;
        let site = self.find_site(site)?;
        Refusal::OutOfRange.when(!is_amount(limit))?;
        Refusal::TooMany.when(self.queries.len() - self.unused.len() == MOST_QUERIES)?;
        Refusal::QueryOpen.when(self.open.find(name).is_some())?;
        let mut query = Query {
            site,
            place: self.acknowledged,
            limit: limit as u64,
            total: 0,
            sum: 0,
            reads: 0,
            marks: Vec::new(),
        };
        if let Some(place) = self.unused.pop() {
            let old = &mut self.queries[place];
            query.marks = std::mem::take(&mut old.marks);
            query.marks.copy_from_slice(&self.marks);
            *old = query;
            self.open.insert(name, place);
        } else {
            query.marks = self.marks.clone();
            self.open.insert(name, self.queries.len());
            self.queries.push(query);
        }
        answer!(out, b"ok begun ", name, b" ", self.acknowledged)
    }

    pub fn read(&mut self, name: Word, object_name: Word, out: &mut Out) -> Result<(), Refusal> {
        self.after_start()?;
        let object = self.objects.find(object_name).ok_or(Refusal::UnknownObject)?;
        let query = self.open.find(name).ok_or(Refusal::UnknownQuery)?;
        let query = &mut self.queries[query];
        Refusal::TooMany.when(query.reads == MOST_READS)?;
        let held = self.sites[query.site].held[object];
        let import = held.travelled.abs_diff(query.marks[object]);
        let total = query.total + import;
        Refusal::OverImport.when(total > query.limit)?;
        query.total = total;
        query.sum += held.value;
        query.reads += 1;
        answer!(out, b"ok read ", name, b" ", object_name, b" value ", held.value, b" import ", import, b" total ", total)
    }

    pub fn close(&mut self, name: Word) -> Result<usize, Refusal> {
        self.after_start()?;
        let query = self.open.find(name).ok_or(Refusal::UnknownQuery)?;
        self.open.remove(name);
        self.unused.push(query);
        Ok(query)
    }

    pub fn end(&mut self, name: Word, out: &mut Out) -> Result<(), Refusal> {
        let query = self.close(name)?;
        let query = &self.queries[query];
        answer!(out, b"ok end ", name, b" place ", query.place, b" sum ", query.sum, b" total ", query.total, b" reads ", query.reads)
    }

    pub fn abandon(&mut self, name: Word, out: &mut Out) -> Result<(), Refusal> {
        self.close(name)?;
        answer!(out, b"ok abandoned ", name)
    }
}
