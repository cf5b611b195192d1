//! The verdict on a record.

use crate::lag::{in_force, Lag};
use crate::rows::Record;
use crate::store::is_value;
use crate::updates::Held;

/// The number of rounds of a valid record; or the row of the first reason against it, and the reason.
pub fn check(mut record: Record) -> Result<usize, (usize, &'static str)> {
    let first_change = record.rows_before_changes() + 1;
    if let Some(change) = first_illegal(&mut record) {
        return Err((first_change + change, "NotLegal"));
    }
    if let Some(place) = first_over(&record) {
        return Err((first_change + record.log.ends[place - 1] as usize, "LimitsBroken"));
    }
    let first_window = first_change + record.log.changes.len() + record.reports.len() + record.rounds.len();
    let windows = &record.windows;
    let mut lag = LagInForce::at(&record, 1);
    let mut is_light = |from: usize, to: usize| {
        if in_force(&record.limits, to) == lag.limits {
            lag.lag.clear();
        } else {
            lag = LagInForce::at(&record, to);
        }
        !(from..to).any(|place| lag.lag.extend(record.log.after(place)))
    };
    if let Some(place) = windows.iter().position(|window| is_light(window.from, window.to)) {
        return Err((first_window + place, "WindowLight"));
    }
    if let Some(place) = windows.windows(2).position(|pair| pair[1].from < pair[0].to) {
        return Err((first_window + place + 1, "WindowsMeet"));
    }
    let reported_at = |decided: usize| {
        let changes = record.reports.partition_point(|&(place, _)| place as usize <= decided);
        record.reports[..changes].last().map_or(0, |&(_, report)| report as usize)
    };
    if let Some(place) = windows.iter().position(|window| reported_at(window.to) > window.from) {
        return Err((first_window + place, "WindowBeforeReport"));
    }
    if windows.len() != record.rounds.len() {
        return Err((first_window + windows.len() - 1, "CountDiffers"));
    }
    Ok(record.rounds.len())
}

/// The lag by the limits in force at a place, which are the first ones of the record.
struct LagInForce {
    lag: Lag,
    limits: usize,
}

impl LagInForce {
    fn at(record: &Record, place: usize) -> LagInForce {
        let limits = in_force(&record.limits, place);
        LagInForce { lag: Lag::new(&record.limits[..limits], record.values.len(), &record.members), limits }
    }
}

/// The first change with a result out of range. Of those before it the distances are put down.
fn first_illegal(record: &mut Record) -> Option<usize> {
    let mut held: Vec<_> = record.values.iter().map(|&value| Held { value, travelled: 0 }).collect();
    let mut results = Vec::new();
    for index in 0..record.decided {
        let (from, to) = (record.log.ends[index] as usize, record.log.ends[index + 1] as usize);
        let changes = &mut record.log.changes[from..to];
        results.clear();
        results.extend(changes.iter().map(|change| change.result(&held)));
        for ((at, change), &result) in changes.iter_mut().enumerate().zip(&results) {
            if !is_value(result) {
                return Some(from + at);
            }
            let value = &mut held[usize::from(change.object)].value;
            change.distance = value.abs_diff(result) as u32;
            *value = result;
        }
    }
    None
}

/// The first decided place at which the span from its base passes a limit. Bases do not fall, so one span moves along.
fn first_over(record: &Record) -> Option<usize> {
    let (mut reports, mut rounds) = (record.reports.iter().peekable(), record.rounds.iter().peekable());
    let LagInForce { mut lag, mut limits } = LagInForce::at(record, 1);
    let (mut base, mut start) = (0, 0);
    for place in 1..=record.decided {
        if let Some(&(_, report)) = reports.next_if(|&&(decided, _)| decided as usize == place) {
            base = base.max(report as usize);
        }
        if rounds.next_if(|&&round| round as usize == place).is_some() {
            base = base.max(place);
        }
        let is_changed = record.limits.get(limits).is_some_and(|limit| limit.place as usize <= place);
        if is_changed {
            LagInForce { lag, limits } = LagInForce::at(record, place);
        }
        if base >= place {
            lag.clear();
            start = place;
            continue;
        }
        if is_changed {
            start = base;
            let is_over = (start..place - 1).any(|update| lag.extend(record.log.after(update)));
            if is_over {
                return Some(place);
            }
        }
        for passed in start..base {
            lag.shorten(record.log.after(passed));
        }
        start = start.max(base);
        if lag.extend(record.log.after(place - 1)) {
            return Some(place);
        }
    }
    None
}
