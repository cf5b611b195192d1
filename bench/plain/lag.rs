//! What each limit of a site has left.

use crate::answers::Refusal;
use crate::updates::Change;

#[derive(Clone, Copy, PartialEq, Eq)]
pub enum Scope {
    Object(usize),
    Group(usize),
    All,
    Count,
}

/// An amount that a scope may weigh, from a place on.
#[derive(Clone, Copy)]
pub struct Limit {
    pub scope: Scope,
    pub amount: i64,
    pub place: u32,
}

/// How many of a list of limits hold at a place: those that begin there or before.
pub fn in_force(limits: &[Limit], place: usize) -> usize {
    limits.partition_point(|limit| limit.place as usize <= place)
}

/// The places of the limits on all objects and on the count. Where the site has none of
/// the two, it has one there that no log passes.
const ALL: usize = 0;
const COUNT: usize = 1;
const FREE: i64 = 1 << 62;

/// For each limit of a site its amount less the weight of the span from what the site
/// reported to what is decided. Each weight is below 2^57, so nothing overflows.
pub struct Lag {
    is_bounded: bool,
    scopes: Vec<Scope>,
    amounts: Vec<i64>,
    left: Vec<i64>,
    /// The limits that an object concerns, on itself and on its groups: for object x the
    /// places `starts[x]..starts[x + 1]` of `concerned`.
    starts: Vec<u16>,
    concerned: Vec<u8>,
}

impl Lag {
    /// Of several limits on one scope the last one counts.
    pub fn new(limits: &[Limit], objects: usize, groups: &[Vec<usize>]) -> Lag {
        let mut scopes = vec![Scope::All, Scope::Count];
        let mut amounts = vec![FREE, FREE];
        let mut by_object = vec![Vec::new(); objects];
        for limit in limits {
            if let Some(place) = scopes.iter().position(|&scope| scope == limit.scope) {
                amounts[place] = limit.amount;
                continue;
            }
            let place = amounts.len() as u8;
            match limit.scope {
                Scope::Object(object) => by_object[object].push(place),
                Scope::Group(group) => groups[group].iter().for_each(|&object| by_object[object].push(place)),
                Scope::All | Scope::Count => (),
            }
            scopes.push(limit.scope);
            amounts.push(limit.amount);
        }
        let mut lag = Lag {
            is_bounded: !limits.is_empty(),
            left: amounts.clone(),
            scopes,
            amounts,
            starts: vec![0],
            concerned: Vec::new(),
        };
        for places in by_object {
            lag.concerned.extend(places);
            lag.starts.push(lag.concerned.len() as u16);
        }
        lag
    }

    /// The place of the limit on a scope, where there is one.
    pub fn find(&self, scope: Scope) -> Option<usize> {
        self.scopes.iter().position(|&other| other == scope).filter(|&place| self.amounts[place] != FREE)
    }

    /// On how many scopes there is a limit.
    pub fn count(&self) -> usize {
        self.amounts.iter().filter(|&&amount| amount != FREE).count()
    }

    /// Gives the limit at a place another amount, where the span does not weigh more.
    pub fn change(&mut self, place: usize, amount: i64) -> Result<(), Refusal> {
        let left = amount - (self.amounts[place] - self.left[place]);
        Refusal::LagOver.when(left < 0)?;
        self.amounts[place] = amount;
        self.left[place] = left;
        Ok(())
    }

    /// The limits that the change concerns, but for those on all and on the count.
    #[inline]
    fn concerned<'a>(starts: &[u16], concerned: &'a [u8], change: &Change) -> &'a [u8] {
        let object = usize::from(change.object);
        &concerned[usize::from(starts[object])..usize::from(starts[object + 1])]
    }

    /// Adds one more update to the span, and tells whether a limit is passed now.
    pub fn extend(&mut self, changes: &[Change]) -> bool {
        if !self.is_bounded {
            return false;
        }
        let mut total = 0;
        let mut signs = 0;
        for change in changes {
            let distance = i64::from(change.distance);
            total += distance;
            for &place in Lag::concerned(&self.starts, &self.concerned, change) {
                let left = &mut self.left[usize::from(place)];
                *left -= distance;
                signs |= *left;
            }
        }
        self.left[ALL] -= total;
        self.left[COUNT] -= 1;
        (signs | self.left[ALL] | self.left[COUNT]) < 0
    }

    /// Takes the first update off the span.
    pub fn shorten(&mut self, changes: &[Change]) {
        if !self.is_bounded {
            return;
        }
        for change in changes {
            let distance = i64::from(change.distance);
            self.left[ALL] += distance;
            for &place in Lag::concerned(&self.starts, &self.concerned, change) {
                self.left[usize::from(place)] += distance;
            }
        }
        self.left[COUNT] += 1;
    }

    /// Takes all updates off the span.
    pub fn clear(&mut self) {
        self.left.copy_from_slice(&self.amounts);
    }
}
