//! Writes a script for ordup: `load KIND LINES`, or `load recorded UPDATES`; or a plan: `load planned SETS`.
//!
//! The same words give the same bytes each time, and a longer script of a kind
//! begins with the shorter one; so does a plan, but for the last sets of the
//! shorter one. A new kind is one more line in `main`.

mod random;

use random::Random;
use std::env;
use std::io::{self, BufWriter, Write};
use std::process::ExitCode;

/// Writes lines up to a number of them, and is silent from then on.
struct Script<W> {
    to: W,
    left: u64,
}

impl<W: Write> Script<W> {
    fn line(&mut self, line: std::fmt::Arguments) -> io::Result<()> {
        if self.left == 0 {
            return Ok(());
        }
        self.left -= 1;
        self.to.write_fmt(line)?;
        self.to.write_all(b"\n")
    }
}

const OBJECTS: [&str; 16] = [
    "tea", "rice", "salt_fine", "salt_coarse", "oil", "beans_1kg", "beans_5kg", "x", "y",
    "coffee_ground", "coffee_beans", "water_still_05l", "water_still_15l", "soap", "lamp_e27", "rope",
];

struct Site {
    name: &'static str,
    capacity: u64,
    sent: u64,
    applied: u64,
}

/// Updates of one change over 16 objects, each of them sent to and applied at 4
/// sites. One line in a thousand shows a site. What is sent stays close to what is
/// proposed, and feeds are mostly neither empty nor full; about one line in a
/// hundred is drawn with no regard to that, so that some are refused: about one in five
/// thousand. Four changes in five add, the others set. There is about one `propose` to
/// four `send` and four `apply`, in an order drawn at random. Nothing is settled.
fn first<W: Write>(script: &mut Script<W>, names: [&'static str; 4]) -> io::Result<()> {
    let mut random = Random(1);
    let site = |at: usize, capacity| Site { name: names[at], capacity, sent: 0, applied: 0 };
    let mut sites = [site(0, 64), site(1, 128), site(2, 256), site(3, 1024)];
    for (index, name) in OBJECTS.iter().enumerate() {
        script.line(format_args!("object {name} {}", index * 100))?;
    }
    for site in &sites {
        script.line(format_args!("site {} {}", site.name, site.capacity))?;
    }
    script.line(format_args!("start"))?;
    let mut proposed = 0;
    while script.left > 0 {
        let at = random.below(4) as usize;
        let site = &mut sites[at];
        if random.one_in(1000) {
            script.line(format_args!("show {}", site.name))?;
            continue;
        }
        let is_careless = random.one_in(100);
        let unsent = proposed - site.sent;
        let waiting = site.sent - site.applied;
        let can_send = unsent > 0 && waiting < site.capacity;
        let can_apply = waiting > 0;
        let wants_send = match (unsent > 4, waiting > 16) {
            (true, false) => random.below(4) > 0,
            (false, true) => random.one_in(4),
            _ => random.one_in(2),
        };
        let proposes = random.below(9) == 0 && unsent < 64 || !can_send && !can_apply;
        if proposes && !is_careless {
            proposed += 1;
            let object = OBJECTS[random.below(16) as usize];
            if random.one_in(5) {
                script.line(format_args!("propose set:{object}:{}", random.below(100_000)))?;
            } else {
                let amount = random.below(2001) as i64 - 1000;
                script.line(format_args!("propose add:{object}:{amount}"))?;
            }
        } else if if is_careless { wants_send } else { can_send && (wants_send || !can_apply) } {
            site.sent += u64::from(can_send);
            script.line(format_args!("send {}", site.name))?;
        } else {
            site.applied += u64::from(can_apply);
            script.line(format_args!("apply {}", site.name))?;
        }
    }
    Ok(())
}

#[derive(Clone, Copy)]
enum Scope {
    Object(usize),
    Group(usize),
    All,
    Count,
}

/// A site with limits.
struct Replica {
    name: String,
    capacity: usize,
    limits: Vec<(Scope, u64)>,
    sent: usize,
    applied: usize,
    reported: usize,
    /// How far what it applied moved each object.
    travelled: Vec<u64>,
}

struct Query {
    name: String,
    site: usize,
    left: u64,
    marks: Vec<u64>,
    reads: u64,
}

/// A store under load, of which so much is known that mostly lines are written that are
/// accepted, and that a round is met by reports of its sites.
struct Store<'a, W> {
    script: &'a mut Script<W>,
    random: Random,
    objects: Vec<String>,
    groups: Vec<(String, Vec<usize>)>,
    sites: Vec<Replica>,
    /// The objects' values at the end of the log.
    values: Vec<i64>,
    /// Of each update the objects that it moved, and how far.
    log: Vec<Vec<(usize, u64)>>,
    acknowledged: usize,
    /// How far the acknowledged updates moved each object.
    marks: Vec<u64>,
    queries: Vec<Option<Query>>,
    begun: usize,
}

impl<'a, W: Write> Store<'a, W> {
    fn new(script: &'a mut Script<W>, objects: Vec<String>, queries: usize) -> Store<'a, W> {
        let count = objects.len();
        Store {
            script,
            random: Random(1),
            objects,
            groups: Vec::new(),
            sites: Vec::new(),
            values: (0..count as i64).map(|place| place * 100).collect(),
            log: Vec::new(),
            acknowledged: 0,
            marks: vec![0; count],
            queries: (0..queries).map(|_| None).collect(),
            begun: 0,
        }
    }

    fn group(&mut self, name: String, members: Vec<usize>) {
        self.groups.push((name, members));
    }

    fn site(&mut self, name: String, capacity: usize, limits: Vec<(Scope, u64)>) {
        let travelled = vec![0; self.objects.len()];
        self.sites.push(Replica { name, capacity, limits, sent: 0, applied: 0, reported: 0, travelled });
    }

    fn start(&mut self) -> io::Result<()> {
        for (name, value) in self.objects.iter().zip(&self.values) {
            self.script.line(format_args!("object {name} {value}"))?;
        }
        for (name, members) in &self.groups {
            let members: Vec<_> = members.iter().map(|&object| self.objects[object].as_str()).collect();
            self.script.line(format_args!("group {name} {}", members.join(" ")))?;
        }
        for Replica { name, capacity, .. } in &self.sites {
            self.script.line(format_args!("site {name} {capacity}"))?;
        }
        for Replica { name, limits, .. } in &self.sites {
            for &(scope, amount) in limits {
                self.script.line(format_args!("limit {name} {} {amount}", self.words_of(scope)))?;
            }
        }
        self.script.line(format_args!("start"))
    }

    fn words_of(&self, scope: Scope) -> String {
        match scope {
            Scope::Object(object) => format!("object {}", self.objects[object]),
            Scope::Group(group) => format!("group {}", self.groups[group].0),
            Scope::All => "all".to_owned(),
            Scope::Count => "count".to_owned(),
        }
    }

    fn any_site(&mut self) -> usize {
        self.random.below(self.sites.len() as u64) as usize
    }

    fn any_object(&mut self) -> usize {
        self.random.below(self.objects.len() as u64) as usize
    }

    /// Draws a change of the object, as a word and the value that it leads to: half of
    /// them add, and a tenth each is of one of the other kinds.
    fn draw_change(&mut self, object: usize) -> (String, i64) {
        let (name, value) = (&self.objects[object], self.values[object]);
        let amount = self.random.below(10_000) as i64;
        match self.random.below(10) {
            0 => (format!("set:{name}:{amount}"), amount),
            1 => (format!("max:{name}:{amount}"), value.max(amount)),
            2 => (format!("min:{name}:{amount}"), value.min(amount)),
            3 => {
                let factor = amount % 4 - 1;
                (format!("mul:{name}:{factor}"), value * factor)
            }
            4 => {
                let source = amount as usize % self.objects.len();
                (format!("take:{name}:{}", self.objects[source]), self.values[source])
            }
            _ => {
                let amount = amount % 2001 - 1000;
                (format!("add:{name}:{amount}"), value + amount)
            }
        }
    }

    /// Proposes an update of so many changes at most, which is in range.
    fn propose(&mut self, most: u64) -> io::Result<()> {
        let count = self.random.below(most) + 1;
        let mut line = String::from("propose");
        let mut results: Vec<(usize, i64)> = Vec::new();
        while (results.len() as u64) < count {
            let object = self.any_object();
            let (word, result) = self.draw_change(object);
            if result.abs() > 1_000_000_000 || results.iter().any(|&(other, _)| other == object) {
                continue;
            }
            line.push(' ');
            line.push_str(&word);
            results.push((object, result));
        }
        let distances = results.iter().map(|&(object, result)| (object, self.values[object].abs_diff(result)));
        self.log.push(distances.collect());
        for (object, result) in results {
            self.values[object] = result;
        }
        self.script.line(format_args!("{line}"))
    }

    /// Proposes to add to so many objects, each time a number of such a size.
    fn propose_addition(&mut self, changes: u64, least: i64, most: i64) -> io::Result<()> {
        let mut line = String::from("propose");
        let mut objects: Vec<usize> = Vec::new();
        while (objects.len() as u64) < changes {
            let object = self.any_object();
            if objects.contains(&object) {
                continue;
            }
            objects.push(object);
            let size = least + self.random.below((most - least + 1) as u64) as i64;
            let amount = if self.random.one_in(2) { size } else { -size };
            line.push_str(&format!(" add:{}:{amount}", self.objects[object]));
        }
        self.script.line(format_args!("{line}"))
    }

    fn send(&mut self, site: usize) -> io::Result<()> {
        let site = &mut self.sites[site];
        let is_accepted = site.sent < self.log.len() && site.sent - site.applied < site.capacity;
        site.sent += usize::from(is_accepted);
        self.script.line(format_args!("send {}", site.name))
    }

    fn apply(&mut self, site: usize) -> io::Result<()> {
        let site = &mut self.sites[site];
        if site.applied < site.sent {
            for &(object, distance) in &self.log[site.applied] {
                site.travelled[object] += distance;
            }
            site.applied += 1;
        }
        self.script.line(format_args!("apply {}", site.name))
    }

    fn report(&mut self, site: usize) -> io::Result<()> {
        let site = &mut self.sites[site];
        site.reported = site.applied;
        self.script.line(format_args!("report {}", site.name))
    }

    /// Sends the site all that it lacks, of which it applies all but the last few.
    fn bring_up(&mut self, site: usize, unapplied: usize) -> io::Result<()> {
        while self.sites[site].sent < self.log.len() {
            if self.sites[site].sent - self.sites[site].applied == self.sites[site].capacity {
                self.apply(site)?;
            }
            self.send(site)?;
        }
        while self.sites[site].applied + unapplied < self.log.len() {
            self.apply(site)?;
        }
        Ok(())
    }

    fn weight(&self, update: usize, scope: Scope) -> u64 {
        let moved = self.log[update].iter();
        match scope {
            Scope::Object(object) => moved.filter(|moved| moved.0 == object).map(|moved| moved.1).sum(),
            Scope::Group(group) => {
                moved.filter(|moved| self.groups[group].1.contains(&moved.0)).map(|moved| moved.1).sum()
            }
            Scope::All => moved.map(|moved| moved.1).sum(),
            Scope::Count => 1,
        }
    }

    /// Whether the site has a forced round at the update after the acknowledged ones.
    fn is_forced(&self, site: &Replica) -> bool {
        let span = site.reported..self.acknowledged + 1;
        let is_over =
            |&(scope, amount): &(Scope, u64)| span.clone().map(|update| self.weight(update, scope)).sum::<u64>() > amount;
        site.limits.iter().any(is_over)
    }

    /// Settles the first update that is not acknowledged. Where it has a forced round, the
    /// sites of the round are brought up and report, and it is settled once more.
    fn settle(&mut self) -> io::Result<()> {
        self.script.line(format_args!("settle"))?;
        if self.acknowledged == self.log.len() {
            return Ok(());
        }
        let forced: Vec<usize> = (0..self.sites.len()).filter(|&site| self.is_forced(&self.sites[site])).collect();
        if !forced.is_empty() {
            if self.random.one_in(4) {
                self.script.line(format_args!("settle"))?;
            }
            for site in forced {
                self.bring_up(site, 0)?;
                self.report(site)?;
            }
            self.script.line(format_args!("settle"))?;
        }
        for &(object, distance) in &self.log[self.acknowledged] {
            self.marks[object] += distance;
        }
        self.acknowledged += 1;
        Ok(())
    }

    /// Changes a limit of some site to between half of what it was declared with and three halves. That is refused where the
    /// site lags by more.
    fn relimit(&mut self, declared: &[(Scope, u64)]) -> io::Result<()> {
        let (site, limit) = (self.any_site(), self.random.below(declared.len() as u64) as usize);
        let (scope, most) = declared[limit];
        let amount = most / 2 + self.random.below(most + 1);
        let lag: u64 = (self.sites[site].reported..self.acknowledged).map(|update| self.weight(update, scope)).sum();
        if lag <= amount {
            self.sites[site].limits[limit].1 = amount;
        }
        self.script.line(format_args!("relimit {} {} {amount}", self.sites[site].name, self.words_of(scope)))
    }

    fn begin(&mut self, slot: usize, site: usize, left: u64) -> io::Result<()> {
        self.begun += 1;
        let name = format!("cart_{}", self.begun);
        self.script.line(format_args!("begin {name} {} {left}", self.sites[site].name))?;
        self.queries[slot] = Some(Query { name, site, left, marks: self.marks.clone(), reads: 0 });
        Ok(())
    }

    /// Reads an object, and tells whether the read is accepted.
    fn read(&mut self, slot: usize) -> io::Result<bool> {
        let object = self.any_object();
        let query = self.queries[slot].as_mut().expect("the query is open");
        let import = self.sites[query.site].travelled[object].abs_diff(query.marks[object]);
        let is_accepted = import <= query.left && query.reads < 256;
        if is_accepted {
            query.left -= import;
            query.reads += 1;
        }
        self.script.line(format_args!("read {} {}", query.name, self.objects[object]))?;
        Ok(is_accepted)
    }

    fn close(&mut self, slot: usize, word: &str) -> io::Result<()> {
        let query = self.queries[slot].take().expect("the query is open");
        self.script.line(format_args!("{word} {}", query.name))
    }

    fn show(&mut self) -> io::Result<()> {
        let site = self.any_site();
        self.script.line(format_args!("show {}", self.sites[site].name))
    }
}

fn goods() -> Vec<String> {
    OBJECTS.iter().map(|&name| name.to_owned()).collect()
}

fn four_sites<W: Write>(store: &mut Store<W>, limits: &[(Scope, u64)]) {
    for (name, capacity) in [("north", 4), ("south", 8), ("east", 16), ("west_depot", 64)] {
        store.site(name.to_owned(), capacity, limits.to_vec());
    }
}

/// 16 objects, a group of four of them, and 4 sites with four limits each. An update of
/// one to three changes is proposed, mostly sent to and applied at each site, and settled.
/// Then each site reports, or not, with the same chance, so spans stay short. Between updates
/// queries go on, of which four are open: they begin, read a few times and end. An update takes
/// about fifteen lines, three of them for queries. About one in twenty has a forced round, and
/// each of the four limits is passed at times. One line in 170 is refused.
fn mixed<W: Write>(script: &mut Script<W>) -> io::Result<()> {
    let mut store = Store::new(script, goods(), 4);
    store.group("drinks".to_owned(), vec![9, 10, 11, 12]);
    let limits = [(Scope::Object(10), 7_000), (Scope::Group(0), 24_000), (Scope::All, 48_000), (Scope::Count, 7)];
    four_sites(&mut store, &limits);
    store.start()?;
    while store.script.left > 0 {
        store.propose(3)?;
        for site in 0..4 {
            match store.random.below(8) {
                0 => (),
                1 => store.bring_up(site, 1)?,
                _ => store.bring_up(site, 0)?,
            }
        }
        store.settle()?;
        for site in 0..4 {
            if store.random.one_in(2) {
                store.report(site)?;
            }
        }
        for _ in 0..3 {
            let slot = store.random.below(4) as usize;
            if store.queries[slot].is_none() {
                let left = store.random.below(100_000);
                let site = store.any_site();
                store.begin(slot, site, left)?;
            } else if store.random.one_in(4) {
                store.close(slot, "end")?;
            } else {
                store.read(slot)?;
            }
        }
        if store.random.one_in(100) {
            store.show()?;
        }
        if store.random.one_in(50) {
            let site = store.any_site();
            store.send(site)?;
            store.apply(site)?;
        }
    }
    Ok(())
}

/// 256 objects, 32 groups and 16 sites with 64 limits each. An update of one to four
/// changes is proposed, sent to and applied at every site, and settled. Then three sites
/// in four report. After one update in fifty a site is shown. The limits are on all objects,
/// on the count, on every group and on 30 objects; the declarations take 1,329 lines. An
/// update takes about 46 lines, and about one in twenty has a forced round.
fn wide<W: Write>(script: &mut Script<W>) -> io::Result<()> {
    let objects = (0..256).map(|place| format!("bin_{}_{}", place / 8, place % 8)).collect();
    let mut store = Store::new(script, objects, 0);
    for group in 0..32 {
        let members = (0..16).map(|member| (group * 8 + member) % 256).collect();
        store.group(format!("shelf_{group}"), members);
    }
    for site in 0..16 {
        let mut limits = vec![(Scope::All, 64_000), (Scope::Count, 6)];
        limits.extend((0..32).map(|group| (Scope::Group(group), 32_000)));
        limits.extend((0..30).map(|object| (Scope::Object((site * 16 + object * 5) % 256), 16_000)));
        store.site(format!("shop_{}", site + 1), 1024, limits);
    }
    store.start()?;
    while store.script.left > 0 {
        store.propose(4)?;
        for site in 0..16 {
            store.bring_up(site, 0)?;
        }
        store.settle()?;
        for site in 0..16 {
            if store.random.below(4) > 0 {
                store.report(site)?;
            }
        }
        if store.random.one_in(50) {
            store.show()?;
        }
    }
    Ok(())
}

/// 16 objects, a group of four of them, and 16 sites with four limits each: so many that up to 1,000,000 lines no site has
/// more limits with their places than a store keeps. An update of one to three changes is proposed, sent to and applied at
/// every site, and settled. Then each site reports, or not, with the same chance. One line in a hundred changes a limit. One
/// change in 200 is refused, since what the site has not reported weighs more. About one update in four has a forced round.
fn limited<W: Write>(script: &mut Script<W>) -> io::Result<()> {
    let lines = script.left;
    let mut store = Store::new(script, goods(), 0);
    store.group("drinks".to_owned(), vec![9, 10, 11, 12]);
    let limits = [(Scope::Object(10), 7_000), (Scope::Group(0), 24_000), (Scope::All, 48_000), (Scope::Count, 7)];
    for site in 0..16 {
        store.site(format!("shop_{}", site + 1), 64, limits.to_vec());
    }
    store.start()?;
    let mut changed = 0;
    while store.script.left > 0 {
        store.propose(3)?;
        for site in 0..16 {
            store.bring_up(site, 0)?;
        }
        store.settle()?;
        for site in 0..16 {
            if store.random.one_in(2) {
                store.report(site)?;
            }
        }
        while changed < (lines - store.script.left) / 100 {
            changed += 1;
            store.relimit(&limits)?;
        }
    }
    Ok(())
}

/// 16 objects, 4 sites with four limits each, and up to 64 open queries. Nine lines in ten
/// belong to queries, nearly all of them reads. A query ends after one to 256 reads, or is
/// abandoned after a read that was refused. Between the reads updates go on in small steps,
/// so that sites stand before and behind what a query began with, and nine reads in ten import
/// more than 0. One query in four has an import limit that it mostly meets; one read in 200 is
/// refused. Half of the queries end after fewer than 80 reads.
fn queries<W: Write>(script: &mut Script<W>) -> io::Result<()> {
    let mut store = Store::new(script, goods(), 64);
    store.group("drinks".to_owned(), vec![9, 10, 11, 12]);
    let limits = [(Scope::Object(10), 12_000), (Scope::Group(0), 48_000), (Scope::All, 96_000), (Scope::Count, 12)];
    four_sites(&mut store, &limits);
    store.start()?;
    while store.script.left > 0 {
        if store.random.one_in(9) {
            let site = store.any_site();
            let unsettled = store.log.len() - store.acknowledged;
            let unapplied = store.random.below(3) as usize;
            match store.random.below(8) {
                0 if unsettled < 4 => store.propose(3)?,
                0 | 1 if unsettled > 0 => store.settle()?,
                2 | 3 => store.report(site)?,
                _ => store.bring_up(site, unapplied)?,
            }
            continue;
        }
        let slot = store.random.below(64) as usize;
        let Some(query) = &store.queries[slot] else {
            let most = if store.random.one_in(4) { 200_000 } else { 1_000_000_000_000 };
            let left = store.random.below(most);
            let site = store.any_site();
            store.begin(slot, site, left)?;
            continue;
        };
        if query.reads == 256 || store.random.one_in(128) {
            store.close(slot, "end")?;
        } else if !store.read(slot)? && store.random.one_in(2) {
            store.close(slot, "abandon")?;
        }
    }
    Ok(())
}

const GREATEST_AMOUNT: u64 = 1_000_000_000_000_000_000;
const NORTH: usize = 0;
const ARCHIVE: usize = 1;

/// 16 objects, a group of four of them, and two sites with these limits each. The archive is behind in one way or another.
fn two_sites<'a, W: Write>(script: &'a mut Script<W>, queries: usize, limits: &[(Scope, u64)]) -> Store<'a, W> {
    let mut store = Store::new(script, goods(), queries);
    store.group("drinks".to_owned(), vec![9, 10, 11, 12]);
    for (name, capacity) in [("north", 8), ("archive", 1024)] {
        store.site(name.to_owned(), capacity, limits.to_vec());
    }
    store
}

/// Two sites without limits, and up to 64 open queries at the archive. It applies one update in four, so it lags ever
/// farther: by 24,000 updates at the end of 1,000,000 lines. Five lines in six are reads, which nearly all import more than 0.
/// None is refused.
fn behind<W: Write>(script: &mut Script<W>) -> io::Result<()> {
    let mut store = two_sites(script, 64, &[]);
    store.start()?;
    while store.script.left > 0 {
        if store.random.one_in(9) {
            match store.random.below(13) {
                0..=3 => store.propose(3)?,
                4..=7 if store.acknowledged < store.log.len() => store.settle()?,
                8..=11 => store.bring_up(NORTH, 0)?,
                _ => {
                    store.send(ARCHIVE)?;
                    store.apply(ARCHIVE)?;
                }
            }
            continue;
        }
        let slot = store.random.below(64) as usize;
        match &store.queries[slot] {
            None => store.begin(slot, ARCHIVE, GREATEST_AMOUNT)?,
            Some(query) if query.reads == 256 => store.close(slot, "end")?,
            Some(_) => _ = store.read(slot)?,
        }
    }
    Ok(())
}

/// An update of one change is proposed, sent to and applied at both sites and settled. Then the north reports.
fn carry<W: Write>(script: &mut Script<W>, change: std::fmt::Arguments) -> io::Result<()> {
    script.line(format_args!("propose {change}"))?;
    for site in ["north", "archive"] {
        script.line(format_args!("send {site}"))?;
        script.line(format_args!("apply {site}"))?;
    }
    script.line(format_args!("settle"))?;
    script.line(format_args!("report north"))
}

fn any_addition(random: &mut Random) -> (&'static str, i64) {
    let object = OBJECTS[random.below(16) as usize];
    (object, random.below(2001) as i64 - 1000)
}

/// The archive never reports. So update 501 has a forced round, and waits for it to the end of the script. Updates go on,
/// with four settlements each. From line 5,000 on these are answered `ok waiting`; before that three in four find nothing to
/// settle.
fn waiting<W: Write>(script: &mut Script<W>) -> io::Result<()> {
    let limits =
        [(Scope::Object(10), 100_000), (Scope::Group(0), 200_000), (Scope::All, 1_000_000), (Scope::Count, 500)];
    two_sites(script, 0, &limits).start()?;
    let mut random = Random(1);
    while script.left > 0 {
        let (object, amount) = any_addition(&mut random);
        carry(script, format_args!("add:{object}:{amount}"))?;
        for _ in 0..3 {
            script.line(format_args!("settle"))?;
        }
    }
    Ok(())
}

/// Updates that move no value: an update adds 0, sets what is there, multiplies by 1 or takes the object's own value. The archive
/// never reports. Its limits, 10^18 on the count and else 0, are never passed: each settlement weighs for it all updates.
fn unmoved<W: Write>(script: &mut Script<W>) -> io::Result<()> {
    let limits = [(Scope::Object(10), 0), (Scope::Group(0), 0), (Scope::All, 0), (Scope::Count, GREATEST_AMOUNT)];
    two_sites(script, 0, &limits).start()?;
    let mut random = Random(1);
    while script.left > 0 {
        let place = random.below(16) as usize;
        let (object, value) = (OBJECTS[place], place * 100);
        match random.below(4) {
            0 => carry(script, format_args!("add:{object}:0"))?,
            1 => carry(script, format_args!("set:{object}:{value}"))?,
            2 => carry(script, format_args!("mul:{object}:1"))?,
            _ => carry(script, format_args!("take:{object}:{object}"))?,
        }
    }
    Ok(())
}

/// The archive reports after every 3,000 updates. The limits, on the group and on all objects, are never passed. The span that a
/// settlement asks about is 1,500 updates long on average.
fn spans<W: Write>(script: &mut Script<W>) -> io::Result<()> {
    two_sites(script, 0, &[(Scope::Group(0), 500_000), (Scope::All, 5_000_000)]).start()?;
    let mut random = Random(1);
    let mut proposed = 0;
    while script.left > 0 {
        let (object, amount) = any_addition(&mut random);
        carry(script, format_args!("add:{object}:{amount}"))?;
        proposed += 1;
        if proposed % 3000 == 0 {
            script.line(format_args!("report archive"))?;
        }
    }
    Ok(())
}

/// So many updates of one to three changes over the objects and sites of `mixed`, for the record of a site. Each is sent
/// to and applied at every site and settled, and then each site reports, or not, with the same chance. An update takes about twelve
/// lines, and about one in fifty has a forced round of the site. Of 1,000,000 updates the record has 2,500,000 rows, of which two
/// million are changes.
fn recorded<W: Write>(script: &mut Script<W>) -> io::Result<()> {
    let updates = std::mem::replace(&mut script.left, u64::MAX);
    let mut store = Store::new(script, goods(), 0);
    store.group("drinks".to_owned(), vec![9, 10, 11, 12]);
    let limits = [(Scope::Object(10), 7_000), (Scope::Group(0), 24_000), (Scope::All, 48_000), (Scope::Count, 7)];
    four_sites(&mut store, &limits);
    store.start()?;
    for _ in 0..updates {
        store.propose(3)?;
        for site in 0..4 {
            store.bring_up(site, 0)?;
        }
        store.settle()?;
        for site in 0..4 {
            if store.random.one_in(2) {
                store.report(site)?;
            }
        }
    }
    Ok(())
}

/// A record of so many updates of one change, with as many limits, groups and members as a site may have, and a round, a
/// report and a window for each place, since no update may be unreported.
fn checked_wide<W: Write>(script: &mut Script<W>) -> io::Result<()> {
    const MOST: u64 = 1_000_000_000_000_000_000;
    let updates = std::mem::replace(&mut script.left, u64::MAX);
    let mut random = Random(1);
    script.line(format_args!("ordup,1,south,{updates}"))?;
    for object in 0..256 {
        script.line(format_args!("object,{},bin_{object},0", object + 1))?;
    }
    for index in 0..2048 {
        let (group, member) = (index / 64, index % 64);
        script.line(format_args!("member,{},shelf_{group},bin_{}", index + 1, (group * 8 + member) % 256))?;
    }
    script.line(format_args!("limit,1,all,{MOST}"))?;
    script.line(format_args!("limit,2,count,0"))?;
    for group in 0..32 {
        script.line(format_args!("limit,{},group:shelf_{group},{MOST}", group + 3))?;
    }
    for object in 0..30 {
        script.line(format_args!("limit,{},object:bin_{},{MOST}", object + 35, object * 8))?;
    }
    for place in 1..=updates {
        let (object, amount) = (random.below(256), random.below(9) + 1);
        script.line(format_args!("change,{place},1,add:bin_{object}:{amount}"))?;
    }
    for place in 2..=updates {
        script.line(format_args!("report,{place},{},-", place - 1))?;
    }
    for place in 1..=updates {
        script.line(format_args!("round,{place},{place},-"))?;
    }
    for place in 1..=updates {
        script.line(format_args!("window,{place},{},{place}", place - 1))?;
    }
    Ok(())
}

/// A record of so many updates of two changes, with as many limits, groups and members as a site may have. Two updates together
/// pass the last limit, so there is a round at each second place. The windows are from both ends of the record in turn, so the
/// second one meets the first. Each passes the last limit alone, and all objects weigh more than any limit allows.
fn checked_back<W: Write>(script: &mut Script<W>) -> io::Result<()> {
    let updates = std::mem::replace(&mut script.left, u64::MAX);
    let mut random = Random(1);
    script.line(format_args!("ordup,1,south,{updates}"))?;
    for object in 0..256 {
        script.line(format_args!("object,{},bin_{object},0", object + 1))?;
    }
    for index in 0..2048 {
        let (group, member) = (index / 64, index % 64);
        let object = if group == 31 { 192 + member } else { (group * 6 + member) % 192 };
        script.line(format_args!("member,{},shelf_{group},bin_{object}", index + 1))?;
    }
    for object in 0..32 {
        script.line(format_args!("limit,{},object:bin_{object},18", object + 1))?;
    }
    for group in 0..32 {
        let amount = if group == 31 { 199 } else { 18 };
        script.line(format_args!("limit,{},group:shelf_{group},{amount}", group + 33))?;
    }
    for place in 1..=updates {
        let (object, amount) = (random.below(192), random.below(9) + 1);
        script.line(format_args!("change,{place},1,add:bin_{}:100", 192 + random.below(64)))?;
        script.line(format_args!("change,{place},2,add:bin_{object}:{amount}"))?;
    }
    let rounds = updates / 2;
    for round in 1..=rounds {
        script.line(format_args!("round,{round},{},-", 2 * round))?;
    }
    for window in 0..rounds {
        let pair = if window % 2 == 0 { rounds - window / 2 } else { window / 2 + 1 };
        script.line(format_args!("window,{},{},{}", window + 1, 2 * pair - 2, 2 * pair))?;
    }
    Ok(())
}

/// Updates of one change, each sent to, applied at, settled and reported by two sites; every hundredth line is a certificate. About
/// one update in 160 has a forced round. A certificate lists all windows of its site, so the answers have 2.5 MB at 100,000 lines
/// and 69 MB at 1,000,000.
fn certified<W: Write>(script: &mut Script<W>) -> io::Result<()> {
    let limits = [(Scope::Object(10), 7_000), (Scope::Group(0), 24_000), (Scope::All, 48_000), (Scope::Count, 7)];
    let lines = script.left;
    let mut store = two_sites(script, 0, &limits);
    store.start()?;
    let mut certified = 0;
    while store.script.left > 0 {
        store.propose(1)?;
        for site in 0..2 {
            store.bring_up(site, 0)?;
        }
        store.settle()?;
        for site in 0..2 {
            store.report(site)?;
        }
        let written = lines - store.script.left;
        if written / 100 > certified {
            certified = written / 100;
            store.script.line(format_args!("certify archive"))?;
        }
    }
    Ok(())
}

/// How many sets at the end of a plan force a round. There are at most as many callers, so the last update of the log is one of
/// these sets, in whatever order the callers propose them.
const LAST_SETS: u64 = 16;
/// How many sets in a row force none.
const MOST_LIGHT_SETS: u64 = 98;

/// So many sets over the objects and sites of `mixed`, all of which add, in range in any order. A light set has one to three changes
/// and weighs at most 9; a heavy one has one change and weighs more than 1,000, which forces a round of every site. Between two heavy
/// sets the light ones weigh less than any limit, and are fewer. About one set in forty is heavy. So with one caller each site has
/// as many rounds as there are heavy sets. With several it may have more or fewer: light sets pile up, and a site may apply a heavy
/// set before that is decided. Once the last set is acknowledged, each site has applied the whole log.
fn planned<W: Write>(script: &mut Script<W>) -> io::Result<()> {
    let sets = std::mem::replace(&mut script.left, u64::MAX);
    let mut store = Store::new(script, goods(), 0);
    store.group("drinks".to_owned(), vec![9, 10, 11, 12]);
    let limits = [(Scope::Object(10), 1_000), (Scope::Group(0), 1_000), (Scope::All, 1_000), (Scope::Count, 100)];
    four_sites(&mut store, &limits);
    store.start()?;
    let mut light = 0;
    for left in (0..sets).rev() {
        if light == MOST_LIGHT_SETS || left < LAST_SETS || store.random.one_in(50) {
            light = 0;
            store.propose_addition(1, 1_001, 2_000)?;
        } else {
            light += 1;
            let changes = store.random.below(3) + 1;
            store.propose_addition(changes, 1, 3)?;
        }
    }
    Ok(())
}

fn main() -> ExitCode {
    let words: Vec<String> = env::args().skip(1).collect();
    let lines = words.get(1).and_then(|word| word.parse().ok());
    let (2, Some(left)) = (words.len(), lines) else {
        eprintln!("usage: load KIND LINES, load recorded UPDATES or load planned SETS");
        return ExitCode::from(2);
    };
    let mut script = Script { to: BufWriter::new(io::stdout().lock()), left };
    let written = match words[0].as_str() {
        "first" => first(&mut script, ["north", "south", "east", "west_depot"]),
        "short" => first(&mut script, ["a", "b", "c", "d"]),
        "mixed" => mixed(&mut script),
        "wide" => wide(&mut script),
        "queries" => queries(&mut script),
        "limited" => limited(&mut script),
        "behind" => behind(&mut script),
        "waiting" => waiting(&mut script),
        "unmoved" => unmoved(&mut script),
        "spans" => spans(&mut script),
        "recorded" => recorded(&mut script),
        "checked-wide" => checked_wide(&mut script),
        "checked-back" => checked_back(&mut script),
        "certified" => certified(&mut script),
        "planned" => planned(&mut script),
        kind => {
            eprintln!("load: no kind of load is named {kind}");
            return ExitCode::from(2);
        }
    };
    match written.and_then(|()| script.to.flush()) {
        Ok(()) => ExitCode::SUCCESS,
        Err(error) => {
            eprintln!("load: {error}");
            ExitCode::FAILURE
        }
    }
}
