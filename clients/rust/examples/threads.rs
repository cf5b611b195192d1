//! Runs a plan from the standard input in a cluster, and prints what came of it, as `ordup threads CALLERS` but for the last lines:
//!
//!     threads CALLERS [EPOCHS FOLDER]
//!
//! EPOCHS clusters, one after the other, share the sets evenly. FOLDER gets the record of each site in each: `EPOCH_SITE.csv`.

use ordup::cluster::{Builder, Change, Cluster, Error, GroupId, ObjectId, Refusal, Scope, Session, SiteId, FOREVER};
use std::collections::HashMap;
use std::path::Path;
use std::sync::atomic::{AtomicU64, Ordering};
use std::{env, fs, io, thread};

type Result<T> = std::result::Result<T, Box<dyn std::error::Error>>;

struct Plan {
    builder: Builder,
    names: Vec<String>,
    objects: HashMap<String, ObjectId>,
    groups: HashMap<String, GroupId>,
    sites: Vec<(String, SiteId)>,
    sets: Vec<Vec<Change>>,
}

impl Plan {
    fn new() -> Result<Plan> {
        let (objects, groups, builder) = (HashMap::new(), HashMap::new(), Builder::new()?);
        Ok(Plan { builder, names: vec![], objects, groups, sites: vec![], sets: vec![] })
    }

    fn object(&self, name: &str) -> Result<ObjectId> {
        Ok(*self.objects.get(name).ok_or("no such object")?)
    }

    fn change(&self, text: &str) -> Result<Change> {
        let parts: Vec<_> = text.split(':').collect();
        let [kind, object, operand] = parts[..] else { return Err("no change".into()) };
        let of = self.object(object)?;
        Ok(match kind {
            "add" => of.add(operand.parse()?),
            "set" => of.set(operand.parse()?),
            "mul" => of.mul(operand.parse()?),
            "max" => of.max(operand.parse()?),
            "min" => of.min(operand.parse()?),
            _ => of.take(self.object(operand)?),
        })
    }

    fn read(&mut self, line: &str) -> Result<()> {
        match line.split(' ').collect::<Vec<_>>()[..] {
            ["object", name, initial] => {
                let id = self.builder.object(name, initial.parse()?)?;
                self.names.push(name.to_owned());
                self.objects.insert(name.to_owned(), id);
            }
            ["group", name, ref members @ ..] => {
                let members = members.iter().map(|it| self.object(it)).collect::<Result<Vec<_>>>()?;
                self.groups.insert(name.to_owned(), self.builder.group(name, &members)?);
            }
            ["site", name, capacity] => self.sites.push((name.to_owned(), self.builder.site(name, capacity.parse()?)?)),
            ["limit", site, ref scope @ .., amount] => {
                let (_, site) = *self.sites.iter().find(|(name, _)| name == site).ok_or("no such site")?;
                let scope = match *scope {
                    ["object", name] => Scope::Object(self.object(name)?),
                    ["group", name] => Scope::Group(*self.groups.get(name).ok_or("no such group")?),
                    ["all"] => Scope::All,
                    _ => Scope::Count,
                };
                self.builder.limit(site, scope, amount.parse()?)?;
            }
            ["propose", ref set @ ..] => self.sets.push(set.iter().map(|it| self.change(it)).collect::<Result<_>>()?),
            _ => assert_eq!(line, "start"),
        }
        Ok(())
    }

    /// The callers propose their sets of some.
    fn run(&self, cluster: &Cluster, sessions: &mut [Session], from: usize, to: usize, out: &Outcome) {
        let (callers, sets) = (sessions.len(), &self.sets);
        thread::scope(|scope| {
            for (me, session) in sessions.iter_mut().enumerate() {
                scope.spawn(move || {
                    for set in (from..to).filter(|set| set % callers == me) {
                        match cluster.propose(session, &sets[set], FOREVER) {
                            Ok(_) => {}
                            Err(Error::NotYet { .. }) => count(&out.pending),
                            Err(Error::Refused(Refusal::OutOfRange | Refusal::LogFull)) => count(&out.refused),
                            Err(why) => panic!("{why}"),
                        }
                    }
                });
            }
        });
    }

    fn print(&self, cluster: &Cluster, out: &Outcome, rounds: &[u64]) -> Result<()> {
        println!("log {}\nrefused {:?}\npending {:?}", cluster.numbers().length, out.refused, out.pending);
        for ((name, site), rounds) in self.sites.iter().zip(rounds) {
            print!("site {name} applied {} rounds {rounds}", cluster.site_numbers(*site)?.applied);
            for name in &self.names {
                print!(" {name}={}", cluster.read(&mut Session::default(), *site, self.object(name)?)?.value);
            }
            println!();
        }
        Ok(())
    }
}

#[derive(Default)]
struct Outcome {
    refused: AtomicU64,
    pending: AtomicU64,
}

fn count(which: &AtomicU64) {
    which.fetch_add(1, Ordering::SeqCst);
}

fn main() -> Result<()> {
    let words: Vec<_> = env::args().skip(1).collect();
    let (callers, epochs, folder) = match &words[..] {
        [callers] => (callers.parse()?, 1, None),
        [callers, epochs, folder] => (callers.parse()?, epochs.parse()?, Some(Path::new(folder))),
        _ => return Err("usage: threads CALLERS [EPOCHS FOLDER]".into()),
    };
    let (mut plan, out) = (Plan::new()?, Outcome::default());
    for line in io::stdin().lines() {
        plan.read(&line?)?;
    }
    let (mut sessions, mut rounds) = (vec![Session::default(); callers], vec![0; plan.sites.len()]);
    let mut cluster = plan.builder.open()?;
    for epoch in 0..epochs {
        plan.run(&cluster, &mut sessions, plan.sets.len() * epoch / epochs, plan.sets.len() * (epoch + 1) / epochs, &out);
        cluster.finish(FOREVER)?;
        let mut closed = cluster.close()?;
        for (at, ((_, site), rounds)) in plan.sites.iter().zip(&mut rounds).enumerate() {
            *rounds += closed.site_numbers(*site)?.rounds;
            if let Some(folder) = folder {
                fs::write(folder.join(format!("{epoch}_{at}.csv")), closed.record(*site)?)?;
            }
        }
        if epoch + 1 == epochs {
            return plan.print(&closed, &out, &rounds);
        }
        cluster = closed.successor()?;
    }
    Err("no epochs".into())
}
