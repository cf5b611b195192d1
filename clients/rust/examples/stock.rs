//! A service over HTTP: how much of each item there is, by the copies of two sites. `cargo run --example stock -- 127.0.0.1:8080 FOLDER`
//!
//!     curl -X POST localhost:8080/sale/tea/3            {"number": 1, "seen": 1}
//!     curl 'localhost:8080/stock/shop/tea?seen=1'       {"count": 997, "behind": 0, "seen": 1}
//!     curl -X POST localhost:8080/stop                  it leaves the record of each site in FOLDER, for `ordup check`
//!
//! No sale takes more than there is. Who gives `seen` back sees at least what the answer with it saw. `behind` is how many acknowledged
//! updates the answer misses; these move at most 10 bags in the shop, where a sale that would move more waits. In the yard they are any.

use ordup::cluster::{Builder, Cluster, Error, ObjectId, Scope, Session, SiteId};
use std::io::{self, BufRead, BufReader, Write};
use std::net::{TcpListener, TcpStream};
use std::sync::atomic::{AtomicBool, Ordering};
use std::time::Duration;
use std::{env, fs, thread};

const PATIENCE: Duration = Duration::from_secs(2);
const ITEMS: [(&str, i64); 2] = [("tea", 1000), ("rye", 1000)];
const SITES: [&str; 2] = ["shop", "yard"];

struct Service {
    cluster: Cluster,
    items: Vec<ObjectId>,
    sites: Vec<SiteId>,
    stopped: AtomicBool,
}

/// A status of HTTP, and a text; or none for what there is not.
type Answer = Option<(u16, String)>;

impl Service {
    fn open() -> Result<Service, Error> {
        let mut builder = Builder::new()?;
        let items = ITEMS.iter().map(|(name, count)| builder.object(name, *count)).collect::<Result<_, _>>()?;
        let sites: Vec<_> = SITES.iter().map(|name| builder.site(name, 64)).collect::<Result<_, _>>()?;
        builder.limit(sites[0], Scope::All, 10)?;
        Ok(Service { cluster: builder.open()?, items, sites, stopped: AtomicBool::new(false) })
    }

    fn answer(&self, method: &str, path: &str) -> Answer {
        let (path, seen) = path.split_once("?seen=").unwrap_or((path, "0"));
        let mut session = Session { seen: seen.parse().ok()? };
        match (method, &path.split('/').skip(1).collect::<Vec<_>>()[..]) {
            ("GET", ["stock", site, item]) => self.stock(&mut session, self.site(site)?, self.item(item)?),
            ("POST", ["sale", item, count]) => self.change(&mut session, self.item(item)?, -i64::from(count.parse::<u32>().ok()?)),
            ("POST", ["delivery", item, count]) => self.change(&mut session, self.item(item)?, count.parse::<u32>().ok()?.into()),
            ("GET", ["metrics"]) => Some(self.metrics().map_or_else(failed, |text| (200, text))),
            ("POST", ["stop"]) => {
                self.stopped.store(true, Ordering::SeqCst);
                Some((200, "{}\n".into()))
            }
            _ => None,
        }
    }

    fn item(&self, name: &str) -> Option<ObjectId> {
        Some(self.items[ITEMS.iter().position(|(item, _)| *item == name)?])
    }

    fn site(&self, name: &str) -> Option<SiteId> {
        Some(self.sites[SITES.iter().position(|site| *site == name)?])
    }

    fn stock(&self, session: &mut Session, site: SiteId, item: ObjectId) -> Answer {
        Some(match self.cluster.read_when_level(session, site, item, PATIENCE) {
            Ok(read) => {
                let behind = self.cluster.numbers().acknowledged.saturating_sub(read.applied);
                (200, format!("{{\"count\": {}, \"behind\": {behind}, \"seen\": {}}}\n", read.value, session.seen))
            }
            Err(why) => failed(why),
        })
    }

    fn change(&self, session: &mut Session, item: ObjectId, count: i64) -> Answer {
        Some(match self.cluster.propose_if(session, &[item.add(count)], &[item.at_least(0)], PATIENCE) {
            Ok(number) => (200, format!("{{\"number\": {number}, \"seen\": {}}}\n", session.seen)),
            Err(Error::NotYet { number }) => (202, format!("{{\"number\": {number}}}\n")), // it stands
            Err(Error::Unmet { .. }) => (409, "{\"why\": \"there are not so many\"}\n".into()),
            Err(why) => failed(why),
        })
    }

    /// The live numbers in the text form of Prometheus.
    fn metrics(&self) -> Result<String, Error> {
        let (mut text, numbers) = (String::new(), self.cluster.numbers());
        let counts = [("updates_total", numbers.length), ("acknowledged_updates_total", numbers.acknowledged)];
        let mut rows: Vec<_> = counts.map(|(what, count)| (what, String::new(), count)).into();
        for (name, site) in SITES.iter().zip(&self.sites) {
            let (of, labels) = (self.cluster.site_numbers(*site)?, format!("{{site=\"{name}\"}}"));
            let counts = [
                ("sent_updates_total", of.sent),
                ("applied_updates_total", of.applied),
                ("reported_updates_total", of.reported),
                ("awaited_updates_total", of.rounds),
            ];
            rows.extend(counts.map(|(what, count)| (what, labels.clone(), count)));
            for lag in self.cluster.lags(*site)? {
                rows.extend([("lag_bags", labels.clone(), lag.lag), ("limit_bags", labels.clone(), lag.limit)]);
            }
        }
        rows.sort(); // the lines of a name stand together
        for (at, (name, labels, value)) in rows.iter().enumerate() {
            if at == 0 || rows[at - 1].0 != *name {
                let kind = if name.ends_with("_total") { "counter" } else { "gauge" };
                text += &format!("# TYPE ordup_{name} {kind}\n");
            }
            text += &format!("ordup_{name}{labels} {value}\n");
        }
        Ok(text)
    }

    /// Answers one request.
    fn serve(&self, stream: TcpStream) -> io::Result<()> {
        stream.set_read_timeout(Some(PATIENCE))?;
        let (mut lines, mut line) = (BufReader::new(&stream).lines(), String::new());
        while let Some(next) = lines.next().transpose()?.filter(|next| !next.is_empty()) {
            line = if line.is_empty() { next } else { line };
        }
        let mut words = line.split(' ');
        let answer = self.answer(words.next().unwrap_or(""), words.next().unwrap_or(""));
        let (status, text) = answer.unwrap_or((404, "{\"why\": \"there is no such thing\"}\n".into()));
        let kind = if text.starts_with('{') { "application/json" } else { "text/plain; version=0.0.4" };
        write!(&stream, "HTTP/1.1 {status} -\r\nContent-Type: {kind}\r\nContent-Length: {}\r\nConnection: close\r\n\r\n{text}", text.len())
    }
}

fn failed(why: Error) -> (u16, String) {
    (503, format!("{{\"why\": \"{why}\"}}\n"))
}

fn main() -> Result<(), Box<dyn std::error::Error>> {
    let words: Vec<String> = env::args().collect();
    let (address, folder) = (words.get(1).ok_or("an address is missing")?, words.get(2).ok_or("a folder is missing")?);
    let (listener, service) = (TcpListener::bind(address)?, Service::open()?);
    let address = listener.local_addr()?;
    println!("listening on {address}");
    thread::scope(|scope| {
        for stream in listener.incoming().take_while(|_| !service.stopped.load(Ordering::SeqCst)) {
            scope.spawn(|| {
                let served = stream.and_then(|stream| service.serve(stream));
                served.unwrap_or_else(|why| eprintln!("a request: {why}"));
                if service.stopped.load(Ordering::SeqCst) {
                    drop(TcpStream::connect(address)); // so that `incoming` looks again
                }
            });
        }
    });
    service.cluster.finish(PATIENCE)?;
    let closed = service.cluster.close()?;
    for (name, site) in SITES.iter().zip(&service.sites) {
        fs::write(format!("{folder}/{name}.csv"), closed.record(*site)?)?;
    }
    Ok(())
}
