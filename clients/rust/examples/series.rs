//! A service that never stops: a cluster that has had its sales is closed, and its successor goes on. Clerks sell meanwhile. It prints the
//! record of the south of each cluster: `cargo run --example series | ordup check --series`

use ordup::cluster::{Builder, Cluster, Error, ObjectId, Scope, Session, SiteId, FOREVER};
use std::sync::RwLock;
use std::thread;

const CLERKS: u64 = 4;
const SALES: u64 = 25; // of a clerk
const MOST: u64 = 30; // updates of a cluster, after which its successor is opened

struct Service {
    /// A call of a clerk shares it. It is exchanged by one thread alone, and is there whenever no thread has it alone.
    open: RwLock<Option<Cluster>>,
    tea: ObjectId,
    south: SiteId,
}

impl Service {
    fn open() -> Result<Service, Error> {
        let mut builder = Builder::new()?;
        let (tea, south) = (builder.object("tea", 1000)?, builder.site("south", 64)?);
        builder.limit(south, Scope::All, 4)?;
        Ok(Service { open: RwLock::new(Some(builder.open()?)), tea, south })
    }

    /// Sells a bag, and says whether the cluster has had its updates.
    fn sell(&self, session: &mut Session) -> Result<bool, Error> {
        let open = self.open.read().unwrap();
        let cluster = open.as_ref().unwrap();
        cluster.propose_if(session, &[self.tea.add(-1)], &[self.tea.at_least(0)], FOREVER)?;
        Ok(is_full(cluster))
    }

    /// Puts the successor in the place of a cluster that has had its updates, unless another clerk did.
    fn go_on(&self) -> Result<(), Error> {
        let mut open = self.open.write().unwrap();
        if open.as_ref().map_or(false, is_full) {
            let cluster = open.take().unwrap();
            cluster.finish(FOREVER)?;
            let mut closed = cluster.close()?;
            *open = Some(closed.successor()?);
            print!("{}", closed.record(self.south)?);
        }
        Ok(())
    }

    fn clerk(&self) -> Result<(), Error> {
        let mut session = Session::default(); // it lasts over all clusters
        for _ in 0..SALES {
            if self.sell(&mut session)? {
                self.go_on()?;
            }
        }
        Ok(())
    }
}

fn is_full(cluster: &Cluster) -> bool {
    let numbers = cluster.numbers();
    numbers.length - numbers.before >= MOST
}

fn main() -> Result<(), Error> {
    let service = Service::open()?;
    thread::scope(|scope| {
        let clerks: Vec<_> = (0..CLERKS).map(|_| scope.spawn(|| service.clerk())).collect();
        clerks.into_iter().try_for_each(|clerk| clerk.join().unwrap())
    })?;
    let last = service.open.into_inner().unwrap().unwrap();
    last.finish(FOREVER)?;
    print!("{}", last.close()?.record(service.south)?);
    Ok(())
}
