//! The service of examples/stock.rs under a small load. ORDUP_PROGRAM is `ordup`, which then audits its records too.

use ordup::{check, Verdict};
use std::io::{BufRead, BufReader, Read, Write};
use std::net::TcpStream;
use std::path::PathBuf;
use std::process::{Child, Command, Stdio};
use std::{env, fs, thread};

const CLIENTS: u64 = 4;
const REQUESTS: u64 = 60;

/// The service, in a folder of its own. It is killed if a test fails.
struct Service {
    child: Child,
    address: String,
    folder: PathBuf,
}

impl Service {
    fn start() -> Service {
        let mine = env::current_exe().unwrap();
        let program = mine.parent().unwrap().parent().unwrap().join("examples/stock");
        assert!(program.exists(), "there is no {}: cargo build --examples makes it", program.display());
        let folder = env::temp_dir().join(format!("ordup_stock_{}", std::process::id()));
        fs::create_dir_all(&folder).unwrap();
        let mut child = Command::new(program).arg("127.0.0.1:0").arg(&folder).stdout(Stdio::piped()).spawn().unwrap();
        let mut said = String::new();
        BufReader::new(child.stdout.as_mut().unwrap()).read_line(&mut said).unwrap();
        let address = said.trim().strip_prefix("listening on ").unwrap().to_string();
        Service { child, address, folder }
    }

    /// The status and the text of an answer.
    fn ask(&self, method: &str, path: &str) -> (u16, String) {
        let (mut stream, mut answer) = (TcpStream::connect(&self.address).unwrap(), String::new());
        write!(stream, "{method} {path} HTTP/1.1\r\nHost: {}\r\n\r\n", self.address).unwrap();
        stream.read_to_string(&mut answer).unwrap();
        let (head, text) = answer.split_once("\r\n\r\n").unwrap();
        (head.split(' ').nth(1).unwrap().parse().unwrap(), text.to_string())
    }

    /// What a client does: it sells 5 bags of tea at a time, and looks at what is left. It answers how many it sold.
    fn client(&self, me: u64) -> i64 {
        let (mut sold, mut seen) = (0, 0);
        for request in 0..REQUESTS {
            let (status, text) = self.ask("POST", "/sale/tea/5");
            match status {
                200 => {
                    sold += 5;
                    assert!(number(&text, "seen") > seen, "{text}");
                    seen = number(&text, "seen");
                }
                status => assert_eq!((status, text.as_str()), (409, "{\"why\": \"there are not so many\"}\n")),
            }
            let site = ["shop", "yard"][((me + request) % 2) as usize];
            let (status, text) = self.ask("GET", &format!("/stock/{site}/tea?seen={seen}"));
            assert_eq!(status, 200, "{text}");
            let left = number(&text, "count");
            assert!(0 <= left && left <= 1000 - sold && number(&text, "seen") >= seen && number(&text, "behind") >= 0, "{text}");
            seen = number(&text, "seen");
        }
        sold
    }
}

impl Drop for Service {
    fn drop(&mut self) {
        self.child.kill().ok();
        self.child.wait().ok();
        fs::remove_dir_all(&self.folder).ok();
    }
}

/// A number of an answer, by its name.
fn number(text: &str, name: &str) -> i64 {
    let rest = text.split_once(&format!("\"{name}\": ")).unwrap_or_else(|| panic!("{text}")).1;
    rest.split([',', '}']).next().unwrap().parse().unwrap()
}

#[test]
fn a_service_under_a_small_load() {
    let mut service = Service::start();
    let sold: i64 = thread::scope(|scope| {
        let clients: Vec<_> = (0..CLIENTS).map(|me| scope.spawn({ let service = &service; move || service.client(me) })).collect();
        clients.into_iter().map(|client| client.join().unwrap()).sum()
    });
    assert_eq!(sold, 1000);
    assert_eq!(service.ask("POST", "/sale/tea/1").0, 409);
    let (status, text) = service.ask("POST", "/delivery/tea/7");
    assert_eq!((status, number(&text, "number")), (200, 201));
    assert_eq!(service.ask("POST", "/sale/tea/4").0, 200);
    assert_eq!(service.ask("GET", "/stock/yard/tea?seen=202"), (200, "{\"count\": 3, \"behind\": 0, \"seen\": 202}\n".into()));
    for path in ["/", "/stock/shop", "/stock/shop/oats", "/stock/sea/tea", "/stock/shop/tea?seen=x", "/sale/tea/5"] {
        assert_eq!(service.ask("GET", path).0, 404, "{path}");
    }
    assert_eq!(service.ask("POST", "/sale/tea/-5").0, 404);

    let (status, text) = service.ask("GET", "/metrics");
    let value = |name: &str| text.lines().find_map(|line| line.strip_prefix(name)?.strip_prefix(' ')?.parse::<i64>().ok());
    assert_eq!(status, 200);
    assert_eq!((value("ordup_updates_total"), value("ordup_acknowledged_updates_total")), (Some(202), Some(202)));
    assert_eq!(value("ordup_limit_bags{site=\"shop\"}"), Some(10));
    assert!(value("ordup_lag_bags{site=\"shop\"}").unwrap() <= 10, "{text}");
    assert_eq!(value("ordup_applied_updates_total{site=\"yard\"}"), Some(202));
    assert_eq!(value("ordup_awaited_updates_total{site=\"yard\"}"), Some(0));

    assert_eq!(service.ask("POST", "/stop").0, 200);
    assert!(service.child.wait().unwrap().success());
    for site in ["shop", "yard"] {
        let file = service.folder.join(format!("{site}.csv"));
        assert!(matches!(check(&fs::read(&file).unwrap()), Ok(Verdict::Yes { .. })));
        if let Some(program) = env::var_os("ORDUP_PROGRAM") {
            let said = Command::new(program).arg("check").stdin(fs::File::open(&file).unwrap()).output().unwrap();
            assert!(said.status.success() && said.stdout.starts_with(b"yes "), "{said:?}");
        }
    }
}
