//! A client of sites that run: measures what bench/serve asks for. Each connection has one line outstanding.
use std::env;
use std::io::{BufRead, BufReader, Write};
use std::net::TcpStream;
use std::thread;
use std::time::{Duration, Instant};

struct Session {
    reader: BufReader<TcpStream>,
    writer: TcpStream,
}

impl Session {
    fn open(port: u16) -> Session {
        let writer = TcpStream::connect(("127.0.0.1", port)).expect("a site");
        writer.set_nodelay(true).expect("no delay");
        let mut session = Session {
            reader: BufReader::new(writer.try_clone().expect("a handle")),
            writer,
        };
        assert_eq!(session.ask("hello 2\n"), "hello 2\n");
        session
    }

    fn ask(&mut self, line: &str) -> String {
        self.writer.write_all(line.as_bytes()).expect("a line is sent");
        self.line()
    }

    fn line(&mut self) -> String {
        let mut answer = String::new();
        self.reader.read_line(&mut answer).expect("an answer");
        answer
    }

    fn take(&mut self, change: u32) {
        let message = "m".repeat(60);
        let line = format!("take {{\"change\":{change},\"message\":\"{message}\",\"op\":\"patchset\",\"set\":1}}\n");
        let answer = self.ask(&line);
        assert!(answer.starts_with("ok "), "{answer}");
    }

    fn report(&mut self) -> String {
        let mut last = self.ask("ready\n");
        while !last.starts_with("end ") {
            last = self.line();
        }
        last
    }
}

/// Takes a second over so many connections, for so many seconds, of changes from `first` on, each of a part of its own.
fn takes(port: u16, connections: u32, seconds: u64, first: u32) -> f64 {
    let workers: Vec<_> = (0..connections)
        .map(|connection| {
            thread::spawn(move || {
                let mut session = Session::open(port);
                let (began, mut count) = (Instant::now(), 0u32);
                while began.elapsed() < Duration::from_secs(seconds) {
                    session.take(first + connection * (4_000_000_000 / connections) + count);
                    count += 1;
                }
                f64::from(count) / began.elapsed().as_secs_f64()
            })
        })
        .collect();
    workers.into_iter().map(|worker| worker.join().expect("a worker")).sum()
}

/// Takes a second over so many connections, beside so many sessions that are open and silent.
fn takes_in_crowd(port: u16, silent: u32, connections: u32, seconds: u64, first: u32) -> f64 {
    let _crowd: Vec<Session> = (0..silent).map(|_| Session::open(port)).collect();
    takes(port, connections, seconds, first)
}

/// Reports a second.
fn reports(port: u16, seconds: u64) -> (f64, String) {
    let mut session = Session::open(port);
    let (began, mut count, mut last) = (Instant::now(), 0u32, String::new());
    while began.elapsed() < Duration::from_secs(seconds) {
        last = session.report();
        count += 1;
    }
    (f64::from(count) / began.elapsed().as_secs_f64(), last)
}

/// The mean and the greatest time, in milliseconds, from one site's `ok` until the other one's report has the change.
fn passing(here: u16, there: u16, times: u32, first: u32) -> (f64, f64) {
    let (mut one, mut other) = (Session::open(here), Session::open(there));
    let (mut sum, mut most) = (0.0, 0.0f64);
    for change in first..first + times {
        one.take(change);
        let began = Instant::now();
        let before = other.report();
        let mut now = before.clone();
        while now == before && began.elapsed() < Duration::from_secs(10) {
            now = other.report();
        }
        let took = began.elapsed().as_secs_f64() * 1000.0;
        sum += took;
        most = most.max(took);
    }
    (sum / f64::from(times), most)
}

/// How long each of so many takes waited for its answer, in milliseconds: the first, the second, the median and the
/// greatest; where `looks`, beside another session that asks for its first report.
fn stalls(port: u16, times: u32, looks: bool, first: u32) -> [f64; 4] {
    let mut session = Session::open(port);
    let looker = looks.then(|| {
        let mut other = Session::open(port);
        thread::spawn(move || other.report())
    });
    let mut waits: Vec<f64> = (first..first + times)
        .map(|change| {
            thread::sleep(Duration::from_millis(2));
            let began = Instant::now();
            session.take(change);
            began.elapsed().as_secs_f64() * 1000.0
        })
        .collect();
    if let Some(looker) = looker {
        looker.join().expect("a report");
    }
    let (one, two) = (waits[0], waits[1]);
    waits.sort_by(f64::total_cmp);
    [one, two, waits[waits.len() / 2], waits[waits.len() - 1]]
}

fn main() {
    let words: Vec<String> = env::args().skip(1).collect();
    let number = |place: usize| words[place].parse::<u32>().expect("a number");
    match words[0].as_str() {
        "takes" => println!(
            "{:.0}",
            takes(number(1) as u16, number(2), u64::from(number(3)), number(4))
        ),
        "crowd" => println!(
            "{:.0}",
            takes_in_crowd(number(1) as u16, number(2), number(3), u64::from(number(4)), number(5))
        ),
        "fill" => {
            let mut session = Session::open(number(1) as u16);
            (1..=number(2)).for_each(|change| session.take(change));
        }
        "reports" => {
            let (rate, last) = reports(number(1) as u16, u64::from(number(2)));
            print!("{rate:.1} {last}");
        }
        "passing" => {
            let (mean, most) = passing(number(1) as u16, number(2) as u16, number(3), number(4));
            println!("{mean:.1} {most:.1}");
        }
        "stalls" => {
            let waits = stalls(number(1) as u16, number(2), number(3) > 0, number(4));
            println!("{:.1} {:.1} {:.2} {:.1}", waits[0], waits[1], waits[2], waits[3]);
        }
        other => panic!("{other}"),
    }
}
