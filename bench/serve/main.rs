//! Times `watchcache serve` beside nginx, which serves the same bytes as files, and beside the same loop in plain Rust,
//! all in one run, and prints a table of ratios. The words are: the three programs or `-`, a folder for files, the
//! processors of the servers, `quick` for a short run that tells nothing of speed, and names of single measures. The
//! status is 1 where something falls short of what is wanted.
mod attacks;
mod http;
mod measures;
mod pods;
mod servers;
mod table;
mod watchers;

use attacks::Waits;
use http::Connection;
use servers::Server;
use std::fs;
use std::io;
use std::path::PathBuf;
use std::time::Duration;
use table::{Row, Table, Wanted};

/// How much is done, and with which programs.
struct Plan {
    program: String,
    plain: String,
    folder: PathBuf,
    processors: String,
    pods: usize,
    events: usize,
    watchers: usize,
    rounds: usize,
    time: Duration,
    connections: usize,
    idle: usize,
    only: Vec<String>,
}

/// How many connections ask for lists, and how many threads ask for objects by how many connections each.
const LISTERS: usize = 4;
const GETTERS: (usize, usize) = (2, 8);

/// The writers of a fan-out.
const WRITERS: usize = 4;

/// The watchers beside one that stops reading.
const OTHERS: usize = 8;

/// The time between two writes whose delivery is timed.
const PAUSE: Duration = Duration::from_millis(3);

/// What is measured, by the names that pick a part of it.
const MEASURES: [(&str, fn(&Plan, &mut Table) -> io::Result<()>); 12] = [
    ("reads", reads),
    ("fan_out", fan_out),
    ("delivery", delivery),
    ("stopped_reader", stopped_reader),
    ("memory", memory),
    ("connections", connections),
    ("watches_by_node", watches_by_node),
    ("idle_watches", idle_watches),
    ("idle_clients", idle_clients),
    ("initial_states", initial_states),
    ("bytes", bytes),
    ("locks", locks),
];

fn main() -> io::Result<()> {
    let plan = plan();
    let mut table = Table::new();
    for (name, measure) in MEASURES {
        if plan.only.is_empty() || plan.only.iter().any(|it| it == name) {
            measure(&plan, &mut table)?;
        }
    }
    table.print();
    std::process::exit(if table.is_met() { 0 } else { 1 });
}

fn plan() -> Plan {
    let words: Vec<String> = std::env::args().skip(1).collect();
    let [program, plain, folder, processors, rest @ ..] = &words[..] else {
        panic!("words: PROGRAM PLAIN FOLDER PROCESSORS [quick] [MEASURE ..]");
    };
    let whole = Plan {
        program: program.clone(),
        plain: plain.clone(),
        folder: PathBuf::from(folder),
        processors: processors.clone(),
        pods: 10_000,
        events: 10_000,
        watchers: 50,
        rounds: 3,
        time: Duration::from_secs(2),
        connections: 10_000,
        idle: 10_000,
        only: rest.iter().filter(|it| *it != "quick").cloned().collect(),
    };
    if !rest.iter().any(|it| it == "quick") {
        return whole;
    }
    let time = Duration::from_millis(300);
    Plan { pods: 500, events: 500, watchers: 5, rounds: 1, time, connections: 300, idle: 200, ..whole }
}

impl Plan {
    fn watchcache(&self, options: &[&str]) -> io::Result<Server> {
        Server::watchcache(&self.program, &self.processors, options)
    }

    fn plain(&self) -> io::Result<Server> {
        Server::plain(&self.plain, &self.processors)
    }

    // The middle one of some rounds, in each of which all servers take their turns.
    fn rounds<const N: usize>(&self, measure: [&dyn Fn() -> io::Result<f64>; N]) -> io::Result<[f64; N]> {
        let mut told = [const { Vec::new() }; N];
        for _ in 0..self.rounds {
            for (told, measure) in told.iter_mut().zip(&measure) {
                told.push(measure()?);
            }
        }
        Ok(told.map(|mut it: Vec<f64>| {
            it.sort_by(f64::total_cmp);
            it[it.len() / 2]
        }))
    }
}

// Lists and gets, of all three.
fn reads(plan: &Plan, table: &mut Table) -> io::Result<()> {
    let ours = plan.watchcache(&["--workers", "32"])?;
    let plain = plan.plain()?;
    pods::load(ours.port, plan.pods)?;
    pods::load(plain.port, plan.pods)?;
    let gets: Vec<String> = (0..plan.pods.min(1_000)).map(pods::path).collect();
    let any: Vec<String> = gets.iter().map(|it| format!("{it}?resourceVersion=0")).collect();
    let files = [("list", pods::list_path()), ("labels", pods::label_path())];
    let served = files.iter().map(|(file, path)| (file.to_string(), path)).chain(gets.iter().map(|it| (it[1..].to_string(), it)));
    save(plan, ours.port, served)?;
    let nginx = Server::nginx(&plan.folder, &plan.processors)?;
    for (name, (file, path)) in ["list of all pods, MB/s", "list of one in ten by label, MB/s"].iter().zip(&files) {
        let file = format!("/{file}");
        let [a, b, c] = plan.rounds([
            &|| measures::bytes_a_second(ours.port, path, LISTERS, plan.time),
            &|| measures::bytes_a_second(nginx.port, &file, LISTERS, plan.time),
            &|| measures::bytes_a_second(plain.port, path, LISTERS, plan.time),
        ])?;
        table.add(Row::new(name, a / 1e6).beside_nginx(b / 1e6).beside_plain(c / 1e6), Wanted::OfNginx(0.5));
    }
    let of = |port: u16, paths: &[String]| measures::requests_a_second(port, paths, GETTERS.0, GETTERS.1, plan.time);
    let [consistent, unbound, b, c] = plan.rounds([
        &|| of(ours.port, &gets),
        &|| of(ours.port, &any),
        &|| of(nginx.port, &gets),
        &|| of(plain.port, &gets),
    ])?;
    for (name, a) in [("get, consistent, a second", consistent), ("get, resourceVersion=0, a second", unbound)] {
        table.add(Row::new(name, a).beside_nginx(b).beside_plain(c), Wanted::OfNginx(0.3));
    }
    Ok(())
}

// Saves what the server answers, as files for nginx.
fn save<'a>(plan: &Plan, port: u16, served: impl Iterator<Item = (String, &'a String)>) -> io::Result<()> {
    let mut connection = Connection::open(port)?;
    for (file, path) in served {
        connection.send(&pods::read(path))?;
        let to = plan.folder.join("files").join(file);
        fs::create_dir_all(to.parent().expect("a folder"))?;
        fs::write(to, connection.body()?)?;
    }
    Ok(())
}

// Events to many watchers: as they are written, and from the window.
fn fan_out(plan: &Plan, table: &mut Table) -> io::Result<()> {
    let options = ["--workers", "64", "--window", "102400"];
    let ours = || -> io::Result<Server> {
        let server = plan.watchcache(&options)?;
        pods::load(server.port, 100)?;
        Ok(server)
    };
    let plain = || -> io::Result<Server> {
        let server = plan.plain()?;
        pods::load(server.port, 100)?;
        Ok(server)
    };
    let [a, b] = plan.rounds([
        &|| measures::fan_out(ours()?.port, plan.watchers, plan.events, WRITERS),
        &|| measures::fan_out(plain()?.port, plan.watchers, plan.events, WRITERS),
    ])?;
    table.add(Row::new("events to 50 watchers, lines/s", a).beside_plain(b), Wanted::AtLeast(250_000.0));
    let [a, b] = plan.rounds([
        &|| measures::catch_up(ours()?.port, plan.watchers, plan.events),
        &|| measures::catch_up(plain()?.port, plan.watchers, plan.events),
    ])?;
    table.add(Row::new("the same from the window, lines/s", a).beside_plain(b), Wanted::Nothing);
    Ok(())
}

// From the reply of a write to its line.
fn delivery(plan: &Plan, table: &mut Table) -> io::Result<()> {
    let (ours, plain) = (plan.watchcache(&[])?, plan.plain()?);
    pods::load(ours.port, 100)?;
    pods::load(plain.port, 100)?;
    let count = plan.events.min(1_000);
    let a = measures::delivery(ours.port, 1, count, PAUSE)?;
    let b = measures::delivery(plain.port, 1, count, PAUSE)?;
    let at = |part| Row::new("", measures::quantile(&a, part)).beside_plain(measures::quantile(&b, part));
    table.add(at(0.5).named("from reply to line, p50, µs"), Wanted::AtMost(2_000.0));
    table.add(at(0.99).named("from reply to line, p99, µs"), Wanted::Nothing);
    Ok(())
}

// What the others notice of a watcher that stops reading.
fn stopped_reader(plan: &Plan, table: &mut Table) -> io::Result<()> {
    let server = plan.watchcache(&["--workers", "16"])?;
    pods::load(server.port, 100)?;
    let count = plan.events.min(1_000);
    let before = measures::delivery(server.port, OTHERS, count, PAUSE)?;
    let _stopped = measures::stopped_reader(server.port, plan.events)?;
    let beside = measures::delivery(server.port, OTHERS, count, PAUSE)?;
    let (before, beside) = (measures::quantile(&before, 0.99), measures::quantile(&beside, 0.99));
    table.add(Row::new("to 8 watchers, p99, µs", before), Wanted::Nothing);
    table.add(Row::new("beside a reader that stopped, p99, µs", beside), Wanted::AtMost(2.0 * before + 1_000.0));
    Ok(())
}

// Resident memory for each byte of the objects' JSON.
fn memory(plan: &Plan, table: &mut Table) -> io::Result<()> {
    let server = plan.watchcache(&[])?;
    let before = server.resident()?;
    pods::load(server.port, plan.pods)?;
    let after = server.resident()?;
    let mut connection = Connection::open(server.port)?;
    connection.send(&pods::read(&pods::list_path()))?;
    let json = connection.body()?.len() as f64;
    table.add(Row::new("memory for each byte of JSON", (after - before) as f64 / json), Wanted::AtMost(2.5));
    Ok(())
}

// Memory before and after many connections.
fn connections(plan: &Plan, table: &mut Table) -> io::Result<()> {
    let server = plan.watchcache(&[])?;
    pods::load(server.port, 100)?;
    measures::connections(server.port, plan.connections / 10)?;
    let before = server.resident()?;
    measures::connections(server.port, plan.connections)?;
    let grown = server.resident()?.saturating_sub(before) as f64 / 1024.0;
    table.add(Row::new("growth by 10,000 connections, kB", grown), Wanted::AtMost(1_024.0));
    Ok(())
}

// What writes cost beside watches that they don't concern.
fn watches_by_node(plan: &Plan, table: &mut Table) -> io::Result<()> {
    let server = plan.watchcache(&[])?;
    pods::load(server.port, 100)?;
    let count = plan.events.min(1_000);
    watchers::writes(&server, count / 4)?;
    let alone = watchers::writes(&server, count)?;
    let _held = watchers::idle_watches(server.port, plan.idle / 2)?;
    let beside = watchers::writes(&server, count)?;
    let (reply, processor) = (1.2 * alone.reply, 1.2 * alone.processor);
    table.add(Row::new("reply of a write, p50, µs", alone.reply), Wanted::Nothing);
    table.add(Row::new("beside 5,000 watches of other nodes", beside.reply), Wanted::AtMost(reply));
    table.add(Row::new("processor time of a write, µs", alone.processor), Wanted::Nothing);
    table.add(Row::new("the same beside 5,000 watches of other nodes", beside.processor), Wanted::AtMost(processor));
    Ok(())
}

// What watches cost that are told nothing, what is told beside them, and how they end.
fn idle_watches(plan: &Plan, table: &mut Table) -> io::Result<()> {
    let server = plan.watchcache(&["--bookmark-ms", "60000"])?;
    pods::load(server.port, 100)?;
    let before = server.resident()?;
    let mut held = watchers::idle_watches(server.port, plan.idle)?;
    let each = server.resident()?.saturating_sub(before) as f64 / 1024.0 / held.len() as f64;
    table.add(Row::new("an idle watch of 10,000, KiB", each), Wanted::AtMost(24.0));
    let rest = watchers::rest(&server, plan.time * 5)?;
    table.add(Row::new("10,000 idle watches, % of a processor", rest), Wanted::AtMost(1.0));
    let times = watchers::write_to_line(server.port, plan.events.min(1_000))?;
    table.add(Row::new("from write to line beside them, p50, µs", measures::quantile(&times, 0.5)), Wanted::AtMost(100.0));
    table.add(Row::new("the same, p99, µs", measures::quantile(&times, 0.99)), Wanted::Nothing);
    let leaving = held.split_off(held.len() - held.len() / 10);
    table.add(Row::new("until 1,000 that left are gone, s", watchers::leave(&server, leaving)?), Wanted::AtMost(1.0));
    drop((held, server));
    let server = plan.watchcache(&[])?;
    pods::load(server.port, 100)?;
    let mut all = watchers::watches_of_all(server.port, plan.idle)?;
    let lines = watchers::one_write_to_all(server.port, &mut all)?;
    table.add(Row::new("one write to 10,000 watches of all, lines/s", lines), Wanted::Nothing);
    Ok(())
}

// What one client notices of others that stay and ask for nothing, and of those that come at once.
fn idle_clients(plan: &Plan, table: &mut Table) -> io::Result<()> {
    let server = plan.watchcache(&[])?;
    pods::load(server.port, 100)?;
    let count = plan.events;
    let alone = watchers::gets(server.port, count)?;
    let (_open, burst) = watchers::burst(server.port, plan.idle / 10)?;
    let beside = watchers::gets(server.port, count)?;
    table.add(Row::new("a burst of 1,000 clients, ms", burst), Wanted::AtMost(1_000.0));
    table.add(Row::new("get alone, p99, µs", alone), Wanted::Nothing);
    table.add(Row::new("get beside 1,000 idle clients, p99, µs", beside), Wanted::AtMost(2.0 * alone));
    Ok(())
}

// What watches hold that have read an initial state, beside those that began at a revision.
fn initial_states(plan: &Plan, table: &mut Table) -> io::Result<()> {
    let measure = |is_initial| -> io::Result<f64> {
        let server = plan.watchcache(&["--window-max", "102400"])?;
        pods::load(server.port, plan.pods)?;
        attacks::each_watch(&server, plan.events / 50, is_initial)
    };
    let (alone, beside) = (measure(false)?, measure(true)?);
    table.add(Row::new("a watch of 10,000 pods from a revision, KiB", alone), Wanted::Nothing);
    table.add(Row::new("the same behind an initial state, KiB", beside), Wanted::AtMost(26.0));
    Ok(())
}

// The memory of one object of 1 MB, and of many replacements of it.
fn bytes(plan: &Plan, table: &mut Table) -> io::Result<()> {
    let server = plan.watchcache(&[])?;
    pods::load(server.port, 1)?;
    let alone = attacks::replacements(&server, 1)?;
    let beside = attacks::replacements(&server, plan.events / 10)?;
    table.add(Row::new("resident with one object of 1 MB, MiB", alone), Wanted::Nothing);
    table.add(Row::new("behind 1,000 replacements of it, MiB", beside), Wanted::AtMost(600.0));
    Ok(())
}

// What a get waits beside who has the caches begin anew, asks for what is old, or is told of a burst with many others.
fn locks(plan: &Plan, table: &mut Table) -> io::Result<()> {
    let server = plan.watchcache(&["--window", "102400", "--history", "1000000"])?;
    let from = measures::revision(server.port)?;
    pods::load(server.port, plan.pods)?;
    for turn in 0..plan.events / 5_000 * 4 {
        attacks::write_all(server.port, plan.pods, turn)?;
    }
    let old = pods::read(&format!("/api/v1/pods?limit=1&resourceVersionMatch=Exact&resourceVersion={}", from + plan.pods as u64));
    for (name, clients, request) in [("4 clients that restart caches", 4, pods::restart()), ("2 that ask for an old page", 2, old)] {
        let (alone, beside) = attacks::beside_requests(server.port, clients, &request, plan.time * 2)?;
        tell(table, &format!("beside {name}"), alone, beside, Wanted::Nothing);
    }
    drop(server);
    let server = plan.watchcache(&["--window-max", "102400"])?;
    pods::load(server.port, 1)?;
    let (alone, beside) = attacks::beside_watches(server.port, plan.idle / 5, plan.events / 10)?;
    tell(table, "beside 2,000 watches and 1,000 writes", alone, beside, Wanted::AtMost(50.0));
    Ok(())
}

fn tell(table: &mut Table, name: &str, alone: Waits, beside: Waits, wanted: Wanted) {
    table.add(Row::new("get, p50, ms", alone.median), Wanted::Nothing);
    table.add(Row::new("the longest, ms", alone.longest), Wanted::Nothing);
    table.add(Row::new(&format!("{name}, p50, ms"), beside.median), Wanted::Nothing);
    table.add(Row::new("the longest, ms", beside.longest), wanted);
}
