//! What is measured of a server by its port.
use crate::http::{Connection, revision_in};
use crate::pods;
use std::collections::HashMap;
use std::io;
use std::thread;
use std::time::{Duration, Instant};

// What a thread does in a measure of events: it writes each so-many-th from this one on, or reads a stream.
enum Role {
    Writer(usize),
    Watcher(Connection),
}

/// Bytes of bodies a second, of the same request again and again on each of so many connections.
pub fn bytes_a_second(port: u16, path: &str, connections: usize, time: Duration) -> io::Result<f64> {
    let request = pods::read(path);
    let rates = side_by_side(open(port, connections)?, |mut connection| {
        let (began, mut bytes) = (Instant::now(), 0);
        while began.elapsed() < time {
            connection.send(&request)?;
            bytes += connection.skip()?;
        }
        Ok(bytes as f64 / began.elapsed().as_secs_f64())
    })?;
    Ok(rates.iter().sum())
}

/// Requests a second, where each of so many threads waits for replies on so many connections by turns.
pub fn requests_a_second(
    port: u16,
    paths: &[String],
    threads: usize,
    connections: usize,
    time: Duration,
) -> io::Result<f64> {
    let requests: Vec<Vec<u8>> = paths.iter().map(|it| pods::read(it)).collect();
    let shares = (0..threads).map(|it| Ok((it, open(port, connections)?))).collect::<io::Result<Vec<_>>>()?;
    let rates = side_by_side(shares, |(thread, mut open)| {
        let mut next = thread * requests.len() / threads;
        let mut send = |connection: &mut Connection| {
            next = (next + 1) % requests.len();
            connection.send(&requests[next])
        };
        for connection in &mut open {
            send(connection)?;
        }
        let (began, mut count) = (Instant::now(), 0);
        while began.elapsed() < time {
            for connection in &mut open {
                connection.skip()?;
                count += 1;
                send(connection)?;
            }
        }
        Ok(count as f64 / began.elapsed().as_secs_f64())
    })?;
    Ok(rates.iter().sum())
}

/// Lines a second, of so many events to so many watchers, from the first write to the last line. Each watcher must see
/// each event once and in order.
pub fn fan_out(port: u16, watchers: usize, events: usize, writers: usize) -> io::Result<f64> {
    let from = revision(port)?;
    let mut roles: Vec<Role> = Vec::new();
    for _ in 0..watchers {
        roles.push(Role::Watcher(begin_watch(port, from)?));
    }
    roles.extend((0..writers).map(Role::Writer));
    let began = Instant::now();
    let ended = side_by_side(roles, |role| {
        match role {
            Role::Watcher(mut watch) => drop(read_events(&mut watch, from, events)?),
            Role::Writer(first) => drop(write_events(port, (first..events).step_by(writers), Duration::ZERO)?),
        }
        Ok(Instant::now())
    })?;
    Ok(rate(watchers * events, began, &ended))
}

/// The same, of so many events that were written before the watchers come: from the first request to the last line.
pub fn catch_up(port: u16, watchers: usize, events: usize) -> io::Result<f64> {
    let from = revision(port)?;
    write_events(port, 0..events, Duration::ZERO)?;
    let began = Instant::now();
    let ended = side_by_side((0..watchers).collect(), |_| {
        read_events(&mut begin_watch(port, from)?, from, events)?;
        Ok(Instant::now())
    })?;
    Ok(rate(watchers * events, began, &ended))
}

/// The times in microseconds from the reply of a write to its line, at each of so many watchers, sorted. A line that comes
/// before the reply counts as 0.
pub fn delivery(port: u16, watchers: usize, events: usize, pause: Duration) -> io::Result<Vec<f64>> {
    let from = revision(port)?;
    let mut roles = vec![Role::Writer(0)];
    for _ in 0..watchers {
        roles.push(Role::Watcher(begin_watch(port, from)?));
    }
    let told = side_by_side(roles, |role| match role {
        Role::Watcher(mut watch) => read_events(&mut watch, from, events),
        Role::Writer(_) => write_events(port, 0..events, pause),
    })?;
    let replied: HashMap<u64, Instant> = told[0].iter().copied().collect();
    let mut times: Vec<f64> = told[1..]
        .iter()
        .flatten()
        .map(|(revision, at)| at.saturating_duration_since(replied[revision]).as_secs_f64() * 1e6)
        .collect();
    times.sort_by(f64::total_cmp);
    Ok(times)
}

/// A watch that is begun and never read. So many events fill all that lies between.
pub fn stopped_reader(port: u16, events: usize) -> io::Result<Connection> {
    let stopped = begin_watch(port, revision(port)?)?;
    write_events(port, 0..events, Duration::ZERO)?;
    Ok(stopped)
}

/// So many connections one after the other, each with one get; every tenth is broken off in the middle of a second head.
pub fn connections(port: u16, count: usize) -> io::Result<()> {
    let request = pods::read(&pods::path(0));
    for number in 0..count {
        let mut connection = Connection::open(port)?;
        connection.send(&request)?;
        connection.skip()?;
        if number % 10 == 0 {
            connection.send(&request[..request.len() / 2])?;
        }
    }
    Ok(())
}

/// That part of the sorted figures lies at or below the answer.
pub fn quantile(sorted: &[f64], part: f64) -> f64 {
    sorted[((sorted.len() as f64 * part) as usize).min(sorted.len() - 1)]
}

/// The revision that the server has reached, which it tells at the end of a list.
pub fn revision(port: u16) -> io::Result<u64> {
    let mut connection = Connection::open(port)?;
    connection.send(&pods::read("/api/v1/namespaces/default/pods?labelSelector=tier%3Dnone"))?;
    let body = connection.body()?;
    revision_in(&body).ok_or_else(|| io::Error::other("a list without a revision"))
}

fn begin_watch(port: u16, from: u64) -> io::Result<Connection> {
    let mut connection = Connection::open(port)?;
    connection.send(&pods::read(&pods::watch_path(from)))?;
    connection.begin()?;
    Ok(connection)
}

// Replaces pods by one connection, one after the other, and tells each revision with the time of its reply.
fn write_events(
    port: u16,
    numbers: impl Iterator<Item = usize>,
    pause: Duration,
) -> io::Result<Vec<(u64, Instant)>> {
    let mut connection = Connection::open(port)?;
    let mut told = Vec::new();
    for number in numbers {
        thread::sleep(pause);
        connection.send(&pods::replace(number % 100, number))?;
        let body = connection.body()?;
        let at = Instant::now();
        told.push((revision_in(&body).ok_or_else(|| io::Error::other("a reply without a revision"))?, at));
    }
    Ok(told)
}

// Reads so many lines, and tells each revision with the time of its line.
fn read_events(connection: &mut Connection, from: u64, events: usize) -> io::Result<Vec<(u64, Instant)>> {
    let mut told = Vec::with_capacity(events);
    for expected in (from + 1..).take(events) {
        let revision = revision_in(connection.line()?);
        if revision != Some(expected) {
            return Err(io::Error::other(format!("a watcher was told {revision:?}, not {expected}")));
        }
        told.push((expected, Instant::now()));
    }
    Ok(told)
}

// Runs a thread of the same work for each of these, and gives what each answered.
fn side_by_side<I: Send, A: Send>(items: Vec<I>, work: impl Fn(I) -> io::Result<A> + Sync) -> io::Result<Vec<A>> {
    thread::scope(|scope| {
        let work = &work;
        let running: Vec<_> = items.into_iter().map(|it| scope.spawn(move || work(it))).collect();
        running.into_iter().map(|it| it.join().expect("no panic")).collect()
    })
}

fn open(port: u16, connections: usize) -> io::Result<Vec<Connection>> {
    (0..connections).map(|_| Connection::open(port)).collect()
}

// So many a second, to the last of these ends.
fn rate(count: usize, began: Instant, ended: &[Instant]) -> f64 {
    let last = ended.iter().max().expect("some end");
    count as f64 / (*last - began).as_secs_f64()
}
