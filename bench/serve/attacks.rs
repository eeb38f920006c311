//! What a server holds behind initial states and large writes, and what a get waits for beside those who ask for much.
use crate::http::Connection;
use crate::measures::{quantile, revision};
use crate::pods;
use crate::servers::Server;
use std::io::{self, Error};
use std::sync::atomic::{AtomicBool, AtomicUsize, Ordering::SeqCst};
use std::thread::{self, Builder};
use std::time::{Duration, Instant};

/// Streams that come before those that are counted, so that each of the allocator's arenas has been used.
const FIRST: usize = 40;

/// The bytes of a large object.
const LARGE: usize = 1_000_000;

/// The time between two gets, and how long gets are timed alone.
const PAUSE: Duration = Duration::from_millis(1);
const ALONE: Duration = Duration::from_secs(1);

/// The milliseconds that gets took: the median, and the longest.
#[derive(Clone, Copy)]
pub struct Waits {
    pub median: f64,
    pub longest: f64,
}

/// The KiB that each of so many watches of all holds, whose streams stay open: from a revision, or behind an initial state that
/// is read to its end.
pub fn each_watch(server: &Server, count: usize, is_initial: bool) -> io::Result<f64> {
    let path = match is_initial {
        false => pods::watch_path(revision(server.port)?),
        true => "/api/v1/pods?watch&sendInitialEvents=true&resourceVersionMatch=NotOlderThan&allowWatchBookmarks=true\
                 &timeoutSeconds=3600"
            .to_string(),
    };
    let (mut held, mut before) = (Vec::new(), 0);
    for number in 0..FIRST + count {
        if number == FIRST {
            before = server.resident()?;
        }
        let mut watch = Connection::open(server.port)?;
        watch.send(&pods::read(&path))?;
        watch.begin()?;
        while is_initial && !watch.line()?.starts_with(b"{\"type\":\"BOOKMARK\"") {}
        held.push(watch);
    }
    Ok(server.resident()?.saturating_sub(before) as f64 / 1024.0 / count as f64)
}

/// The greatest resident memory, in MiB, over so many replacements of the first pod by one of 1 MB.
pub fn replacements(server: &Server, count: usize) -> io::Result<f64> {
    let mut connection = Connection::open(server.port)?;
    let mut most = 0;
    for turn in 0..count {
        connection.send(&pods::replace_by(0, turn, LARGE))?;
        connection.skip()?;
        most = most.max(server.resident()?);
    }
    Ok(most as f64 / 1024.0 / 1024.0)
}

/// Replaces each of so many pods, a hundred at once.
pub fn write_all(port: u16, count: usize, turn: usize) -> io::Result<()> {
    let mut connection = Connection::open(port)?;
    for first in (0..count).step_by(100) {
        let some = first..count.min(first + 100);
        let all: Vec<u8> = some.clone().flat_map(|it| pods::replace(it, turn)).collect();
        connection.send(&all)?;
        some.into_iter().try_for_each(|_| connection.skip().map(|_| ()))?;
    }
    Ok(())
}

/// What gets of a pod wait alone, and beside so many clients that send one request again and again for so long.
pub fn beside_requests(port: u16, clients: usize, request: &[u8], time: Duration) -> io::Result<(Waits, Waits)> {
    let alone = gets_for(port, ALONE.min(time))?;
    let end = AtomicBool::new(false);
    let beside = thread::scope(|scope| {
        let running: Vec<_> = (0..clients)
            .map(|_| {
                scope.spawn(|| {
                    let mut connection = Connection::open(port)?;
                    while !end.load(SeqCst) {
                        connection.send(request)?;
                        connection.skip()?;
                    }
                    Ok::<(), Error>(())
                })
            })
            .collect();
        let told = gets_for(port, time);
        end.store(true, SeqCst);
        running.into_iter().try_for_each(|it| it.join().expect("no panic"))?;
        told
    })?;
    Ok((alone, beside))
}

/// The same beside so many watches that are all read as fast as can be, and so many writes at once.
pub fn beside_watches(port: u16, watches: usize, writes: usize) -> io::Result<(Waits, Waits)> {
    let alone = gets_for(port, ALONE)?;
    let path = pods::watch_path(revision(port)?);
    let (begun, done) = (AtomicUsize::new(0), AtomicUsize::new(0));
    let beside = thread::scope(|scope| {
        let mut reading = Vec::with_capacity(watches);
        for _ in 0..watches {
            let read = || -> io::Result<()> {
                let mut watch = Connection::open(port)?;
                watch.send(&pods::read(&path))?;
                watch.begin()?;
                begun.fetch_add(1, SeqCst);
                for _ in 0..writes {
                    watch.line()?;
                }
                done.fetch_add(1, SeqCst);
                Ok(())
            };
            reading.push(Builder::new().stack_size(128 * 1024).spawn_scoped(scope, read)?);
        }
        while begun.load(SeqCst) < watches && reading.iter().all(|it| !it.is_finished()) {
            thread::sleep(PAUSE);
        }
        let writing = scope.spawn(|| {
            let mut connection = Connection::open(port)?;
            let all: Vec<u8> = (0..writes).flat_map(pods::create_small).collect();
            connection.send(&all)?;
            (0..writes).try_for_each(|_| connection.skip().map(|_| ()))
        });
        let told = gets_while(port, || done.load(SeqCst) < watches && reading.iter().any(|it| !it.is_finished()));
        writing.join().expect("no panic")?;
        reading.into_iter().try_for_each(|it| it.join().expect("no panic"))?;
        told
    })?;
    Ok((alone, beside))
}

fn gets_for(port: u16, time: Duration) -> io::Result<Waits> {
    let began = Instant::now();
    gets_while(port, || began.elapsed() < time)
}

// Gets of a pod, one each millisecond.
fn gets_while(port: u16, goes_on: impl Fn() -> bool) -> io::Result<Waits> {
    let (mut connection, request) = (Connection::open(port)?, pods::read(&pods::path(0)));
    let mut times = Vec::new();
    while goes_on() || times.is_empty() {
        let began = Instant::now();
        connection.send(&request)?;
        connection.skip()?;
        times.push(began.elapsed().as_secs_f64() * 1e3);
        thread::sleep(PAUSE);
    }
    times.sort_by(f64::total_cmp);
    match times.last() {
        None => Err(Error::other("no get")),
        Some(&longest) => Ok(Waits { median: quantile(&times, 0.5), longest }),
    }
}
