//! What many watches, idle connections and bursts cost a server.
use crate::http::{Connection, revision_in};
use crate::measures::{self, quantile};
use crate::pods;
use crate::servers::Server;
use std::io::{self, Error, Read, Write};
use std::net::TcpStream;
use std::thread;
use std::time::{Duration, Instant};

/// How many nodes the pods of the writes are on. The watches that a write doesn't concern are of other nodes.
const NODES: usize = 10;

/// The time between two writes whose cost is told.
const PAUSE: Duration = Duration::from_millis(3);

/// A watch that is held open, and never read but for its head.
pub struct Held(TcpStream);

/// What writes cost: the median microseconds to the reply, and the microseconds of the server's processors.
pub struct Cost {
    pub reply: f64,
    pub processor: f64,
}

/// The path of a watch of the pods of one node, behind a revision.
fn node_path(node: &str, from: u64) -> String {
    format!("/api/v1/pods?watch=1&resourceVersion={from}&timeoutSeconds=3600&fieldSelector=spec.nodeName%3D{node}")
}

/// The path of an idle watch, with bookmarks each minute as informers ask for them.
fn idle_path(number: usize, from: u64) -> String {
    format!("{}&allowWatchBookmarks=true", node_path(&format!("idle-{number}"), from))
}

impl Held {
    /// Begins a watch, and reads the head of its stream.
    fn open(port: u16, path: &str) -> io::Result<Held> {
        let mut stream = TcpStream::connect(("127.0.0.1", port))?;
        stream.set_read_timeout(Some(Duration::from_secs(60)))?;
        stream.write_all(&pods::read(path))?;
        let (mut head, mut byte) = (Vec::new(), [0]);
        while !head.ends_with(b"\r\n\r\n") {
            if stream.read(&mut byte)? == 0 {
                return Err(Error::other("a watch that ended in its head"));
            }
            head.push(byte[0]);
        }
        if !head.starts_with(b"HTTP/1.1 200") {
            return Err(Error::other(String::from_utf8_lossy(&head).into_owned()));
        }
        Ok(Held(stream))
    }

    /// Reads until a line has come whole.
    fn line(&mut self) -> io::Result<()> {
        let (mut text, mut piece) = (Vec::new(), [0; 4096]);
        while !text.ends_with(b"}\n\r\n") {
            match self.0.read(&mut piece)? {
                0 => return Err(Error::other("a watch that ended")),
                count => text.extend_from_slice(&piece[..count]),
            }
        }
        Ok(())
    }
}

/// So many watches of nodes that have no pod; fewer, where descriptors run out.
pub fn idle_watches(port: u16, count: usize) -> io::Result<Vec<Held>> {
    let from = measures::revision(port)?;
    let mut held = Vec::with_capacity(count);
    for number in 0..count {
        match Held::open(port, &idle_path(number, from)) {
            Ok(watch) => held.push(watch),
            Err(e) if number == 0 => return Err(e),
            Err(e) => {
                eprintln!("only {number} watches: {e}");
                break;
            }
        }
    }
    Ok(held)
}

/// So many watches of all pods.
pub fn watches_of_all(port: u16, count: usize) -> io::Result<Vec<Held>> {
    let from = measures::revision(port)?;
    (0..count).map(|_| Held::open(port, &pods::watch_path(from))).collect()
}

/// What so many writes cost, of pods of ten nodes, one after the other.
pub fn writes(server: &Server, count: usize) -> io::Result<Cost> {
    let mut connection = Connection::open(server.port)?;
    let mut times = Vec::with_capacity(count);
    let before = server.processor_time()?;
    for turn in 0..count {
        thread::sleep(PAUSE);
        let began = Instant::now();
        connection.send(&pods::replace(turn % NODES, turn))?;
        connection.skip()?;
        times.push(began.elapsed().as_secs_f64() * 1e6);
    }
    let processor = (server.processor_time()? - before).as_secs_f64() * 1e6 / count as f64;
    times.sort_by(f64::total_cmp);
    Ok(Cost { reply: quantile(&times, 0.5), processor })
}

/// The microseconds from the request of a write to its line, at one watch of the node that it concerns, sorted.
pub fn write_to_line(port: u16, count: usize) -> io::Result<Vec<f64>> {
    let from = measures::revision(port)?;
    let mut watch = Connection::open(port)?;
    watch.send(&pods::read(&node_path("node-000", from)))?;
    watch.begin()?;
    let mut writer = Connection::open(port)?;
    let mut times = Vec::with_capacity(count);
    for turn in 0..count {
        thread::sleep(PAUSE);
        let began = Instant::now();
        writer.send(&pods::replace(0, turn))?;
        let told = revision_in(watch.line()?);
        times.push(began.elapsed().as_secs_f64() * 1e6);
        let body = writer.body()?;
        if told != revision_in(&body) {
            return Err(Error::other(format!("a line of {told:?} behind another write")));
        }
    }
    times.sort_by(f64::total_cmp);
    Ok(times)
}

/// The part of a processor, in percent, that the server takes while nobody asks it for anything.
pub fn rest(server: &Server, time: Duration) -> io::Result<f64> {
    let before = server.processor_time()?;
    thread::sleep(time);
    Ok((server.processor_time()? - before).as_secs_f64() * 100.0 / time.as_secs_f64())
}

/// Lines a second, of one write to all of these watches, to the last line.
pub fn one_write_to_all(port: u16, watches: &mut [Held]) -> io::Result<f64> {
    let count = watches.len();
    let share = count.div_ceil(4).max(1);
    let mut writer = Connection::open(port)?;
    let began = Instant::now();
    writer.send(&pods::replace(0, 1))?;
    writer.skip()?;
    thread::scope(|scope| {
        let reading: Vec<_> = watches
            .chunks_mut(share)
            .map(|some| scope.spawn(move || some.iter_mut().try_for_each(Held::line)))
            .collect();
        reading.into_iter().try_for_each(|it| it.join().expect("no panic"))
    })?;
    Ok(count as f64 / began.elapsed().as_secs_f64())
}

/// The 99th percentile of the microseconds of gets by one connection.
pub fn gets(port: u16, count: usize) -> io::Result<f64> {
    let mut connection = Connection::open(port)?;
    let request = pods::read(&pods::path(0));
    let mut times = Vec::with_capacity(count);
    for _ in 0..count {
        let began = Instant::now();
        connection.send(&request)?;
        connection.skip()?;
        times.push(began.elapsed().as_secs_f64() * 1e6);
    }
    times.sort_by(f64::total_cmp);
    Ok(quantile(&times, 0.99))
}

/// So many connections that come at once, ask for an object each, and stay; and the milliseconds to the last reply.
pub fn burst(port: u16, count: usize) -> io::Result<(Vec<TcpStream>, f64)> {
    let request = pods::read(&pods::path(0));
    let began = Instant::now();
    let mut open = Vec::with_capacity(count);
    for _ in 0..count {
        let mut stream = TcpStream::connect(("127.0.0.1", port))?;
        stream.set_read_timeout(Some(Duration::from_secs(60)))?;
        stream.write_all(&request)?;
        open.push(stream);
    }
    for stream in &mut open {
        let mut reply = [0; 4096];
        if stream.read(&mut reply)? == 0 {
            return Err(Error::other("a connection that ended"));
        }
    }
    Ok((open, began.elapsed().as_secs_f64() * 1e3))
}

/// How many threads a server keeps at most that wait for a connection.
const SPARE: u64 = 128;

/// The seconds until the server has as many threads fewer, but for those that it keeps, behind the leaving of these.
pub fn leave(server: &Server, watches: Vec<Held>) -> io::Result<f64> {
    let wanted = (server.threads()? + SPARE).saturating_sub(watches.len() as u64);
    let began = Instant::now();
    drop(watches);
    while server.threads()? > wanted && began.elapsed() < Duration::from_secs(60) {
        thread::sleep(Duration::from_millis(5));
    }
    Ok(began.elapsed().as_secs_f64())
}
