//! The plain fellow of `watchcache serve`: a thread for each connection, one sorted map behind a lock, and a list of all
//! lines that were told. It creates, replaces, gets and lists pods of one namespace, and lets them be watched. It
//! parses no JSON: it looks for names and labels where the client of this folder writes them, and leaves out all checks,
//! so it is what a server of this form costs at least. Its word is a port; with the word `session` it answers what stands on
//! standard input.
use std::collections::BTreeMap;
use std::io::{self, BufWriter, Read, Write};
use std::net::{TcpListener, TcpStream};
use std::sync::{Arc, Condvar, Mutex};

const BUFFER: usize = 64 * 1024;
const TURN: usize = 100;

/// A pod: its text, and its labels.
struct Pod {
    text: Vec<u8>,
    labels: Vec<(String, String)>,
}

/// What was written so far. The line of revision `r` stands at `r - 2`.
struct Log {
    pods: BTreeMap<String, Arc<Pod>>,
    lines: Vec<Arc<Vec<u8>>>,
}

struct Shared {
    log: Mutex<Log>,
    grew: Condvar,
}

struct Request {
    method: String,
    path: String,
    query: String,
    body: Vec<u8>,
}

fn main() -> io::Result<()> {
    let word = std::env::args().nth(1).expect("a port");
    let log = Log { pods: BTreeMap::new(), lines: Vec::new() };
    let shared = Arc::new(Shared { log: Mutex::new(log), grew: Condvar::new() });
    if word == "session" {
        return answer(io::stdin().lock(), io::stdout().lock(), &shared);
    }
    let listener = TcpListener::bind(format!("127.0.0.1:{word}"))?;
    for stream in listener.incoming() {
        let (stream, shared) = (stream?, shared.clone());
        std::thread::spawn(move || serve(stream, &shared));
    }
    Ok(())
}

fn serve(stream: TcpStream, shared: &Shared) -> io::Result<()> {
    stream.set_nodelay(true)?;
    answer(stream.try_clone()?, stream, shared)
}

// Answers one request after the other.
fn answer(mut source: impl Read, sink: impl Write, shared: &Shared) -> io::Result<()> {
    let mut sink = BufWriter::with_capacity(BUFFER, sink);
    let mut held = Vec::new();
    while let Some(request) = next_request(&mut source, &mut held)? {
        let name = name_in(&request.path);
        match (request.method.as_str(), name) {
            ("GET", Some(name)) => get(&mut sink, shared, name)?,
            ("GET", None) if has(&request.query, "watch") => return watch(&mut sink, shared, &request.query),
            ("GET", None) => list(&mut sink, shared, &request.query)?,
            _ => write(&mut sink, shared, &request.body)?,
        }
        sink.flush()?;
    }
    Ok(())
}

fn next_request(source: &mut impl Read, held: &mut Vec<u8>) -> io::Result<Option<Request>> {
    let end = loop {
        if let Some(at) = held.windows(4).position(|it| it == b"\r\n\r\n") {
            break at + 4;
        }
        if !more(source, held)? {
            return Ok(None);
        }
    };
    let head = String::from_utf8_lossy(&held[..end]).into_owned();
    let length = head
        .lines()
        .find_map(|it| it.strip_prefix("Content-Length: "))
        .map_or(0, |it| it.trim().parse().unwrap_or(0));
    while held.len() < end + length {
        if !more(source, held)? {
            return Ok(None);
        }
    }
    let body = held[end..end + length].to_vec();
    held.drain(..end + length);
    let mut words = head.split(' ');
    let method = words.next().unwrap_or("").to_string();
    let target = words.next().unwrap_or("");
    let (path, query) = target.split_once('?').unwrap_or((target, ""));
    Ok(Some(Request { method, path: path.to_string(), query: query.to_string(), body }))
}

fn more(source: &mut impl Read, held: &mut Vec<u8>) -> io::Result<bool> {
    let mut piece = [0; 16 * 1024];
    let count = source.read(&mut piece)?;
    held.extend_from_slice(&piece[..count]);
    Ok(count > 0)
}

// The name of the one pod that a path leads to.
fn name_in(path: &str) -> Option<&str> {
    path.split_once("/pods/").map(|it| it.1)
}

fn has(query: &str, option: &str) -> bool {
    query.split('&').any(|it| it.split('=').next() == Some(option))
}

fn value<'a>(query: &'a str, option: &str) -> Option<&'a str> {
    query.split('&').find_map(|it| it.strip_prefix(option)?.strip_prefix('='))
}

fn send(sink: &mut impl Write, status: &str, length: usize) -> io::Result<()> {
    write!(sink, "HTTP/1.1 {status}\r\nContent-Type: application/json\r\nContent-Length: {length}\r\n\r\n")
}

fn get(sink: &mut impl Write, shared: &Shared, name: &str) -> io::Result<()> {
    let pod = shared.log.lock().unwrap().pods.get(name).cloned();
    match pod {
        None => send(sink, "404 Not Found", 0),
        Some(pod) => {
            send(sink, "200 OK", pod.text.len() + 1)?;
            sink.write_all(&pod.text)?;
            sink.write_all(b"\n")
        }
    }
}

// The pods that are wanted are picked and written outside of the lock.
fn list(sink: &mut impl Write, shared: &Shared, query: &str) -> io::Result<()> {
    let wanted = value(query, "labelSelector").and_then(|it| it.split_once("%3D"));
    let (mut pods, revision): (Vec<Arc<Pod>>, usize) = {
        let log = shared.log.lock().unwrap();
        (log.pods.values().cloned().collect(), log.lines.len() + 1)
    };
    if let Some((key, value)) = wanted {
        pods.retain(|pod| pod.labels.iter().any(|it| it.0 == key && it.1 == value));
    }
    if let Some(limit) = value(query, "limit").and_then(|it| it.parse().ok()) {
        pods.truncate(limit);
    }
    let front: &[u8] = b"{\"apiVersion\":\"v1\",\"items\":[";
    let back = format!("],\"kind\":\"PodList\",\"metadata\":{{\"resourceVersion\":\"{revision}\"}}}}\n");
    let texts: usize = pods.iter().map(|it| it.text.len()).sum();
    send(sink, "200 OK", front.len() + texts + pods.len().saturating_sub(1) + back.len())?;
    sink.write_all(front)?;
    for (at, pod) in pods.iter().enumerate() {
        if at > 0 {
            sink.write_all(b",")?;
        }
        sink.write_all(&pod.text)?;
    }
    sink.write_all(back.as_bytes())
}

// Each line is one chunk. What grew since the last turn is written outside of the lock, and then flushed.
fn watch(sink: &mut impl Write, shared: &Shared, query: &str) -> io::Result<()> {
    let from: usize = value(query, "resourceVersion").map_or(1, |it| it.parse().unwrap_or(1));
    let mut at = from.max(1) - 1;
    sink.write_all(b"HTTP/1.1 200 OK\r\nTransfer-Encoding: chunked\r\n\r\n")?;
    sink.flush()?;
    loop {
        let lines: Vec<Arc<Vec<u8>>> = {
            let log = shared.log.lock().unwrap();
            let log = shared.grew.wait_while(log, |log| log.lines.len() <= at).unwrap();
            log.lines[at..].iter().take(TURN).cloned().collect()
        };
        for line in &lines {
            write!(sink, "{:x}\r\n", line.len())?;
            sink.write_all(line)?;
            sink.write_all(b"\r\n")?;
        }
        sink.flush()?;
        at += lines.len();
    }
}

fn write(sink: &mut impl Write, shared: &Shared, body: &[u8]) -> io::Result<()> {
    let text = String::from_utf8_lossy(body);
    let name = between(&text, "\"name\":\"", "\"").unwrap_or("").to_string();
    let labels = labels_in(between(&text, "\"labels\":{", "}").unwrap_or(""));
    let (front, back) = text.split_once("\"metadata\":{").unwrap_or(("", ""));
    let pod = {
        let mut log = shared.log.lock().unwrap();
        let revision = log.lines.len() + 2;
        let text = format!("{front}\"metadata\":{{\"resourceVersion\":\"{revision}\",{back}").into_bytes();
        let kind = if log.pods.contains_key(&name) { "MODIFIED" } else { "ADDED" };
        let mut line = format!("{{\"type\":\"{kind}\",\"object\":").into_bytes();
        line.extend_from_slice(&text);
        line.extend_from_slice(b"}\n");
        let pod = Arc::new(Pod { text, labels });
        log.pods.insert(name, pod.clone());
        log.lines.push(Arc::new(line));
        pod
    };
    shared.grew.notify_all();
    send(sink, "200 OK", pod.text.len() + 1)?;
    sink.write_all(&pod.text)?;
    sink.write_all(b"\n")
}

fn between<'a>(text: &'a str, front: &str, back: &str) -> Option<&'a str> {
    let rest = text.split_once(front)?.1;
    Some(rest.split_once(back)?.0)
}

fn labels_in(text: &str) -> Vec<(String, String)> {
    text.split(',')
        .filter_map(|it| it.split_once(':'))
        .map(|(key, value)| (key.trim_matches('"').to_string(), value.trim_matches('"').to_string()))
        .collect()
}
