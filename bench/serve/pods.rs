//! The pods that the servers hold, and the requests that are sent.
use crate::http::Connection;
use std::io;

/// How long the text of a pod is, as a client sends it.
const SIZE: usize = 1170;

/// One pod of so many has the label that a list asks for.
pub const OF: usize = 10;

const COLLECTION: &str = "/api/v1/namespaces/default/pods";

pub fn name(number: usize) -> String {
    format!("pod-{number:05}")
}

/// A pod as a controller writes it, in so many bytes where that is enough; `turn` makes its writes differ.
fn pod(number: usize, turn: usize, size: usize) -> String {
    let (name, tier) = (name(number), number % OF);
    let front = format!(
        "{{\"metadata\":{{\"name\":\"{name}\",\"namespace\":\"default\",\"uid\":\"6f2b1c8e-0d3a-4b57-9c1e-{number:012}\",\
         \"labels\":{{\"app\":\"web\",\"pod-template-hash\":\"5d9c7b8f6d\",\"tier\":\"t{tier}\"}},\
         \"annotations\":{{\"turn\":\"{turn:06}\",\"note\":\""
    );
    let back = format!(
        "\"}},\"ownerReferences\":[{{\"apiVersion\":\"apps/v1\",\"kind\":\"ReplicaSet\",\"name\":\"web-5d9c7b8f6d\",\
         \"uid\":\"b7d4c1d2-5d3c-4c0e-a7a4-3f1d2a9c8e10\",\"controller\":true}}]}},\"spec\":{{\"nodeName\":\"node-{:03}\",\
         \"containers\":[{{\"name\":\"web\",\"image\":\"registry.example/web:1.27.3\",\"ports\":[{{\"containerPort\":8080,\
         \"protocol\":\"TCP\"}}],\"resources\":{{\"limits\":{{\"cpu\":\"500m\",\"memory\":\"256Mi\"}},\"requests\":{{\"cpu\":\"100m\",\
         \"memory\":\"128Mi\"}}}},\"env\":[{{\"name\":\"STAGE\",\"value\":\"production\"}}]}}],\"restartPolicy\":\"Always\",\
         \"serviceAccountName\":\"default\"}},\"status\":{{\"phase\":\"Running\",\"podIP\":\"10.1.{}.{}\",\"conditions\":[\
         {{\"type\":\"Ready\",\"status\":\"True\"}},{{\"type\":\"PodScheduled\",\"status\":\"True\"}}]}}}}",
        number % 250,
        number / 250 % 250,
        number % 250
    );
    let note = size.saturating_sub(front.len() + back.len());
    format!("{front}{}{back}", "n".repeat(note))
}

pub fn create(number: usize) -> Vec<u8> {
    with_body("POST", COLLECTION, &pod(number, 0, SIZE))
}

/// Creates a pod that has little but a name.
pub fn create_small(number: usize) -> Vec<u8> {
    with_body("POST", COLLECTION, &format!("{{\"metadata\":{{\"name\":\"small-{number}\"}},\"spec\":{{\"nodeName\":\"here\"}}}}"))
}

pub fn replace(number: usize, turn: usize) -> Vec<u8> {
    replace_by(number, turn, SIZE)
}

/// The same by a pod of so many bytes.
pub fn replace_by(number: usize, turn: usize, size: usize) -> Vec<u8> {
    with_body("PUT", &format!("{COLLECTION}/{}", name(number)), &pod(number, turn, size))
}

/// A request of the server's own paths that changes nothing of the log.
pub fn restart() -> Vec<u8> {
    with_body("POST", "/watchcache/restart", "")
}

fn with_body(method: &str, path: &str, body: &str) -> Vec<u8> {
    format!("{method} {path} HTTP/1.1\r\nHost: localhost\r\nContent-Length: {}\r\n\r\n{body}", body.len()).into_bytes()
}

pub fn read(path: &str) -> Vec<u8> {
    format!("GET {path} HTTP/1.1\r\nHost: localhost\r\n\r\n").into_bytes()
}

/// The path of a pod.
pub fn path(number: usize) -> String {
    format!("{COLLECTION}/{}", name(number))
}

/// The path of the list of all pods.
pub fn list_path() -> String {
    "/api/v1/pods".to_string()
}

/// The path of the list of one pod in ten.
pub fn label_path() -> String {
    "/api/v1/pods?labelSelector=tier%3Dt3".to_string()
}

/// The path of a watch of all that follows a revision.
pub fn watch_path(from: u64) -> String {
    format!("/api/v1/pods?watch=1&resourceVersion={from}&timeoutSeconds=3600")
}

/// Creates so many pods by one connection.
pub fn load(port: u16, count: usize) -> io::Result<()> {
    let mut connection = Connection::open(port)?;
    for number in 0..count {
        connection.send(&create(number))?;
        connection.skip()?;
    }
    Ok(())
}
