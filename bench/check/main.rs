//! Times `watchcache check` on a record of many revisions and lines, beside a plain reader of JSON that reads the same
//! bytes and judges nothing, and beside the same record with its last line damaged; and one of as many lines between two
//! lists, where the log is unknown. The words are the program, a folder for the records, and `quick` for a short run.
use std::fmt::Write as _;
use std::fs::{self, File};
use std::io;
use std::path::Path;
use std::process::{Command, Stdio};
use std::time::Instant;

/// How many keys the log's objects have, and how many changes a revision.
const KEYS: usize = 1_000;
const CHANGES: usize = 10;

fn main() -> io::Result<()> {
    let words: Vec<String> = std::env::args().skip(1).collect();
    let [program, folder, rest @ ..] = &words[..] else {
        panic!("words: PROGRAM FOLDER [quick]");
    };
    let revisions = if rest.is_empty() { 10_000 } else { 300 };
    let whole = record(revisions, "watch=true&resourceVersion=1", false);
    let damaged = record(revisions, "watch=true&resourceVersion=1", true);
    let state = record(revisions, "watch=true", true);
    let lists = between_lists(revisions * CHANGES);
    println!("| Record | MB | lines | check, s | plain reader, s | says |");
    println!("|---|---|---|---|---|---|");
    let records = [("lawful", &whole), ("its last line damaged", &damaged), ("the same from any state", &state), ("between lists", &lists)];
    for (name, text) in records {
        let path = Path::new(folder).join("record");
        fs::write(&path, text)?;
        let (checked, says) = timed(program, &path)?;
        let began = Instant::now();
        let values = text.lines().filter(|line| !line.is_empty()).map(|line| read(line.as_bytes())).sum::<usize>();
        let plain = began.elapsed().as_secs_f64();
        assert!(values > 0);
        let lines = text.lines().count();
        println!("| {name} | {:.1} | {lines} | {checked:.2} | {plain:.2} | {says} |", text.len() as f64 / 1e6);
    }
    Ok(())
}

// The middle one of three runs, and what the program says.
fn timed(program: &str, path: &Path) -> io::Result<(f64, String)> {
    let mut told = Vec::new();
    for _ in 0..3 {
        let began = Instant::now();
        let output = Command::new(program).arg("check").stdin(File::open(path)?).stderr(Stdio::inherit()).output()?;
        told.push((began.elapsed().as_secs_f64(), String::from_utf8_lossy(&output.stdout).trim().to_string()));
    }
    told.sort_by(|a, b| a.0.total_cmp(&b.0));
    Ok(told.swap_remove(1))
}

// A record: ten pods are written at each revision, and the watch is told of all.
fn record(revisions: usize, query: &str, is_damaged: bool) -> String {
    let mut log = String::new();
    let mut body = String::new();
    for number in 0..revisions {
        let revision = number + 2;
        let mut changes = Vec::new();
        for change in 0..CHANGES {
            let key = (number * CHANGES + change) % KEYS;
            let kind = if number * CHANGES + change < KEYS { "ADDED" } else { "MODIFIED" };
            let object = pod(key, revision, number);
            changes.push(format!("{{\"key\":\"default/p-{key:05}\",\"object\":{object},\"resource\":\"pods\"}}"));
            writeln!(body, "{{\"type\":\"{kind}\",\"object\":{object}}}").expect("a text");
        }
        writeln!(log, "{{\"changes\":[{}],\"rev\":{revision}}}", changes.join(",")).expect("a text");
    }
    if is_damaged {
        body.truncate(body.len() - 3);
        body.push('\n');
    }
    format!("{{\"first\":1,\"floor\":1,\"namespace\":\"\",\"query\":\"{query}\",\"resource\":\"pods\",\"window\":100}}\n{log}\n{body}")
}

fn pod(key: usize, revision: usize, turn: usize) -> String {
    let front = "{\"apiVersion\":\"v1\",\"kind\":\"Pod\",\"metadata\":{\"labels\":{\"app\":\"web\"},";
    let metadata = format!("\"name\":\"p-{key:05}\",\"namespace\":\"default\",\"resourceVersion\":\"{revision}\"");
    format!("{front}{metadata}}},\"spec\":{{\"nodeName\":\"node-{:02}\",\"turn\":{turn}}}}}", key % 50)
}

// A record of an unknown log: a list of no pods, a watch from there, told of one pod a line, and the list at its end.
fn between_lists(lines: usize) -> String {
    let list = |at: usize, items: Vec<String>| {
        format!("{{\"apiVersion\":\"v1\",\"items\":[{}],\"kind\":\"PodList\",\"metadata\":{{\"resourceVersion\":\"{at}\"}}}}\n", items.join(","))
    };
    let mut body = String::new();
    for number in 0..lines {
        let kind = if number < KEYS { "ADDED" } else { "MODIFIED" };
        writeln!(body, "{{\"type\":\"{kind}\",\"object\":{}}}", pod(number % KEYS, number + 2, number)).expect("a text");
    }
    let last = (lines.saturating_sub(KEYS)..lines).map(|number| (number % KEYS, pod(number % KEYS, number + 2, number)));
    let mut last: Vec<_> = last.collect();
    last.sort();
    let last = list(lines + 1, last.into_iter().map(|(_, pod)| pod).collect());
    let header = "{\"namespace\":\"\",\"query\":\"watch=true&resourceVersion=1\",\"resource\":\"pods\"}";
    format!("{header}\n{}\n{body}\n{last}", list(1, Vec::new()))
}

// A plain reader of JSON: how many values a text has.
fn read(text: &[u8]) -> usize {
    let (mut values, mut at) = (0, 0);
    while at < text.len() {
        match text[at] {
            b'"' => {
                let mut text_at = at + 1;
                while text_at < text.len() && text[text_at] != b'"' {
                    text_at += if text[text_at] == b'\\' { 2 } else { 1 };
                }
                values += 1;
                at = text_at;
            }
            b'0'..=b'9' | b't' | b'f' | b'n' => {
                values += 1;
                while at + 1 < text.len() && text[at + 1].is_ascii_alphanumeric() {
                    at += 1;
                }
            }
            _ => {}
        }
        at += 1;
    }
    values
}
