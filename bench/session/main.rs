//! Times `watchcache session` on requests that stand in a file, beside the plain program of `serve/plain.rs` on the same
//! bytes: creates of pods, and behind them gets, lists of one in ten by label, and pages. The time of the creates alone is taken
//! off the others. The words are the program, the plain program, a folder, and `quick` for a short run.
use std::fs::{self, File};
use std::io;
use std::path::Path;
use std::process::{Command, Stdio};
use std::time::Instant;

const PATH: &str = "/api/v1/namespaces/default/pods";

fn main() -> io::Result<()> {
    let words: Vec<String> = std::env::args().skip(1).collect();
    let [program, plain, folder, rest @ ..] = &words[..] else {
        panic!("words: PROGRAM PLAIN FOLDER [quick]");
    };
    let (pods, gets, lists, runs) = if rest.is_empty() { (10_000, 100_000, 200, 5) } else { (500, 1_000, 5, 1) };
    let creates: String = (0..pods).map(create).collect();
    let bare = timed(&[program, plain], folder, &creates, runs)?;
    println!("| Request | session, µs | a second | plain, µs | ratio |");
    println!("|---|---|---|---|---|");
    print("create", pods, bare);
    let kinds = [
        ("get", gets, (0..gets).map(|it| request(&format!("/p-{:05}", it * 7 % pods))).collect::<String>()),
        ("list of one in ten by label", lists, request("?labelSelector=g%3D3").repeat(lists)),
        ("page of 50", lists * 50, request("?limit=50").repeat(lists * 50)),
    ];
    for (name, count, text) in kinds {
        let both = timed(&[program, plain], folder, &(creates.clone() + &text), runs)?;
        print(name, count, [both[0] - bare[0], both[1] - bare[1]]);
    }
    Ok(())
}

// The least of some runs of each program, which take turns, in seconds.
fn timed(programs: &[&String; 2], folder: &str, text: &str, runs: usize) -> io::Result<[f64; 2]> {
    let path = Path::new(folder).join("requests");
    fs::write(&path, text)?;
    let mut least = [f64::MAX; 2];
    for _ in 0..runs {
        for (program, least) in programs.iter().zip(&mut least) {
            let began = Instant::now();
            let status =
                Command::new(program).arg("session").stdin(File::open(&path)?).stdout(Stdio::null()).status()?;
            assert!(status.success(), "{program} ended with {status}");
            *least = least.min(began.elapsed().as_secs_f64());
        }
    }
    Ok(least)
}

fn print(name: &str, count: usize, [session, plain]: [f64; 2]) {
    let each = 1e6 / count as f64;
    let (session_us, plain_us) = (session * each, plain * each);
    println!("| {name} | {session_us:.2} | {:.0} | {plain_us:.2} | {:.2} |", count as f64 / session, session / plain);
}

fn request(target: &str) -> String {
    format!("GET {PATH}{target} HTTP/1.1\r\n\r\n")
}

// A pod of about 250 bytes, with one of ten labels.
fn create(number: usize) -> String {
    let labels = format!("\"labels\":{{\"app\":\"web\",\"g\":\"{}\",\"tier\":\"front\"}}", number % 10);
    let limits = "\"resources\":{\"limits\":{\"cpu\":\"500m\",\"memory\":\"256Mi\"}}";
    let spec = format!("\"containers\":[{{\"image\":\"registry.example/web:1.27.3\",\"name\":\"web\",{limits}}}],\"nodeName\":\"node-1\"");
    let body = format!("{{\"metadata\":{{{labels},\"name\":\"p-{number:05}\"}},\"spec\":{{{spec}}},\"status\":{{\"phase\":\"Running\"}}}}");
    format!("POST {PATH} HTTP/1.1\r\nContent-Length: {}\r\n\r\n{body}", body.len())
}
