//! The servers that are measured, each a process of its own on the server's processors. They end as their value is dropped.
use std::fs;
use std::io;
use std::net::{TcpListener, TcpStream};
use std::path::Path;
use std::process::{Child, Command, Stdio};
use std::time::{Duration, Instant};

/// How long a server may take until it listens.
const PATIENCE: Duration = Duration::from_secs(20);

pub struct Server {
    pub port: u16,
    process: Child,
    is_nginx: bool,
}

impl Server {
    /// `watchcache serve` with these options besides the port. Its program may be several words.
    pub fn watchcache(program: &str, processors: &str, options: &[&str]) -> io::Result<Server> {
        let port = free_port()?;
        let mut words: Vec<String> = program.split(' ').map(str::to_string).collect();
        words.extend(["serve".to_string(), "--port".to_string(), port.to_string()]);
        words.extend(options.iter().map(|it| it.to_string()));
        start(&words, processors, port, false)
    }

    /// The plain fellow.
    pub fn plain(program: &str, processors: &str) -> io::Result<Server> {
        let port = free_port()?;
        start(&[program.to_string(), port.to_string()], processors, port, false)
    }

    /// nginx over the files below `folder`/files, with two workers that have no more than this to do.
    pub fn nginx(folder: &Path, processors: &str) -> io::Result<Server> {
        let port = free_port()?;
        let at = folder.display();
        let settings = format!(
            "worker_processes 2;\npid {at}/nginx.pid;\nerror_log {at}/nginx.log;\nevents {{ worker_connections 256; }}\n\
             http {{\n  access_log off;\n  default_type application/json;\n  sendfile on;\n  tcp_nopush on;\n  \
             keepalive_requests 1000000000;\n  open_file_cache max=4000 inactive=600s;\n  open_file_cache_valid 600s;\n  \
             server {{ listen 127.0.0.1:{port}; root {at}/files; }}\n}}\n"
        );
        fs::write(folder.join("nginx.conf"), settings)?;
        let words = ["nginx", "-c", &format!("{at}/nginx.conf"), "-g", "daemon off;"];
        start(&words.map(str::to_string), processors, port, true)
    }

    /// The bytes of memory that the process holds now.
    pub fn resident(&self) -> io::Result<u64> {
        Ok(self.status("VmRSS:")? * 1024)
    }

    /// How many threads the process has now.
    pub fn threads(&self) -> io::Result<u64> {
        self.status("Threads:")
    }

    /// The time that the process took of all processors so far.
    pub fn processor_time(&self) -> io::Result<Duration> {
        let text = fs::read_to_string(format!("/proc/{}/stat", self.process.id()))?;
        let fields = text.rsplit(')').next().unwrap_or("").split_whitespace();
        let ticks: u64 = fields.skip(11).take(2).filter_map(|it| it.parse::<u64>().ok()).sum();
        Ok(Duration::from_millis(ticks * 10))
    }

    // The number of a line of the process's status.
    fn status(&self, name: &str) -> io::Result<u64> {
        let text = fs::read_to_string(format!("/proc/{}/status", self.process.id()))?;
        let line = text.lines().find(|it| it.starts_with(name)).unwrap_or("");
        Ok(line.split_whitespace().nth(1).and_then(|it| it.parse().ok()).unwrap_or(0))
    }
}

impl Drop for Server {
    // nginx ends its workers where it is told to quit; the others end at once.
    fn drop(&mut self) {
        let id = self.process.id().to_string();
        if !self.is_nginx || !Command::new("kill").args(["-QUIT", &id]).status().is_ok_and(|it| it.success()) {
            let _ = self.process.kill();
        }
        let _ = self.process.wait();
    }
}

fn free_port() -> io::Result<u16> {
    Ok(TcpListener::bind("127.0.0.1:0")?.local_addr()?.port())
}

// Starts the words on the processors, and waits until it accepts.
fn start(words: &[String], processors: &str, port: u16, is_nginx: bool) -> io::Result<Server> {
    let process = Command::new("taskset")
        .args(["-c", processors])
        .args(words)
        .stdin(Stdio::null())
        .stdout(Stdio::null())
        .stderr(Stdio::null())
        .spawn()?;
    let mut server = Server { port, process, is_nginx };
    let began = Instant::now();
    while TcpStream::connect(("127.0.0.1", port)).is_err() {
        if let Some(status) = server.process.try_wait()? {
            return Err(io::Error::other(format!("{}: {status}", words.join(" "))));
        }
        if began.elapsed() > PATIENCE {
            return Err(io::Error::other(format!("{} doesn't listen", words.join(" "))));
        }
        std::thread::sleep(Duration::from_millis(5));
    }
    Ok(server)
}
