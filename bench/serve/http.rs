//! One end of a connection: requests go out whole, replies and the lines of streams come in.
use std::io::{self, Error, ErrorKind, Read, Write};
use std::net::TcpStream;
use std::time::Duration;

const BUFFER: usize = 256 * 1024;

/// The longest silence that a measure waits through.
const PATIENCE: Duration = Duration::from_secs(60);

pub struct Connection {
    stream: TcpStream,
    buffer: Box<[u8]>,
    from: usize,
    to: usize,
}

/// The beginning of a reply.
struct Head {
    status: u32,
    length: usize,
}

impl Connection {
    pub fn open(port: u16) -> io::Result<Connection> {
        let stream = TcpStream::connect(("127.0.0.1", port))?;
        stream.set_nodelay(true)?;
        stream.set_read_timeout(Some(PATIENCE))?;
        Ok(Connection { stream, buffer: vec![0; BUFFER].into(), from: 0, to: 0 })
    }

    pub fn send(&mut self, request: &[u8]) -> io::Result<()> {
        self.stream.write_all(request)
    }

    /// Reads a reply of status 2xx, throws its body away, and gives its length.
    pub fn skip(&mut self) -> io::Result<usize> {
        let length = self.good_head()?;
        let mut left = length;
        loop {
            let here = left.min(self.to - self.from);
            self.from += here;
            left -= here;
            if left == 0 {
                return Ok(length);
            }
            self.fill()?;
        }
    }

    /// Reads a reply of status 2xx, and gives its body.
    pub fn body(&mut self) -> io::Result<Vec<u8>> {
        let length = self.good_head()?;
        let mut body = Vec::with_capacity(length);
        loop {
            let here = (length - body.len()).min(self.to - self.from);
            body.extend_from_slice(&self.buffer[self.from..self.from + here]);
            self.from += here;
            if body.len() == length {
                return Ok(body);
            }
            self.fill()?;
        }
    }

    /// Reads the head of a stream.
    pub fn begin(&mut self) -> io::Result<()> {
        self.good_head().map(|_| ())
    }

    /// The next chunk of a stream, which is one line.
    pub fn line(&mut self) -> io::Result<&[u8]> {
        let digits = self.until(b"\r\n")?;
        let text = String::from_utf8_lossy(&self.buffer[self.from..self.from + digits]).into_owned();
        let length = usize::from_str_radix(&text, 16).map_err(|_| bad(&format!("chunk of length {text}")))?;
        if length == 0 {
            return Err(bad("the stream ended"));
        }
        let whole = digits + 2 + length + 2;
        while self.to - self.from < whole {
            self.fill()?;
        }
        let front = self.from + digits + 2;
        self.from += whole;
        Ok(&self.buffer[front..front + length])
    }

    fn good_head(&mut self) -> io::Result<usize> {
        let head = self.head()?;
        if head.status / 100 != 2 {
            return Err(bad(&format!("a reply of status {}", head.status)));
        }
        Ok(head.length)
    }

    fn head(&mut self) -> io::Result<Head> {
        let size = self.until(b"\r\n\r\n")?;
        let text = std::str::from_utf8(&self.buffer[self.from..self.from + size]).map_err(|_| bad("a head"))?;
        let status = text.get(9..12).and_then(|it| it.parse().ok()).ok_or_else(|| bad("no status"))?;
        let length = text.lines().find_map(length_in).unwrap_or(0);
        self.from += size + 4;
        Ok(Head { status, length })
    }

    // How many bytes stand before the first such mark. More is read until there is one.
    fn until(&mut self, mark: &[u8]) -> io::Result<usize> {
        let mut tried = 0;
        loop {
            let held = &self.buffer[self.from..self.to];
            if let Some(at) = held[tried..].windows(mark.len()).position(|it| it == mark) {
                return Ok(tried + at);
            }
            tried = held.len().saturating_sub(mark.len() - 1);
            self.fill()?;
        }
    }

    // Reads some bytes more, after what isn't used yet.
    fn fill(&mut self) -> io::Result<()> {
        if self.from > 0 {
            self.buffer.copy_within(self.from..self.to, 0);
            (self.from, self.to) = (0, self.to - self.from);
        }
        if self.to == self.buffer.len() {
            return Err(bad("a piece that is longer than the buffer"));
        }
        match self.stream.read(&mut self.buffer[self.to..])? {
            0 => Err(Error::from(ErrorKind::UnexpectedEof)),
            count => {
                self.to += count;
                Ok(())
            }
        }
    }
}

fn length_in(line: &str) -> Option<usize> {
    let (name, value) = line.split_once(':')?;
    name.eq_ignore_ascii_case("content-length").then(|| value.trim().parse().ok())?
}

fn bad(what: &str) -> Error {
    Error::new(ErrorKind::InvalidData, what.to_string())
}

/// The revision that a line, or the text of an object, tells.
pub fn revision_in(line: &[u8]) -> Option<u64> {
    const MARK: &[u8] = b"\"resourceVersion\":\"";
    let mut at = 0;
    loop {
        at += line[at..].iter().position(|it| *it == b'V')?;
        if at >= 9 && line[at - 9..].starts_with(MARK) {
            let digits = &line[at - 9 + MARK.len()..];
            let end = digits.iter().position(|it| !it.is_ascii_digit())?;
            return std::str::from_utf8(&digits[..end]).ok()?.parse().ok();
        }
        at += 1;
    }
}
