//! The page of a journal that is still being written, for browsers on this machine: `--follow --page`.
//!
//! One thread answers one request after the other, on 127.0.0.1 alone. What it gives is the page, how many records there
//! are, and the journal's bytes; it opens no file but the journal and its names, whatever a request names. A request whose Host is not
//! this server is refused, so that no page from elsewhere can have a browser ask for it under another name.

use std::io::{Read, Write};
use std::net::{Ipv4Addr, TcpListener, TcpStream};
use std::time::{Duration, Instant};

use gatekeeper::JOURNAL_BYTES;
use gk_advice::run::{Content, Growing, Next};

use crate::cli::{write, Failure};
use crate::follow::Source;
use crate::page::live_page;
use crate::reel::{next, notice, More};

/// The most bytes of a request that are read, and how long one may take, to be sent and to be answered.
const LONGEST_REQUEST: usize = 8192;
const PATIENCE: Duration = Duration::from_secs(5);

/// A journal that grows, and the page of what there is of it.
struct Live {
    source: Source,
    journal: Vec<u8>,
    run: Growing,
    records: u64,
    /// The bytes of the records that there are, as far as they are no more than a journal may have.
    whole: usize,
    is_broken: bool,
    notice: Option<&'static str>,
    title: String,
    names: gk_names::Names,
    /// The page, and how many bytes it was made of.
    page: Option<(usize, String)>,
}

impl Live {
    /// Reads what has come.
    fn look(&mut self) -> Result<(), Failure> {
        if let Some(names) = self.source.new_names() {
            (self.names, self.page) = (names, None);
        }
        loop {
            let more = if self.is_broken { More::Later } else { self.source.read(&mut self.journal)? };
            let is_unfinished = loop {
                match next(&mut self.run, &self.journal, more) {
                    Next::Step(turn) => {
                        let end = self.run.offset();
                        self.is_broken |= matches!(turn.content, Content::Stop(..));
                        if end <= JOURNAL_BYTES {
                            let all =
                                if self.is_broken { self.journal.len().min(JOURNAL_BYTES) } else { end };
                            (self.records, self.whole) = (turn.position, all);
                        }
                    }
                    Next::Unfinished => break true,
                    Next::End => break false,
                }
            };
            self.notice = notice(more, is_unfinished, self.is_broken, self.journal.len());
            if more != More::Now {
                return Ok(());
            }
        }
    }

    fn page(&mut self) -> &str {
        if self.page.as_ref().is_none_or(|(bytes, _)| *bytes != self.whole) {
            let page = live_page(&self.journal[..self.whole], &self.title, &self.names, self.records);
            self.page = Some((self.whole, page));
        }
        self.page.as_ref().map_or("", |(_, page)| page)
    }
}

/// Serves the page of a journal until it is interrupted; says where, in one line.
pub fn serve(source: Source, title: &str, names: gk_names::Names, port: u16) -> Result<(), Failure> {
    let failed =
        |error: std::io::Error| Failure::Failed(format!("cannot serve a page on 127.0.0.1: {error}"));
    let listener = TcpListener::bind((Ipv4Addr::LOCALHOST, port)).map_err(failed)?;
    let port = listener.local_addr().map_err(failed)?.port();
    let (journal, title, run) = (Vec::new(), title.to_string(), Growing::new());
    let (records, whole, is_broken, notice, page) = (0, 0, false, None, None);
    let mut live = Live { source, journal, run, records, whole, is_broken, notice, title, names, page };
    live.look()?;
    write(format!("http://127.0.0.1:{port}/\n").as_bytes())?;
    loop {
        // A browser that goes away in the middle is no fault of the journal's.
        let Ok((mut stream, _)) = listener.accept() else { continue };
        let Some(request) = request(&mut stream) else { continue };
        live.look()?;
        let _ = stream.write_all(&answer(&request, port, &mut live));
    }
}

/// The head of a request; none where it does not come in time.
fn request(stream: &mut TcpStream) -> Option<Vec<u8>> {
    let until = Instant::now() + PATIENCE;
    stream.set_write_timeout(Some(PATIENCE)).ok()?;
    let mut head = Vec::new();
    let mut part = [0; 1024];
    while !head.windows(4).any(|end| end == b"\r\n\r\n") && head.len() <= LONGEST_REQUEST {
        let left = until.checked_duration_since(Instant::now()).filter(|left| !left.is_zero())?;
        stream.set_read_timeout(Some(left)).ok()?;
        match stream.read(&mut part) {
            Ok(0) | Err(_) => return None,
            Ok(count) => head.extend(&part[..count]),
        }
    }
    Some(head)
}

/// The whole answer to a request.
fn answer(head: &[u8], port: u16, live: &mut Live) -> Vec<u8> {
    let text = std::str::from_utf8(head).unwrap_or("");
    let mut lines = text.split("\r\n");
    let mut words = lines.next().unwrap_or("").split(' ');
    let (method, path) = (words.next().unwrap_or(""), words.next().unwrap_or(""));
    let hosts: Vec<&str> = lines
        .filter_map(|line| line.split_once(':'))
        .filter(|(name, _)| name.eq_ignore_ascii_case("host"))
        .map(|(_, host)| host.trim())
        .collect();
    let is_own = |host: &str| {
        let own = [format!("127.0.0.1:{port}"), format!("localhost:{port}")];
        own.iter().any(|own| own.eq_ignore_ascii_case(host))
    };
    let (status, kind, body): (&str, &str, Vec<u8>) = match (method, path) {
        _ if head.len() > LONGEST_REQUEST => ("431 Request Header Fields Too Large", "", Vec::new()),
        _ if !text.contains("\r\n\r\n") || !words.next().unwrap_or("").starts_with("HTTP/1.") => {
            ("400 Bad Request", "", Vec::new())
        }
        _ if !matches!(hosts[..], [host] if is_own(host)) => ("403 Forbidden", "", Vec::new()),
        ("GET" | "HEAD", "/") => ("200 OK", "text/html; charset=utf-8", live.page().as_bytes().to_vec()),
        ("GET" | "HEAD", "/records") => {
            let said = format!("{}\n{}\n", live.records, live.notice.unwrap_or(""));
            ("200 OK", "text/plain; charset=utf-8", said.into_bytes())
        }
        ("GET" | "HEAD", "/journal") => {
            ("200 OK", "application/octet-stream", live.journal[..live.whole].to_vec())
        }
        ("GET" | "HEAD", "/favicon.ico") => ("204 No Content", "", Vec::new()),
        ("GET" | "HEAD", _) => ("404 Not Found", "", Vec::new()),
        _ => ("405 Method Not Allowed", "", Vec::new()),
    };
    let kind = if kind.is_empty() { "text/plain" } else { kind };
    let length = body.len();
    let mut answer = format!(
        "HTTP/1.1 {status}\r\nContent-Type: {kind}\r\nContent-Length: {length}\r\nConnection: close\r\n\
         Cache-Control: no-store\r\nX-Content-Type-Options: nosniff\r\nX-Frame-Options: DENY\r\n\
         Cross-Origin-Resource-Policy: same-origin\r\nReferrer-Policy: no-referrer\r\n\r\n"
    )
    .into_bytes();
    if method != "HEAD" {
        answer.extend(body);
    }
    answer
}
