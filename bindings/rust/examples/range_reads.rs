//! Looks a file, or a run of chunks, up in a shard on a web server, of which it reads parts:
//! range_reads URL file HASH, or range_reads URL chunks HASH..
//!
//! A lookup takes three requests at most: for both ends of the shard, which say where the tables are, for a table, and
//! for the records to which its rows lead. Ends and tables are kept, so one more lookup in a table takes one request.
//! The server has to know ranges, and several in one request, as nginx does; one that does not sends the whole shard,
//! once.

use std::collections::{BTreeMap, BTreeSet};
use std::env;
use std::error::Error;
use std::io::{BufRead, BufReader, Read, Write};
use std::iter::zip;
use std::net::TcpStream;
use std::ops::Range;
use std::process::ExitCode;
use std::slice::from_ref;
use xet_shards::{file_in, find_places, find_rows, hmac, load, query_at, ChunkPlace, File, Hash, Info, Run, NO_KEY};

pub type Result<T> = std::result::Result<T, Box<dyn Error>>;

/// The bytes of the header, of the footer, and of a row of a section, of the file table and of the chunk table.
const HEADER: u64 = 48;
const FOOTER: u64 = 200;
const ROW: u64 = 48;
const FILE_ROW: usize = 12;
const CHUNK_ROW: usize = 16;
/// Where the footer says where the xorb section starts.
const XORB_SECTION: Range<usize> = 16..24;

/// What is asked of a file.
pub enum Wanted {
    Bytes(Range<u64>),
    Last(u64),
}

/// Bytes of a file, where they start in it, and how many it has.
struct Part {
    start: u64,
    content: Vec<u8>,
    size: u64,
}

impl Part {
    /// What is asked, if all of it is in this part.
    fn cut(&self, wanted: &Wanted) -> Option<&[u8]> {
        let Range { start, end } = match wanted {
            Wanted::Bytes(range) => range.start..range.end.min(self.size),
            Wanted::Last(count) => self.size.saturating_sub(*count)..self.size,
        };
        let place = |at: u64| at.checked_sub(self.start)?.try_into().ok();
        self.content.get(place(start)?..place(end)?)
    }
}

/// A file on a web server, of which ranges are read.
pub struct RemoteFile {
    host: String,
    path: String,
    etag: Option<String>,
    /// The one part that a server sends that knows no ranges.
    whole: Option<Part>,
    /// How many bytes the file has, as the last answer says.
    pub size: u64,
    /// How many requests there were.
    pub requests: usize,
    /// How many bytes of the file came.
    pub bytes: usize,
}

impl RemoteFile {
    fn new(url: &str) -> Result<RemoteFile> {
        let rest = url.strip_prefix("http://").ok_or("the URL is not of http")?;
        let (host, path) = rest.split_once('/').unwrap_or((rest, ""));
        let path = format!("/{path}");
        Ok(RemoteFile { host: host.into(), path, etag: None, whole: None, size: 0, requests: 0, bytes: 0 })
    }

    /// The bytes that are asked for, by one request. Of a range that passes the end they are fewer.
    fn read(&mut self, wanted: &[Wanted]) -> Result<Vec<Vec<u8>>> {
        if let Some(whole) = &self.whole {
            return cut(from_ref(whole), wanted);
        }
        let answer = self.ask(wanted)?;
        let mut parts = answer.parts()?;
        self.requests += 1;
        self.bytes += parts.iter().map(|it| it.content.len()).sum::<usize>();
        // The parts of a shard are to be of one: if it is another by then, the next request fails.
        self.etag = answer.header("etag").filter(|it| !it.starts_with("W/")).map(String::from);
        self.size = parts.first().map_or(0, |it| it.size);
        let found = cut(&parts, wanted)?;
        if answer.status.starts_with("200") {
            self.whole = parts.pop();
        }
        Ok(found)
    }

    fn ask(&self, wanted: &[Wanted]) -> Result<Answer> {
        let range = |it: &Wanted| match it {
            Wanted::Bytes(range) => format!("{}-{}", range.start, range.end - 1),
            Wanted::Last(count) => format!("-{count}"),
        };
        let ranges = wanted.iter().map(range).collect::<Vec<_>>().join(",");
        let address = if self.host.contains(':') { self.host.clone() } else { format!("{}:80", self.host) };
        let mut stream = TcpStream::connect(address)?;
        write!(stream, "GET {} HTTP/1.1\r\nHost: {}\r\nConnection: close\r\n", self.path, self.host)?;
        if let Some(etag) = &self.etag {
            write!(stream, "If-Match: {etag}\r\n")?;
        }
        write!(stream, "Range: bytes={ranges}\r\n\r\n")?;
        Answer::read(BufReader::new(stream))
    }
}

/// What is asked, of parts that have all of it.
fn cut(parts: &[Part], wanted: &[Wanted]) -> Result<Vec<Vec<u8>>> {
    let cut = |it| parts.iter().find_map(|part| part.cut(it)).map(<[u8]>::to_vec);
    Ok(wanted.iter().map(cut).collect::<Option<_>>().ok_or("the server leaves out a range")?)
}

/// The answer to a request.
struct Answer {
    status: String,
    headers: Vec<(String, String)>,
    body: Vec<u8>,
}

impl Answer {
    fn read(mut from: impl BufRead) -> Result<Answer> {
        let line = line_of(&mut from)?;
        let status = line.strip_prefix("HTTP/1.1 ").ok_or("the server does not answer by HTTP/1.1")?.to_string();
        let mut answer = Answer { status, headers: headers_of(&mut from)?, body: Vec::new() };
        let length =
            answer.header("content-length").ok_or("the server does not say how long its answer is")?.parse()?;
        from.take(length).read_to_end(&mut answer.body)?;
        if answer.body.len() as u64 != length {
            return Err("the answer ends too early".into());
        }
        Ok(answer)
    }

    fn header(&self, name: &str) -> Option<&str> {
        header(&self.headers, name)
    }

    /// The parts of the file: those that were asked for, in any order, or the whole.
    fn parts(&self) -> Result<Vec<Part>> {
        let kind = self.header("content-type").unwrap_or("");
        if self.status.starts_with("200") {
            return Ok(vec![Part { start: 0, content: self.body.clone(), size: self.body.len() as u64 }]);
        } else if !self.status.starts_with("206") {
            return Err(format!("the server answers {}", self.status).into());
        } else if !kind.starts_with("multipart/byteranges") {
            return Ok(vec![part_of(&self.headers, &mut &self.body[..])?]);
        }
        let boundary = kind.split_once("boundary=").ok_or("the answer has no boundary")?.1.trim_matches('"');
        let (mut parts, mut rest) = (Vec::new(), &self.body[..]);
        while !rest.is_empty() {
            if line_of(&mut rest)? == format!("--{boundary}") {
                let headers = headers_of(&mut rest)?;
                parts.push(part_of(&headers, &mut rest)?);
            }
        }
        Ok(parts)
    }
}

fn part_of(headers: &[(String, String)], from: &mut &[u8]) -> Result<Part> {
    let place = header(headers, "content-range").and_then(place_of).ok_or("a part has no place")?;
    let (start, last, size) = place;
    let count = usize::try_from(last.checked_sub(start).ok_or("a part has no place")?)?.saturating_add(1);
    if count > from.len() {
        return Err("the answer ends too early".into());
    }
    let (content, rest) = from.split_at(count);
    *from = rest;
    Ok(Part { start, content: content.to_vec(), size })
}

/// The numbers of `bytes 0-47/1000`.
fn place_of(text: &str) -> Option<(u64, u64, u64)> {
    let (range, size) = text.strip_prefix("bytes ")?.split_once('/')?;
    let (start, last) = range.split_once('-')?;
    Some((start.parse().ok()?, last.parse().ok()?, size.parse().ok()?))
}

fn line_of(from: &mut impl BufRead) -> Result<String> {
    let mut line = Vec::new();
    from.take(1 << 16).read_until(b'\n', &mut line)?;
    Ok(String::from_utf8_lossy(&line).trim_end().to_string())
}

/// The headers up to an empty line, with names in lower case.
fn headers_of(from: &mut impl BufRead) -> Result<Vec<(String, String)>> {
    let mut headers = Vec::new();
    loop {
        let line = line_of(from)?;
        match line.split_once(':') {
            Some((name, value)) => headers.push((name.to_ascii_lowercase(), value.trim().to_string())),
            None if line.is_empty() => return Ok(headers),
            None => return Err("a header has no value".into()),
        }
    }
}

fn header<'a>(headers: &'a [(String, String)], name: &str) -> Option<&'a str> {
    headers.iter().find(|(it, _)| it == name).map(|(_, value)| value.as_str())
}

/// A shard on a web server.
pub struct RemoteShard {
    pub file: RemoteFile,
    pub info: Info,
    header: Vec<u8>,
    footer: Vec<u8>,
    file_table: Option<Vec<u8>>,
    chunk_table: Option<Vec<u8>>,
}

impl RemoteShard {
    /// Reads both ends of the shard.
    pub fn open(url: &str) -> Result<RemoteShard> {
        let mut file = RemoteFile::new(url)?;
        let mut ends = file.read(&[Wanted::Bytes(0..HEADER), Wanted::Last(FOOTER)])?;
        let info = load(&ends.concat())?;
        let (footer, header) = (ends.pop().unwrap_or_default(), ends.pop().unwrap_or_default());
        Ok(RemoteShard { file, info, header, footer, file_table: None, chunk_table: None })
    }

    /// The file with this hash. A shard without a table of files has none that is found.
    pub fn find_file(&mut self, hash: Hash) -> Result<Option<File>> {
        if self.file_table.is_none() {
            self.file_table = Some(self.table(self.info.file_table, self.info.files, FILE_ROW)?);
        }
        let table = self.file_table.as_deref().unwrap_or(&[]);
        let rows = find_rows(table, hash.0[0])?;
        let wanted = records(self.info.file_section..self.info.xorb_section, starts(table, FILE_ROW), &rows)?;
        for record in self.bytes(&wanted)? {
            match file_in(&record, self.info.version)? {
                Some((found, _)) if found.hash == hash => return Ok(Some(found.file)),
                _ => {}
            }
        }
        Ok(None)
    }

    /// The longest run of chunks with these hashes, which are not keyed. It has at least the first. A shard without a
    /// table of chunks has none that is found.
    pub fn query_chunks(&mut self, hashes: &[Hash]) -> Result<Option<Run>> {
        let first = match hashes.first() {
            Some(first) if self.info.key == NO_KEY => *first,
            Some(first) => hmac(self.info.key, *first),
            None => return Ok(None),
        };
        if self.chunk_table.is_none() {
            self.chunk_table = Some(self.table(self.info.chunk_table, self.info.chunks, CHUNK_ROW)?);
        }
        let table = self.chunk_table.as_deref().unwrap_or(&[]);
        let places = find_places(table, first.0[0])?;
        // A xorb can have the chunk more than once.
        let rows: BTreeSet<u32> = places.iter().map(|it| it.row).collect();
        let rows: Vec<u32> = rows.into_iter().collect();
        let wanted = records(self.info.xorb_section..self.info.file_table, starts(table, CHUNK_ROW), &rows)?;
        let mut longest: Option<Run> = None;
        let xorbs: BTreeMap<u32, Vec<u8>> = zip(rows, self.bytes(&wanted)?).collect();
        for ChunkPlace { row, index } in places {
            let run = query_at(&self.alone(&xorbs[&row]), hashes, 0, index)?;
            if run.map_or(0, |it| it.count) > longest.map_or(0, |it| it.count) {
                longest = run;
            }
        }
        Ok(longest)
    }

    fn table(&mut self, start: u64, rows: u64, row: usize) -> Result<Vec<u8>> {
        let end = rows.checked_mul(row as u64).and_then(|it| it.checked_add(start)).ok_or("a table has no end")?;
        let wanted = if rows == 0 { vec![] } else { vec![Wanted::Bytes(start..end)] };
        Ok(self.bytes(&wanted)?.concat())
    }

    fn bytes(&mut self, wanted: &[Wanted]) -> Result<Vec<Vec<u8>>> {
        if wanted.is_empty() {
            return Ok(Vec::new());
        }
        self.file.read(wanted)
    }

    /// The bytes of a shard in which a lookup at row 0 of the xorb section finds this record.
    fn alone(&self, xorb: &[u8]) -> Vec<u8> {
        let mut footer = self.footer.clone();
        footer[XORB_SECTION].copy_from_slice(&HEADER.to_le_bytes());
        [&self.header, xorb, &footer].concat()
    }
}

/// The rows of a section to which the rows of a table lead, in ascending order.
fn starts(table: &[u8], row: usize) -> Vec<u64> {
    let number = |it: &[u8]| u32::from_le_bytes(it[8..12].try_into().expect("four bytes")).into();
    let mut starts: Vec<u64> = table.chunks_exact(row).map(number).collect();
    starts.sort_unstable();
    starts
}

/// The bytes of the records at some rows of a section. They end where the next record starts that a table knows, or
/// where the section does.
fn records(section: Range<u64>, starts: Vec<u64>, rows: &[u32]) -> Result<Vec<Wanted>> {
    let end = section.end.saturating_sub(section.start) / ROW;
    let record = |&row: &u32| {
        let row = u64::from(row);
        let stop = *starts.get(starts.partition_point(|&it| it <= row)).unwrap_or(&end);
        let place = |row: u64| section.start.checked_add(ROW * row);
        (row < stop).then_some(Wanted::Bytes(place(row)?..place(stop)?))
    };
    Ok(rows.iter().map(record).collect::<Option<_>>().ok_or("a row of a table leads out of its section")?)
}

/// Looks up what the words say, and returns what is to be printed.
fn look_up(words: &[String]) -> Result<String> {
    let (url, what, texts) = match words {
        [url, what, texts @ ..] if !texts.is_empty() => (url, what.as_str(), texts),
        _ => return Err("usage: range_reads URL file HASH, or range_reads URL chunks HASH..".into()),
    };
    let hashes = texts.iter().map(|it| it.parse()).collect::<xet_shards::Result<Vec<Hash>>>()?;
    let mut shard = RemoteShard::open(url)?;
    let found = match (what, &hashes[..]) {
        ("file", [hash]) => shard.find_file(*hash)?.map(|it| format!("{} segments", it.segments.len())),
        ("chunks", hashes) => shard
            .query_chunks(hashes)?
            .map(|it| format!("{} chunks, from {} of {}", it.count, it.segment.start, it.segment.xorb)),
        _ => return Err("a lookup is of one file, or of chunks".into()),
    };
    let RemoteFile { requests, bytes, size, .. } = shard.file;
    let found = found.unwrap_or_else(|| format!("no such {}", what.trim_end_matches('s')));
    Ok(format!("{found}\n{requests} requests, {bytes} of {size} bytes"))
}

fn main() -> ExitCode {
    match look_up(&env::args().skip(1).collect::<Vec<_>>()) {
        Ok(found) => {
            println!("{found}");
            ExitCode::SUCCESS
        }
        Err(error) => {
            eprintln!("range_reads: {error}");
            ExitCode::FAILURE
        }
    }
}
