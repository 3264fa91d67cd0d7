//! Tests of examples/range_reads.rs, against a server that answers requests for ranges. The answers are those of the
//! library over the whole shard.

mod common;

#[allow(dead_code)]
#[path = "../examples/range_reads.rs"]
mod range_reads;

use common::{hash, Shard};
use range_reads::RemoteShard;
use std::io::{BufRead, BufReader, Write};
use std::net::{TcpListener, TcpStream};
use std::ops::Range;
use std::thread;
use xet_shards::{Export, Hash, Minimal, NO_EXPIRY};

/// A shard of 303 files, of which seven share a first word, and of 41 xorbs: nearly all have the chunks 100 n to
/// 100 n + 19, and one has some of another's chunks. The last has none.
fn shard() -> Vec<u8> {
    let mut shard = Shard::default();
    let mut add = |line: String| {
        let words: Vec<&str> = line.split(' ').collect();
        match words[0] {
            "file" => shard.add_file(&words[1..]),
            _ => shard.add_xorb(&words[1..]),
        }
    };
    (1000..1294).for_each(|it| add(format!("file {it} s=365 10:0:1:{it}")));
    (0..7).for_each(|it| add(format!("file {} 10:0:1:{it}", Hash([5000, it, 0, 0]))));
    add(format!("file 2000{}", " 10:0:1:9".repeat(200)));
    add("file 2001".into());
    (10..49).for_each(|it| {
        add(format!("xorb {it}{}", (0..20).map(|at| format!(" {}:1", 100 * it + at)).collect::<String>()))
    });
    add("xorb 49 1003:1 1004:1 1500:1 1003:1 1004:1 1005:1 1006:1".into());
    add("xorb 60".into());
    shard.written(NO_EXPIRY, 3)
}

/// What the server does with a request.
#[derive(Clone, Copy, PartialEq)]
enum Way {
    Parts,
    Turned,
    United,
    Fewer,
    Whole,
    Missing,
}

/// Serves some bytes, and returns the URL.
fn serve(bytes: Vec<u8>, way: Way) -> String {
    let listener = TcpListener::bind("127.0.0.1:0").expect("a port");
    let url = format!("http://{}/a.mdb", listener.local_addr().expect("an address"));
    thread::spawn(move || listener.incoming().for_each(|it| answer(it.expect("a connection"), &bytes, way)));
    url
}

/// Answers one request for ranges.
fn answer(mut stream: TcpStream, bytes: &[u8], way: Way) {
    let size = bytes.len();
    let lines = BufReader::new(&stream).lines().map(|it| it.expect("a line")).take_while(|it| !it.is_empty());
    let asked = lines.fold(String::new(), |asked, it| it.strip_prefix("Range: bytes=").map_or(asked, String::from));
    let range = |it: &str| match it.split_once('-').expect("a range") {
        ("", count) => size.saturating_sub(count.parse().expect("a number"))..size,
        (start, last) => start.parse().expect("a number")..(last.parse::<usize>().expect("a number") + 1).min(size),
    };
    let mut ranges: Vec<Range<usize>> = asked.split(',').map(range).collect();
    match way {
        Way::Turned => ranges.reverse(),
        Way::United => {
            let ends = (ranges.iter().map(|it| it.start).min(), ranges.iter().map(|it| it.end).max());
            ranges.truncate(1);
            ranges[0] = ends.0.expect("a range")..ends.1.expect("a range");
        }
        Way::Fewer => ranges.truncate(1),
        _ => {}
    }
    let place = |it: &Range<usize>| format!("Content-Range: bytes {}-{}/{size}\r\n", it.start, it.end - 1);
    let (status, headers, body) = match &ranges[..] {
        _ if way == Way::Missing => ("404 Not Found", String::new(), Vec::new()),
        _ if way == Way::Whole => ("200 OK", String::new(), bytes.to_vec()),
        [one] => ("206 Partial Content", place(one), bytes[one.clone()].to_vec()),
        several => {
            let part = |it| [format!("\r\n--edge\r\n{}\r\n", place(it)).as_bytes(), &bytes[it.clone()]].concat();
            let mut body = several.iter().flat_map(part).collect::<Vec<_>>();
            body.extend(b"\r\n--edge--\r\n");
            ("206 Partial Content", "Content-Type: multipart/byteranges; boundary=edge\r\n".into(), body)
        }
    };
    write!(stream, "HTTP/1.1 {status}\r\n{headers}Content-Length: {}\r\n\r\n", body.len()).expect("a client");
    stream.write_all(&body).expect("a client");
}

fn hashes(words: &[u64]) -> Vec<Hash> {
    words.iter().map(|&it| Hash([it, 1, 0, 0])).collect()
}

#[test]
fn files() {
    let shard = shard();
    let there = [hash("1000"), hash("1293"), hash("2000"), hash("2001"), Hash([5000, 0, 0, 0]), Hash([5000, 6, 0, 0])];
    for way in [Way::Parts, Way::Turned, Way::United] {
        let url = serve(shard.clone(), way);
        for it in there {
            let mut remote = RemoteShard::open(&url).expect("a shard");
            let found = remote.find_file(it).expect("an answer");
            assert_eq!((&found, found.is_some()), (&xet_shards::find_file(&shard, it).expect("an answer"), true));
            assert_eq!(remote.file.requests, 3);
        }
        // Neither is there. The first has the first word of others.
        for (it, requests) in [(Hash([5000, 9, 0, 0]), 3), (hash("3000"), 2)] {
            let mut remote = RemoteShard::open(&url).expect("a shard");
            assert_eq!((remote.find_file(it).expect("an answer"), remote.file.requests), (None, requests));
        }
    }
}

#[test]
fn bytes_and_requests() {
    let url = serve(shard(), Way::Parts);
    let mut remote = RemoteShard::open(&url).expect("a shard");
    assert_eq!((remote.info.files, remote.info.chunks), (303, 787));
    assert!(remote.find_file(hash("1001")).expect("an answer").is_some());
    // Both ends, 303 rows of 12 bytes, and a header, a segment and a metadata row.
    assert_eq!((remote.file.requests, remote.file.bytes), (3, 248 + 3636 + 144));
    // A header and 200 segments.
    assert_eq!(remote.find_file(hash("2000")).expect("an answer").expect("a file").segments.len(), 200);
    assert_eq!((remote.file.requests, remote.file.bytes), (4, 248 + 3636 + 144 + 201 * 48));
    let mut remote = RemoteShard::open(&url).expect("a shard");
    assert!(remote.query_chunks(&hashes(&[1100])).expect("an answer").is_some());
    // 787 rows of 16 bytes, and a header and 20 chunks.
    assert_eq!((remote.file.requests, remote.file.bytes), (3, 248 + 787 * 16 + 21 * 48));
}

#[test]
fn chunks() {
    let shard = shard();
    let keyed = xet_shards::export(&shard, &Export { key: hash("7"), ..Export::default() }).expect("an export");
    for url in [serve(shard, Way::Parts), serve(keyed, Way::Turned)] {
        // How many rows are read: a xorb has 21, the last that has chunks 8, and behind it are two more.
        for (wanted, rows, count, xorb, start) in [
            (&[1003, 1004, 1005, 1006, 1007][..], 31, 5, "10", 3),
            (&[1003, 1004, 1500, 1], 31, 3, "49", 0),
            (&[1500, 1003, 1004, 1005, 1], 31, 4, "49", 2),
            (&[4819, 4900], 21, 1, "48", 19),
        ] {
            let mut remote = RemoteShard::open(&url).expect("a shard");
            let run = remote.query_chunks(&hashes(wanted)).expect("an answer").expect("a run");
            assert_eq!((run.count, run.segment.xorb, run.segment.start), (count, hash(xorb), start));
            assert_eq!(run.segment.end as usize, start as usize + count);
            assert_eq!((remote.file.requests, remote.file.bytes), (3, 248 + 787 * 16 + rows * 48));
        }
        let mut remote = RemoteShard::open(&url).expect("a shard");
        for wanted in [&[][..], &[4920], &[7, 1003]] {
            assert_eq!(remote.query_chunks(&hashes(wanted)).expect("an answer"), None);
        }
        assert_eq!(remote.file.requests, 2);
    }
}

#[test]
fn other_shards_and_servers() {
    let options = Minimal::default();
    let minimal = xet_shards::minimal(&shard(), &options).expect("a minimal shard");
    let mut remote = RemoteShard::open(&serve(minimal, Way::Parts)).expect("a shard");
    assert_eq!(remote.find_file(hash("1000")).expect("an answer"), None);
    assert_eq!(remote.query_chunks(&hashes(&[1003])).expect("an answer"), None);
    assert_eq!((remote.file.requests, remote.file.bytes), (1, 248));

    let mut remote = RemoteShard::open(&serve(shard(), Way::Whole)).expect("a shard");
    assert!(remote.find_file(hash("1000")).expect("an answer").is_some());
    assert!(remote.query_chunks(&hashes(&[1100])).expect("an answer").is_some());
    assert_eq!((remote.file.requests, remote.file.bytes), (1, shard().len()));

    let refused = |bytes, way| RemoteShard::open(&serve(bytes, way)).map(drop).expect_err("an error").to_string();
    assert_eq!(refused(shard(), Way::Fewer), "the server leaves out a range");
    assert_eq!(refused(shard(), Way::Missing), "the server answers 404 Not Found");
    assert_eq!(refused(vec![7; 500], Way::Parts), "not a shard of version 2 or 3");
    // The row of the first file in the table of files.
    let (mut lost, at) = (shard(), xet_shards::load(&shard()).expect("a shard").file_table as usize);
    lost[at + 10] = 255;
    let error = RemoteShard::open(&serve(lost, Way::Parts)).expect("a shard").find_file(hash("1000"));
    assert_eq!(error.expect_err("no such row").to_string(), "a row of a table leads out of its section");
}
