//! Hashes, rows, records, views, names and errors.

mod common;

use common::{file, hash, xorb};
use std::io::{self, Cursor, ErrorKind};
use std::path::Path;
use std::time::Duration;
use xet_core_structures::error::{CoreError, Validate};
use xet_core_structures::merklehash::MerkleHash;
use xet_core_structures::metadata_shard::file_structs::{
    FileDataSequenceEntry, FileDataSequenceHeader, MDBFileInfo, MDBFileInfoView, SupersetResult,
};
use xet_core_structures::metadata_shard::shard_format::{current_timestamp, MDB_FILE_INFO_ENTRY_SIZE};
use xet_core_structures::metadata_shard::utils::{
    is_temp_shard_file, parse_shard_filename, shard_expiry_time, shard_file_name, temp_shard_file_name, truncate_hash,
};
use xet_core_structures::metadata_shard::xorb_structs::{
    MDBXorbInfo, MDBXorbInfoView, XorbChunkSequenceEntry, XorbChunkSequenceHeader, MDB_CHUNK_WITH_GLOBAL_DEDUP_FLAG,
};
use xet_core_structures::serialization_utils::{
    read_bytes, read_hash, read_u32, read_u32s, read_u64, read_u64s, read_u8, write_bytes, write_hash, write_u32,
    write_u32s, write_u64, write_u64s, write_u8,
};

#[test]
fn text_and_bytes_of_a_hash() {
    let bytes = [
        22, 175, 58, 132, 4, 75, 131, 214, 190, 153, 138, 66, 226, 3, 153, 242, 204, 86, 80, 234, 249, 153, 80, 99,
        159, 80, 65, 138, 236, 231, 149, 78,
    ];
    let text = "d6834b04843aaf16f29903e2428a99be635099f9ea5056cc4e95e7ec8a41509f";
    let hash = MerkleHash::from_slice(&bytes).expect("32 bytes");
    assert_eq!(
        (hash.hex(), hash.to_string(), format!("{hash:?} {hash:x}")),
        (text.into(), text.into(), format!("{text} {text}"))
    );
    assert_eq!((hash.as_bytes(), <[u8; 32]>::from(hash)), (&bytes[..], bytes));
    assert_eq!((MerkleHash::from_hex(text), MerkleHash::from_hex(&text.to_uppercase())), (Ok(hash), Ok(hash)));
    assert!(MerkleHash::from_hex(&text[1..]).is_err() && MerkleHash::from_hex(&text.replace('d', "g")).is_err());
    assert!(MerkleHash::from_slice(&bytes[1..]).is_err());
    assert_eq!((hash[0], truncate_hash(&hash)), (0xd683_4b04_843a_af16, 0xd683_4b04_843a_af16));
    // Ordered by word 0 first, as a number.
    assert!(MerkleHash::from([1, 0, 0, 9]) < MerkleHash::from([256, 0, 0, 0]));
}

#[test]
fn names_of_files() {
    let hash = MerkleHash::from([0xabc, 1, 0, 0]);
    let name = shard_file_name(&hash);
    assert_eq!(name, format!("{hash}.mdb"));
    assert_eq!(parse_shard_filename(&name), Some(hash));
    assert_eq!(parse_shard_filename(format!("/a/folder/{}.mdb", hash.hex().to_uppercase())), Some(hash));
    for other in ["", "/", "..", "a.mdb", &format!("other_{name}"), &name[1..], &hash.hex()] {
        assert_eq!(parse_shard_filename(other), None);
    }
    let (one, other) = (temp_shard_file_name(), temp_shard_file_name());
    assert_ne!(one, other);
    let parts: Vec<usize> = one[1..37].split('-').map(str::len).collect();
    assert_eq!((parts, &one[..1], &one[15..16], &one[37..]), (vec![8, 4, 4, 4, 12], ".", "4", ".mdb_temp"));
    assert!(is_temp_shard_file(&Path::new("folder").join(one)) && !is_temp_shard_file(Path::new(&name)));
    let later = shard_expiry_time(Duration::from_secs(60));
    assert!((60..62).contains(&(later - current_timestamp())));
    assert_eq!(shard_expiry_time(Duration::MAX), u64::MAX);
}

#[test]
fn numbers() -> io::Result<()> {
    let mut bytes = Vec::new();
    write_u8(&mut bytes, 1)?;
    write_u32(&mut bytes, 0x0203)?;
    write_u64(&mut bytes, 4)?;
    write_u32s(&mut bytes, &[5, 6])?;
    write_u64s(&mut bytes, &[7])?;
    write_bytes(&mut bytes, b"8")?;
    write_hash(&mut bytes, &hash("9"))?;
    assert_eq!(bytes[..13], [1, 3, 2, 0, 0, 4, 0, 0, 0, 0, 0, 0, 0]);
    assert_eq!(bytes.len(), 1 + 4 + 8 + 8 + 8 + 1 + 32);
    let (mut reader, mut fours, mut eights, mut text) = (&bytes[..], [0; 2], [0; 1], [0; 1]);
    assert_eq!((read_u8(&mut reader)?, read_u32(&mut reader)?, read_u64(&mut reader)?), (1, 0x0203, 4));
    read_u32s(&mut reader, &mut fours)?;
    read_u64s(&mut reader, &mut eights)?;
    read_bytes(&mut reader, &mut text)?;
    assert_eq!((fours, eights, text, read_hash(&mut reader)?), ([5, 6], [7], *b"8", hash("9")));
    assert_eq!(read_u8(&mut reader).map_err(|it| it.kind()), Err(ErrorKind::UnexpectedEof));
    Ok(())
}

#[test]
fn rows() -> io::Result<()> {
    let mut bytes = Vec::new();
    let header = FileDataSequenceHeader {
        file_flags: 1,
        _unused: 0x0504_0302_0100_0000,
        ..FileDataSequenceHeader::new(hash("7"), 2, true, false)
    };
    assert_eq!(header.serialize(&mut bytes)?, MDB_FILE_INFO_ENTRY_SIZE);
    let mut wanted = [0; 48];
    (wanted[0], wanted[8], wanted[32], wanted[36]) = (7, 1, 1, 2);
    wanted[43..].copy_from_slice(&[1, 2, 3, 4, 5]);
    assert_eq!(bytes, wanted);
    assert_eq!(FileDataSequenceHeader::deserialize(&mut &bytes[..])?, header);

    bytes.clear();
    XorbChunkSequenceEntry::new(hash("7"), 5, 6).with_global_dedup_flag(true).serialize(&mut bytes)?;
    let mut wanted = [0; 48];
    (wanted[0], wanted[8], wanted[32], wanted[36], wanted[43]) = (7, 1, 6, 5, 128);
    assert_eq!(bytes, wanted);

    for (bookend, is_end) in [
        (FileDataSequenceHeader::bookend().serialize(&mut bytes)?, FileDataSequenceHeader::bookend().is_bookend()),
        (XorbChunkSequenceHeader::bookend().serialize(&mut bytes)?, XorbChunkSequenceHeader::bookend().is_bookend()),
    ] {
        assert_eq!((bookend, is_end), (48, true));
    }
    assert_eq!(bytes[48..96], bytes[96..]);
    assert!(bytes[48..80].iter().all(|it| *it == 255) && bytes[80..96].iter().all(|it| *it == 0));
    Ok(())
}

#[test]
fn flags_of_headers() {
    use SupersetResult::{Equal, Neither, SuperA, SuperB};
    let compared = |one: u32, other: u32| {
        let [one, other] = [one, other].map(|file_flags| FileDataSequenceHeader { file_flags, ..Default::default() });
        FileDataSequenceHeader::compare_flag_superset(&one, &other)
    };
    assert_eq!(
        (compared(0x8000_0001, 0x8000_0000), compared(1, 0x4000_0000), compared(0, 0)),
        (SuperA, Neither, Equal)
    );
    assert_eq!((compared(0, 1), compared(3, 3)), (SuperB, Equal));
    let header = FileDataSequenceHeader::new(hash("1"), 3, true, true);
    assert_eq!((header.file_flags, header.num_info_entry_following()), (0xc000_0000, 7));
    let many = FileDataSequenceHeader::new(hash("1"), u32::MAX, true, false);
    assert_eq!(many.num_info_entry_following(), u32::MAX);
}

#[test]
fn parts_that_are_taken_over() -> Result<(), CoreError> {
    let verified = file(&["100", "v=365", "200:0:5:5"]);
    let mut merged = file(&["100", "s=9364", "200:0:5:5"]);
    merged.merge_from(&verified)?;
    assert_eq!(merged, file(&["100", "v=365", "s=9364", "200:0:5:5"]));
    assert_eq!((merged.num_bytes(), merged.file_size()), (4 * 48, 5));
    for other in [file(&["101", "200:0:5:5"]), file(&["100"])] {
        assert_eq!(merged.merge_from(&other), Err(CoreError::InvalidArguments));
    }
    Ok(())
}

#[test]
fn records_of_their_own() -> io::Result<()> {
    let (one, other) = (file(&["100", "v=365,366", "s=9364", "200:0:5:5", "201:1:2:7"]), xorb(&["10", "21:5", "22:6"]));
    let mut bytes = Vec::new();
    assert_eq!((one.serialize(&mut bytes)? as u64, one.num_bytes()), (6 * 48, 6 * 48));
    FileDataSequenceHeader::bookend().serialize(&mut bytes)?;
    let mut reader = Cursor::new(&bytes);
    assert_eq!(MDBFileInfo::deserialize(&mut reader)?.as_ref(), Some(&one));
    assert_eq!((MDBFileInfo::deserialize(&mut reader)?, reader.position()), (None, bytes.len() as u64));
    for end in 0..6 * 48 {
        let error = MDBFileInfo::deserialize(&mut &bytes[..end]).expect_err("it is cut");
        assert_eq!(error.kind(), ErrorKind::UnexpectedEof);
    }
    bytes.clear();
    assert_eq!((other.serialize(&mut bytes)? as u64, other.num_bytes()), (3 * 48, 3 * 48));
    assert_eq!(MDBXorbInfo::deserialize(&mut &bytes[..])?.as_ref(), Some(&other));
    assert_eq!(other.chunks_and_boundaries(), [(hash("21"), 5), (hash("22"), 11)]);
    for end in 0..3 * 48 {
        let error = MDBXorbInfo::deserialize(&mut &bytes[..end]).expect_err("it is cut");
        assert_eq!(error.kind(), ErrorKind::UnexpectedEof);
    }
    // A count reserves little memory.
    bytes.clear();
    FileDataSequenceHeader::new(hash("100"), u32::MAX, false, false).serialize(&mut bytes)?;
    let error = MDBFileInfo::deserialize(&mut &bytes[..]).expect_err("it is cut");
    assert_eq!(error.kind(), ErrorKind::UnexpectedEof);
    Ok(())
}

#[test]
fn segments_of_chunks() {
    let found = xorb(&["10", "21:5", "22:6", "23:7"]);
    let segment = FileDataSequenceEntry::from_xorb_entries(&found.metadata, &found.chunks[1..], 1, 3);
    assert_eq!(segment, FileDataSequenceEntry::new(hash("10"), 13, 1, 3));
    assert_eq!(FileDataSequenceEntry::from_xorb_entries(&found.metadata, &[], 1, 1), FileDataSequenceEntry::default());
    // By the last word of the hash, or by the mark.
    let chunk = |last| XorbChunkSequenceEntry::new(MerkleHash::from([21, 1, 0, last]), 5, 0);
    for (last, is_eligible) in [(0, true), (1, false), (1023, false), (2048, true)] {
        assert_eq!(chunk(last).is_global_dedup_eligible(), is_eligible);
        assert!(chunk(last).with_global_dedup_flag(true).is_global_dedup_eligible());
    }
    let marked = chunk(1).with_global_dedup_flag(true);
    assert_eq!((marked.flags, marked.with_global_dedup_flag(false).flags), (MDB_CHUNK_WITH_GLOBAL_DEDUP_FLAG, 0));
}

#[test]
fn views_of_files() -> io::Result<()> {
    let mut bytes = Vec::new();
    file(&["100", "s=9364", "200:0:5:5"]).serialize(&mut bytes)?;
    let record = bytes.clone();
    bytes.resize(200, 7);
    let view = MDBFileInfoView::new(&bytes[..])?;
    assert_eq!((view.byte_size(true), view.byte_size(false), view.num_entries()), (144, 144, 1));
    assert_eq!(view.metadata_ext().map(|it| it.sha256), Some(hash("9364")));
    assert_eq!((&view.bytes()[..], view.file_hash(), view.file_flags()), (&record[..], hash("100"), 1 << 30));
    assert_eq!(MDBFileInfo::from(&view), file(&["100", "s=9364", "200:0:5:5"]));
    assert_eq!(MDBFileInfoView::new(view.bytes())?, view);
    let cut = MDBFileInfoView::new(&bytes[..143]);
    assert_eq!(cut.map_err(|it| it.kind()), Err(ErrorKind::UnexpectedEof));
    let other = FileDataSequenceHeader::new(hash("101"), 1, false, true);
    let other = MDBFileInfoView::from_data_and_header(other, &bytes[..]);
    assert_eq!(other.map_err(|it| it.kind()), Err(ErrorKind::InvalidInput));
    let error = view.serialize(&mut Vec::new(), true).expect_err("it has none");
    assert_eq!(error.kind(), ErrorKind::Other);

    bytes.clear();
    let verified = file(&["100", "v=365,366", "s=9364", "200:0:5:5", "201:1:2:7"]);
    verified.serialize(&mut bytes)?;
    let view = MDBFileInfoView::new(&bytes[..])?;
    assert_eq!((view.entry(1), view.verification(1).range_hash), (verified.segments[1].clone(), hash("366")));
    let (mut with, mut without) = (Vec::new(), Vec::new());
    assert_eq!((view.serialize(&mut with, true)?, view.serialize(&mut without, false)?), (6 * 48, 4 * 48));
    assert_eq!((with, view.byte_size(false)), (bytes, 4 * 48));
    let mut wanted = Vec::new();
    file(&["100", "s=9364", "200:0:5:5", "201:1:2:7"]).serialize(&mut wanted)?;
    assert_eq!(without, wanted);
    Ok(())
}

#[test]
fn views_of_xorbs() -> io::Result<()> {
    let (mut bytes, mut made, found) = (Vec::new(), Vec::new(), xorb(&["10", "21:5", "22:6"]));
    found.serialize(&mut bytes)?;
    let view = MDBXorbInfoView::new([&bytes[..], b"more"].concat())?;
    assert_eq!((view.num_entries(), view.byte_size(), view.xorb_hash()), (2, 144, hash("10")));
    assert_eq!((view.chunk(1), MDBXorbInfo::from(&view)), (found.chunks[1].clone(), found.clone()));
    assert_eq!((view.serialize(&mut made)?, &made), (144, &bytes));
    made.clear();
    let marked = |at, it: XorbChunkSequenceEntry| it.with_global_dedup_flag(at == 1);
    assert_eq!(view.serialize_with_chunk_rewrite(&mut made, marked)?, 144);
    let rewritten = MDBXorbInfo::from(&MDBXorbInfoView::new(&made[..])?);
    assert_eq!(rewritten.chunks.iter().map(|it| it.flags >> 31).collect::<Vec<_>>(), [0, 1]);
    let cut = MDBXorbInfoView::new(&bytes[..143]);
    assert_eq!(cut.map_err(|it| it.kind()), Err(ErrorKind::UnexpectedEof));
    Ok(())
}

#[test]
fn errors() {
    let eof = || CoreError::from(io::Error::from(ErrorKind::UnexpectedEof));
    assert_eq!(eof(), CoreError::Io(io::Error::new(ErrorKind::Other, "another text")));
    assert_ne!(eof(), CoreError::InvalidArguments);
    assert_eq!(CoreError::TruncatedHashCollision(5).to_string(), "Too many collisions for truncated hash: 5");
    assert_eq!(CoreError::invalid_shard("cut").to_string(), "Invalid shard: cut");
    assert_eq!(CoreError::other(7).to_string(), "7");
    let parsed = MerkleHash::from_hex("7").map_err(CoreError::from);
    assert_eq!(parsed, Err(CoreError::other("")));
    assert_eq!(Ok(1).ok_for_format_error(), Ok(Some(1)));
    assert_eq!(Err::<u8, _>(CoreError::MalformedData(String::new())).ok_for_format_error(), Ok(None));
    assert_eq!(Err::<u8, _>(CoreError::InvalidRange).ok_for_format_error(), Err(CoreError::InvalidRange));
}
