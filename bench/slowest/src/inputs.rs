//! The inputs of the measured calls.

use crate::kinds::{Kind, Made, Slot, KINDS, ONE_FILE, SMALL_FILES};
use crate::shard::{Parts, EMPTY, ROW};
use crate::Hash;
use std::iter;

/// What a call is made on.
pub struct Input {
    /// The kind of its shards.
    pub name: String,
    /// One shard or more.
    pub shards: Vec<Vec<u8>>,
    /// Those that are looked up, or listed.
    pub hashes: Vec<Hash>,
}

/// The inputs of a call, about as long as is asked for.
pub type Inputs = Box<dyn Iterator<Item = Input>>;

impl Input {
    fn of(name: impl Into<String>, shards: Vec<Vec<u8>>) -> Input {
        Input {
            name: name.into(),
            shards,
            hashes: Vec::new(),
        }
    }

    /// How long it is.
    pub fn bytes(&self) -> usize {
        self.shards.iter().map(Vec::len).sum::<usize>() + size_of_val(self.hashes.as_slice())
    }
}

/// A shard of each kind.
pub fn alone(bytes: usize) -> Inputs {
    let made = move |kind: Kind| Input::of(kind.name, vec![kind.made(Slot::only(bytes)).bytes]);
    Box::new(KINDS.into_iter().map(made))
}

/// A shard of each kind, and a file that it has or has not.
pub fn with_file(bytes: usize) -> Inputs {
    with_hashes(bytes, |made| {
        some_of(&made.files)
            .into_iter()
            .map(|it| vec![it])
            .collect()
    })
}

/// A shard of each kind, and about as many bytes of chunks that it has, one after another, or of
/// one that it has not.
pub fn with_chunks(bytes: usize) -> Inputs {
    with_hashes(bytes / 2, move |made| {
        let run = |first: &Hash| {
            let at = made.chunks.iter().position(|it| it == first);
            let run = at.map_or(vec![*first], |at| made.chunks[at..].to_vec());
            shortened(run, bytes / 2)
        };
        some_of(&made.chunks).iter().map(run).collect()
    })
}

/// A shard of each kind, and about as many bytes of xorbs: its own, in reverse, or others.
pub fn with_xorbs(bytes: usize) -> Inputs {
    with_hashes(bytes / 2, move |made| {
        let own = made.xorbs.iter().rev().copied().collect();
        let others = made.files.iter().chain(&made.chunks).copied().collect();
        [own, others]
            .map(|list| shortened(list, bytes / 2))
            .to_vec()
    })
}

fn with_hashes(bytes: usize, lists: impl Fn(&Made) -> Vec<Vec<Hash>> + 'static) -> Inputs {
    Box::new(KINDS.into_iter().flat_map(move |kind| {
        let made = kind.made(Slot::only(bytes));
        let lists = lists(&made).into_iter();
        lists.map(move |hashes| Input {
            hashes,
            ..Input::of(kind.name, vec![made.bytes.clone()])
        })
    }))
}

/// The first, middle and last of these hashes, one that has the first word of the middle, and the
/// least and the greatest of all.
fn some_of(hashes: &[Hash]) -> Vec<Hash> {
    let mut picked = vec![Hash([0; 4]), Hash([u64::MAX; 4])];
    if let [first, .., last] | [first @ last] = hashes {
        let middle = hashes[hashes.len() / 2];
        picked.extend([*first, middle, *last, Hash([middle.0[0], 0, 0, 0])]);
    }
    picked
}

/// The front of a list, no longer than so many bytes.
fn shortened(mut list: Vec<Hash>, bytes: usize) -> Vec<Hash> {
    list.truncate(bytes / size_of::<Hash>());
    list
}

/// Two shards of each kind, and two whose files have to be combined.
pub fn pairs(bytes: usize) -> Inputs {
    Box::new(
        KINDS
            .into_iter()
            .flat_map(move |kind| pairs_of(kind, bytes))
            .chain(combined(bytes)),
    )
}

fn pairs_of(kind: Kind, bytes: usize) -> [Input; 3] {
    let slot = |index, of, change| Slot {
        bytes: bytes / 2,
        index,
        of,
        change,
    };
    let pair = |how, first, second| {
        let shards = [first, second].map(|slot| kind.made(slot).bytes);
        Input::of(format!("{}: {how}", kind.name), shards.to_vec())
    };
    [
        pair("twice", slot(0, 1, 0), slot(0, 1, 0)),
        pair("two shards", slot(0, 2, 0), slot(1, 2, 0)),
        pair("two that differ in last rows", slot(0, 1, 0), slot(0, 1, 1)),
    ]
}

/// Two shards of one file, or many, of which one has verification rows and the other the rest.
fn combined(bytes: usize) -> impl Iterator<Item = Input> {
    [(ONE_FILE, 3 * ROW), (SMALL_FILES, 8 * ROW)]
        .into_iter()
        .map(move |(kind, of_both)| {
            let made =
                |bits| kind.made_with(Parts::of_bits(bits), bytes / of_both, Slot::only(bytes));
            let name = format!("{}: two with other parts", kind.name);
            Input::of(name, vec![made(1), made(6)])
        })
}

/// Lists of one shard or more.
pub fn lists(bytes: usize) -> Inputs {
    let many = KINDS.into_iter().map(move |kind| many_of(kind, bytes));
    let others = iter::once_with(move || parts_of_one_file(bytes))
        .chain(iter::once_with(move || empty_shards(bytes)));
    Box::new(alone(bytes).chain(pairs(bytes)).chain(many).chain(others))
}

const MANY: usize = 512;

fn many_of(kind: Kind, bytes: usize) -> Input {
    let (bytes, of) = (bytes / MANY, MANY as u64);
    let slots = (0..of).map(|index| Slot {
        bytes,
        index,
        of,
        change: 0,
    });
    let shards = slots.map(|slot| kind.made(slot).bytes).collect();
    Input::of(format!("{}: {MANY} shards", kind.name), shards)
}

/// Shards of one file, the same in all, with each set of optional parts.
fn parts_of_one_file(bytes: usize) -> Input {
    let count = MANY / 4;
    let segments = bytes / count / (ROW * 3 / 2);
    let shard = |at| ONE_FILE.made_with(Parts::of_bits(at), segments, Slot::only(bytes));
    let shards = (0..count).map(shard).collect();
    let name = format!("one file in {count} shards, with all sets of parts");
    Input::of(name, shards)
}

fn empty_shards(bytes: usize) -> Input {
    let shard = KINDS[0].made(Slot::only(0)).bytes;
    Input::of("shards without records", vec![shard; bytes / EMPTY])
}
