//! Levels that the library builds: they are the files of `examples/levels`, and of `docs/levels.csv`.

// Wrong folders are no matter here.
#[allow(dead_code)]
mod common;

use awari::{Counts, Draft, Levels, Refusal};
use common::{bytes_of, examples, folder_below, name_of};
use std::path::Path;
use std::{fs, thread};

/// How many levels the examples have, and how many are built.
const EXAMPLES: usize = 7;
const BUILT: usize = 9;

/// The fields of a level that `docs/levels.csv` begins with, up to the digest.
fn row_of(level: usize) -> Vec<String> {
    let table = Path::new(env!("CARGO_MANIFEST_DIR")).join("../../docs/levels.csv");
    let table = fs::read_to_string(table).unwrap();
    table.lines().nth(level + 1).unwrap().split(',').take(7).map(String::from).collect()
}

fn counts_of(level: usize) -> Counts {
    let numbers: Vec<u32> = row_of(level)[..6].iter().map(|field| field.parse().unwrap()).collect();
    Counts { won: numbers[2], even: numbers[3], lost: numbers[4], limit: numbers[5] }
}

/// The digest in which a file ends, in hexadecimal.
fn digest_of(file: &[u8]) -> String {
    file[file.len() - 32..].iter().map(|byte| format!("{byte:02x}")).collect()
}

fn below(level: u8) -> Levels {
    if level == 0 {
        return Levels::start();
    }
    Levels::open_to(examples(), level - 1).unwrap()
}

/// The level that is built by slices of about so many boards: what was told of it, and its file.
fn sliced(level: u8, boards: usize) -> (Vec<Draft>, Vec<u8>) {
    let (mut levels, mut drafts) = (below(level), Vec::<Draft>::new());
    levels.begin().unwrap();
    while !drafts.last().is_some_and(|draft| draft.settled) {
        drafts.push(levels.spread(boards).unwrap());
        assert_eq!(levels.len(), usize::from(level));
    }
    let file = levels.finish().unwrap();
    assert_eq!(levels.len(), usize::from(level) + 1);
    (drafts, file)
}

#[test]
fn levels_are_the_files_of_the_program() {
    let (mut levels, folder) = (Levels::start(), folder_below("built", 0));
    assert!(levels.is_empty());
    for level in 0..BUILT {
        let file = levels.build().unwrap();
        assert_eq!(digest_of(&file), row_of(level)[6], "level {level}");
        assert!(level >= EXAMPLES || file == bytes_of(level as u8), "level {level}");
        assert_eq!(levels.counts(level as u8), Ok(counts_of(level)));
        fs::write(folder.join(name_of(level as u8)), file).unwrap();
    }
    // each digest is that of the bytes before it, and each level is right
    assert_eq!(Levels::open(&folder).unwrap().len(), BUILT);
    fs::remove_dir_all(folder).unwrap();
}

#[test]
fn a_level_is_built_in_slices() {
    let calls = [(6, 1), (4, 9), (6, 5000), (6, usize::MAX)].map(|(level, boards)| {
        let (drafts, file) = sliced(level, boards);
        assert!(file == bytes_of(level));
        let mut gains: Vec<_> = drafts.iter().map(|draft| draft.gain).collect();
        gains.dedup();
        assert!(gains.into_iter().eq((1..=level).rev()));
        assert!(drafts.windows(2).all(|two| two[0].boards <= two[1].boards && !two[0].settled));
        // a board that is worth 0 is never spread
        let Counts { won, lost, .. } = counts_of(level.into());
        assert_eq!(drafts.last().unwrap().boards, u64::from(won + lost));
        drafts.len()
    });
    assert!(calls[0] > calls[2] && calls[2] >= calls[3]);
}

#[test]
fn what_is_not_begun_or_not_settled_is_refused() {
    let mut levels = Levels::open(examples()).unwrap();
    assert_eq!((levels.spread(9).err(), levels.finish().err()), (Some(Refusal::NotYet), Some(Refusal::NotYet)));
    levels.begin().unwrap();
    levels.spread(5000).unwrap();
    levels.begin().unwrap();
    assert_eq!(levels.spread(9).unwrap(), Draft { boards: 0, gain: 7, settled: false });
    assert_eq!(levels.finish(), Err(Refusal::NotYet));
    let mut shared = levels.share().unwrap();
    assert_eq!(shared.spread(9), Err(Refusal::NotYet));
    assert_eq!(shared.build().map(|file| digest_of(&file)), Ok(row_of(7)[6].clone()));
    assert_eq!((shared.len(), levels.len()), (8, 7));
    while !levels.spread(5000).unwrap().settled {}
    assert_eq!(levels.finish().map(|file| digest_of(&file)), Ok(row_of(7)[6].clone()));
    assert_eq!((levels.len(), levels.spread(9)), (8, Err(Refusal::NotYet)));
}

#[test]
fn others_ask_while_a_level_is_built() {
    let mut levels = Levels::open(examples()).unwrap();
    let board = "1,0,0,0,0,1/1,0,1,0,0,0".parse().unwrap();
    let shared: Vec<_> = (0..4).map(|_| levels.share().unwrap()).collect();
    thread::scope(|scope| {
        for own in shared {
            scope
                .spawn(move || (0..10_000).for_each(|_| assert_eq!((own.value(&board), own.len()), (Ok(4), EXAMPLES))));
        }
        assert_eq!(levels.build().map(|file| digest_of(&file)), Ok(row_of(7)[6].clone()));
    });
}

#[test]
fn refusals_of_building_have_their_numbers() {
    let refusals = [Refusal::TooHigh, Refusal::MemoryOfLevel, Refusal::NotYet, Refusal::Write];
    assert_eq!(refusals.map(Refusal::number), [51, 53, 59, 70]);
    let sentences = [
        "No level is above 24",
        "There is not enough memory to build the level",
        "The level of that many stones is not there",
        "The file can't be written, or can't be brought to the disk",
    ];
    assert_eq!(refusals.map(Refusal::sentence), sentences);
}
