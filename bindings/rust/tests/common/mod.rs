//! What the tests share: the levels of `examples/levels`, and folders of their own.

use awari::Refusal;
use std::os::unix::fs::symlink;
use std::path::{Path, PathBuf};
use std::process::Command;
use std::sync::mpsc::channel;
use std::time::Duration;
use std::{env, fs, thread};

/// What opens a folder, and its refusal.
pub type Open = fn(&Path) -> Option<Refusal>;

pub fn examples() -> PathBuf {
    Path::new(env!("CARGO_MANIFEST_DIR")).join("../../examples/levels")
}

pub fn name_of(level: u8) -> String {
    format!("level_{level:02}.awdb")
}

/// The file of a level of the examples.
pub fn bytes_of(level: u8) -> Vec<u8> {
    fs::read(examples().join(name_of(level))).unwrap()
}

/// A new folder with the levels of the examples below this one.
pub fn folder_below(name: &str, level: u8) -> PathBuf {
    let folder = env::temp_dir().join(format!("awari-{name}-{}", std::process::id()));
    let _ = fs::remove_dir_all(&folder);
    fs::create_dir(&folder).unwrap();
    for level in 0..level {
        fs::write(folder.join(name_of(level)), bytes_of(level)).unwrap();
    }
    folder
}

/// The refusal of a folder, which has to come soon: nobody waits for a pipe.
fn refusal_of(folder: &Path, open: Open) -> Option<Refusal> {
    let (tell, told) = channel();
    let folder = folder.to_path_buf();
    thread::spawn(move || tell.send(open(&folder)));
    told.recv_timeout(Duration::from_secs(20)).expect("it is refused, and not waited for")
}

/// What is no folder, has no level 0, or has what is no file for a level, is refused as 82.
pub fn expect_files_alone(name: &str, open: Open) {
    assert_eq!(refusal_of(Path::new("no such folder"), open), Some(Refusal::Open { level: 0 }));
    let folder = folder_below(name, 0);
    assert_eq!(refusal_of(&folder, open), Some(Refusal::Open { level: 0 }));
    let folder = folder_below(name, 2);
    let path = folder.join(name_of(2));
    assert!(Command::new("mkfifo").arg(&path).status().unwrap().success());
    assert_eq!(refusal_of(&folder, open), Some(Refusal::Open { level: 2 }));
    for other in ["/dev/null", "/dev/zero", "/", "level_02.awdb"] {
        fs::remove_file(&path).unwrap();
        symlink(other, &path).unwrap();
        assert_eq!(refusal_of(&folder, open), Some(Refusal::Open { level: 2 }), "{other}");
    }
    fs::remove_dir_all(folder).unwrap();
}
