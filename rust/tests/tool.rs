//! Files of the program `hunkravy`, of which `HUNKRAVY_TOOL` has the path: each opens what the other has sealed. The tests of the
//! Python package give the program damaged files, parts and key files.

#[allow(dead_code)]
#[path = "sealed/random.rs"]
mod random;
#[allow(dead_code)]
#[path = "sealed/support.rs"]
mod support;

use hunkravy::files::{SealedReader, SealedWriter, read_key};
use std::fs::{self, File};
use std::io::{self, Read, Write};
use std::path::Path;
use std::process::Command;

use random::Random;
use support::{PIECE_BYTES, sealed_in_pieces};

/// Each opens what the other has sealed, byte for byte the same file.
#[test]
fn files_of_each_other() {
    let Some(program) = std::env::var_os("HUNKRAVY_TOOL") else {
        // The test harness does not capture this. `make check-rust-tool` sets the variable.
        return io::stderr().write_all(b"\nignored: HUNKRAVY_TOOL is not set\n").unwrap();
    };
    let program = Path::new(&program).canonicalize().expect("HUNKRAVY_TOOL is the path of the program");
    let folder = Path::new(env!("CARGO_TARGET_TMPDIR")).join("tool");
    let _ = fs::remove_dir_all(&folder);
    fs::create_dir_all(&folder).unwrap();
    let done = |arguments: &[&str]| {
        let output = Command::new(&program).args(arguments).current_dir(&folder).output().unwrap();
        assert!(output.status.success(), "{arguments:?} {output:?}");
        output.stdout
    };
    done(&["keygen", "key"]);
    let key = read_key(folder.join("key")).unwrap();
    for length in [0, 1, PIECE_BYTES - 1, PIECE_BYTES, PIECE_BYTES + 1, 300_000] {
        let contents = Random(6).bytes(length);
        fs::write(folder.join("in"), &contents).unwrap();
        done(&["seal", "-q", "--force", "-k", "key", "in", "sealed"]);
        let sealed = fs::read(folder.join("sealed")).unwrap();
        assert!(sealed == sealed_in_pieces(&key, sealed.first_chunk().unwrap(), &contents));
        let mut opened = Vec::new();
        SealedReader::new(&sealed[..], &key).read_to_end(&mut opened).unwrap();
        assert!(opened == contents);

        let mut writer = SealedWriter::new(File::create(folder.join("ours")).unwrap(), &key).unwrap();
        writer.write_all(&contents).unwrap();
        writer.finish().unwrap();
        assert!(done(&["open", "-q", "-k", "key", "ours", "-"]) == contents);
    }
}
