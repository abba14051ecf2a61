//! The program as its users run it: files, status, and what it says where.

use std::fs::{self, Permissions};
use std::os::unix::fs::{symlink, PermissionsExt};
use std::path::{Path, PathBuf};
use std::process::{Command, Output};

fn run(words: &[&Path]) -> Output {
    Command::new(env!("CARGO_BIN_EXE_tables")).args(words).output().unwrap()
}

fn sample(name: &str) -> PathBuf {
    Path::new(env!("CARGO_MANIFEST_DIR")).join("../data").join(name)
}

/// A folder for one test, empty at its start.
fn folder(name: &str) -> PathBuf {
    let folder = Path::new(env!("CARGO_TARGET_TMPDIR")).join(name);
    let _ = fs::remove_dir_all(&folder);
    fs::create_dir_all(&folder).unwrap();
    folder
}

/// The one line that a refusal says, with nothing on standard output.
fn refused(output: &Output) -> String {
    assert_eq!(output.status.code(), Some(1));
    assert!(output.stdout.is_empty());
    let said = String::from_utf8(output.stderr.clone()).unwrap();
    assert_eq!(said.matches('\n').count(), 1, "{said}");
    said
}

#[test]
fn made_and_shown_and_made_again() {
    let folder = folder("made_and_shown");
    let [image, text, again] = ["image", "text", "again"].map(|name| folder.join(name));
    for name in ["base.table.txt", "campus.table.txt"] {
        let made = run(&[Path::new("make"), &sample(name), &image]);
        assert!(made.status.success() && made.stdout.is_empty() && made.stderr.is_empty(), "{made:?}");
        let shown = run(&[Path::new("show"), &image]);
        assert!(shown.status.success() && shown.stderr.is_empty(), "{shown:?}");
        fs::write(&text, &shown.stdout).unwrap();
        assert!(run(&[Path::new("make"), &text, &again]).status.success());
        assert_eq!(fs::read(&image).unwrap(), fs::read(&again).unwrap());
    }
}

#[test]
fn a_refused_text_leaves_the_image() {
    let folder = folder("refused_text");
    let [text, image] = ["text", "image"].map(|name| folder.join(name));
    fs::write(&text, "# a comment\nsite number=1\n").unwrap();
    fs::write(&image, "as it was").unwrap();
    let said = refused(&run(&[Path::new("make"), &text, &image]));
    assert!(said.ends_with("line 2: this site line lacks name=; expected it\n"), "{said}");
    assert_eq!(fs::read(&image).unwrap(), b"as it was");
}

/// A limit on the length of files stands for a full disk: the image gets its first octets written and no more.
#[test]
fn a_full_disk_leaves_the_image() {
    let folder = folder("full_disk");
    let image = folder.join("image");
    let limited = "trap '' XFSZ; ulimit -f 1; exec \"$@\"";
    let make = [env!("CARGO_BIN_EXE_tables"), "make"];
    for old in [None, Some("as it was")] {
        if let Some(old) = old {
            fs::write(&image, old).unwrap();
        }
        let words = [sample("base.table.txt"), image.clone()];
        let made = Command::new("sh").args(["-c", limited, "sh"]).args(make).args(words).output().unwrap();
        assert!(refused(&made).contains("image cannot be written: "));
        assert_eq!(fs::read(&image).ok().as_deref(), old.map(str::as_bytes));
        assert_eq!(fs::read_dir(&folder).unwrap().count(), old.iter().count());
    }
}

#[test]
fn an_image_keeps_its_permissions_and_a_link_its_place() {
    let folder = folder("permissions");
    let [image, link] = ["image", "link"].map(|name| folder.join(name));
    fs::write(&image, "as it was").unwrap();
    fs::set_permissions(&image, Permissions::from_mode(0o640)).unwrap();
    symlink("image", &link).unwrap();
    assert!(run(&[Path::new("make"), &sample("base.table.txt"), &link]).status.success());
    assert_eq!(fs::read_link(&link).unwrap(), Path::new("image"));
    assert_eq!(fs::metadata(&image).unwrap().permissions().mode() & 0o777, 0o640);
    let piped = run(&[Path::new("make"), &sample("base.table.txt"), Path::new("/dev/stdout")]);
    assert!(piped.status.success());
    assert_eq!(fs::read(&image).unwrap(), piped.stdout);
    // The gate's prover takes no tree with a link in it.
    fs::remove_dir_all(&folder).unwrap();
}

#[test]
fn a_text_is_not_written_over() {
    let text = folder("not_written_over").join("text");
    fs::copy(sample("base.table.txt"), &text).unwrap();
    let other_way = text.parent().unwrap().join("../not_written_over/text");
    assert!(refused(&run(&[Path::new("make"), &text, &other_way])).contains("is the text; expected another file"));
    assert_eq!(fs::read(&text).unwrap(), fs::read(sample("base.table.txt")).unwrap());
}

#[test]
fn a_refused_image_and_missing_files() {
    let folder = folder("refused_image");
    let image = folder.join("image");
    fs::write(&image, [0; 1_024]).unwrap();
    let said = refused(&run(&[Path::new("show"), &image]));
    assert!(said.ends_with("refused with 2: block 0: check 00000000; expected 0100fc01\n"), "{said}");
    let missing = folder.join("missing");
    assert!(refused(&run(&[Path::new("show"), &missing])).contains("missing cannot be read: "));
    assert!(refused(&run(&[Path::new("make"), &missing, &image])).contains("missing cannot be read: "));
    let nowhere = missing.join("image");
    assert!(refused(&run(&[Path::new("make"), &sample("base.table.txt"), &nowhere])).contains("cannot be written: "));
    assert!(refused(&run(&[Path::new("show")])).contains("expected make TEXT IMAGE or show IMAGE"));
}
