//! A panic ends a program by status 5 and one line without a byte of its input, and leaves no file behind.

use std::error::Error;
use std::fs;
use std::process::Command;

#[test]
fn one_line_and_nothing_left() -> Result<(), Box<dyn Error>> {
    let folder = tempfile::tempdir()?;
    let beside = std::env::current_exe()?;
    let built = beside.parent().and_then(|deps| deps.parent()).ok_or("tests stand in a folder")?;
    let ran = Command::new(built.join("examples/panics")).arg(folder.path().join("out.pcap")).output()?;
    assert_eq!((ran.status.code(), ran.stdout.len()), (Some(5), 0));
    let said = String::from_utf8(ran.stderr)?;
    let place = said.strip_prefix("panics: an error of the program itself at programs/examples/panics.rs:");
    assert!(place.map_or(false, |place| place.ends_with(": please report it\n")), "{said}");
    assert_eq!(said.lines().count(), 1);
    assert_eq!(fs::read_dir(folder.path())?.count(), 0);
    Ok(())
}
