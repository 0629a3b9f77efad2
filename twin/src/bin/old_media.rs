//! Writes old media as files into a folder, to try a command that converts them: NAME.old, and beside it
//! NAME.new, what it becomes, or NAME.declined with the number. Prints each name with ok or the number.

use std::path::Path;
use std::process::ExitCode;
use std::{env, fs, io};

use twin::convert::converted;
use twin::tries::old_media::{old_media, OldMedium};

fn main() -> io::Result<ExitCode> {
    let words: Vec<String> = env::args().skip(1).collect();
    let [folder] = words.as_slice() else {
        eprintln!("usage: old_media FOLDER");
        return Ok(ExitCode::FAILURE);
    };
    let folder = Path::new(folder);
    fs::create_dir_all(folder)?;
    for medium in old_media() {
        write(folder, &medium)?;
    }
    Ok(ExitCode::SUCCESS)
}

fn write(folder: &Path, medium: &OldMedium) -> io::Result<()> {
    let OldMedium { name, bytes } = medium;
    let file = |ending: &str| folder.join(format!("{name}.{ending}"));
    fs::write(file("old"), bytes)?;
    match converted(bytes) {
        Ok(new) => {
            println!("{name}\tok");
            fs::write(file("new"), new)
        }
        Err(declined) => {
            println!("{name}\t{}", declined.number());
            fs::write(file("declined"), format!("{}\n", declined.number()))
        }
    }
}
