//! Checks card images: `check-rs FILE...` says of each file whether it is accepted.

use std::path::{Path, PathBuf};
use std::process::ExitCode;

unsafe extern "C" {
    fn card_image_check(bytes: *const u8, len: usize) -> u64;
}

/// Which test refused an image, and the byte offset of the field at fault.
struct Refusal {
    number: u32,
    offset: u32,
}

fn check(image: &[u8]) -> Result<(), Refusal> {
    // SAFETY: a slice's pointer is not null and has `len` readable bytes, and
    // the check writes nothing and keeps no pointer.
    let answer = unsafe { card_image_check(image.as_ptr(), image.len()) };
    if answer == 0 {
        return Ok(());
    }
    Err(Refusal {
        number: (answer >> 32) as u32,
        offset: answer as u32,
    })
}

/// Prints one line; true when the file is accepted.
fn check_file(name: &Path) -> bool {
    let image = match std::fs::read(name) {
        Ok(image) => image,
        Err(error) => {
            eprintln!("{}: cannot be read: {error}", name.display());
            return false;
        }
    };
    match check(&image) {
        Ok(()) => {
            println!("{}: accepted", name.display());
            true
        }
        Err(Refusal { number, offset }) => {
            println!("{}: refused {number} at byte {offset}", name.display());
            false
        }
    }
}

fn main() -> ExitCode {
    let names: Vec<PathBuf> = std::env::args_os().skip(1).map(PathBuf::from).collect();
    if names.is_empty() {
        eprintln!("usage: check-rs FILE...");
        return ExitCode::from(2);
    }
    let mut all_accepted = true;
    for name in &names {
        all_accepted &= check_file(name);
    }
    if all_accepted {
        ExitCode::SUCCESS
    } else {
        ExitCode::FAILURE
    }
}
