//! corpus FOLDER K [SEED]: writes K media of random histories into the folder and prints their file names, one a line.

use second::corpus;
use std::io::{stdout, Write};
use std::path::PathBuf;
use std::process::ExitCode;

struct Options {
    folder: PathBuf,
    media: u64,
    seed: u64,
}

fn options() -> Option<Options> {
    let mut words = std::env::args_os().skip(1);
    let folder = PathBuf::from(words.next()?);
    let media = words.next()?.to_str()?.parse().ok()?;
    let seed = words.next().map_or(Some(1), |word| word.to_str()?.parse().ok())?;
    words.next().is_none().then_some(Options { folder, media, seed })
}

fn write_media(options: &Options) -> std::io::Result<()> {
    std::fs::create_dir_all(&options.folder)?;
    for k in 0..options.media {
        let name = options.folder.join(format!("{k:06}.medium"));
        std::fs::write(&name, corpus::medium(options.seed, k))?;
        writeln!(stdout(), "{}", name.display())?;
    }
    Ok(())
}

fn main() -> ExitCode {
    let Some(options) = options() else {
        eprintln!("corpus FOLDER K [SEED]");
        return ExitCode::from(2);
    };
    match write_media(&options) {
        Ok(()) => ExitCode::SUCCESS,
        Err(error) => {
            eprintln!("{}: {error}", options.folder.display());
            ExitCode::FAILURE
        }
    }
}
