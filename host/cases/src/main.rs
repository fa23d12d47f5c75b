//! `cases SEED FOLDER`: writes the stored cases and their answers to the files
//! `stdin` and `stdout` of a folder, and prints what they cover.

use std::path::Path;
use std::process::ExitCode;

fn write(seed: u64, folder: &Path) -> std::io::Result<()> {
    let requests = cases::cases(seed);
    let input = cases::input(&requests);
    std::fs::write(folder.join("stdin"), &input)?;
    std::fs::write(folder.join("stdout"), cases::answers(&requests))?;
    println!("{}", cases::coverage(&requests));
    println!("{} cases, {} bytes", requests.len(), input.len());
    Ok(())
}

fn main() -> ExitCode {
    let arguments: Vec<String> = std::env::args().skip(1).collect();
    let [seed, folder] = &arguments[..] else {
        eprintln!("usage: cases SEED FOLDER");
        return ExitCode::from(2);
    };
    let Ok(seed) = seed.parse() else {
        eprintln!("not a seed: {seed}");
        return ExitCode::from(2);
    };
    match write(seed, Path::new(folder)) {
        Ok(()) => ExitCode::SUCCESS,
        Err(error) => {
            eprintln!("{folder}: {error}");
            ExitCode::FAILURE
        }
    }
}
