//! Times the proved code beside the Rust original on the same inputs.
mod functions;
mod outlogs;
mod system;

use outlogs::Programs;

fn main() {
    let words: Vec<String> = std::env::args().skip(1).collect();
    let [ours, rust, folder, parts @ ..] = &words[..] else { usage() };
    let programs = Programs { ours: ours.into(), rust: rust.into(), folder: folder.into() };
    let all = ["functions", "streams", "growth"];
    if parts.iter().any(|part| !all.contains(&part.as_str())) {
        usage();
    }
    for part in all {
        if !parts.is_empty() && !parts.iter().any(|p| p == part) {
            continue;
        }
        match part {
            "functions" => functions::table(),
            "streams" => programs.table(32, 9),
            _ => programs.growth(&[1, 4, 16, 64, 256], 5),
        }
        println!();
    }
}

fn usage() -> ! {
    eprintln!("usage: bench OUTLOG RUST_OUTLOG FOLDER [functions] [streams] [growth]");
    std::process::exit(2)
}
