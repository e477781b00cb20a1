//! The program `outlog` beside the same job in Rust.
use crate::system::{Used, memory, run, stack};
use common::streams::{KINDS, Kind, stream};
use std::fs;
use std::path::{Path, PathBuf};

const SEED: u64 = 1;
const MIB: usize = 1 << 20;

pub struct Programs {
    pub ours: PathBuf,
    pub rust: PathBuf,
    /// Where streams and logs are put.
    pub folder: PathBuf,
}

impl Programs {
    fn file(&self, stream: &[u8]) -> PathBuf {
        let path = self.folder.join("stream");
        fs::write(&path, stream).expect("a file for the stream");
        path
    }

    /// How many lines both logs have, which must be equal.
    fn hold_equal(&self, input: &Path) -> usize {
        let (a, b) = (self.folder.join("ours.log"), self.folder.join("rust.log"));
        run(&self.ours, input, &a);
        run(&self.rust, input, &b);
        let (ours, rust) = (fs::read(&a).expect("our log"), fs::read(&b).expect("the Rust's log"));
        if ours != rust {
            let lines = |log: &[u8]| log.split(|&b| b == b'\n').map(<[u8]>::to_vec).collect::<Vec<_>>();
            let at = lines(&ours).iter().zip(lines(&rust)).position(|(a, b)| *a != b);
            println!("DIFFERENCE: the logs of {} differ, first in line {:?}", input.display(), at.map(|n| n + 1));
            std::process::exit(1);
        }
        fs::remove_file(a).and(fs::remove_file(b)).expect("the logs");
        ours.iter().filter(|&&b| b == b'\n').count()
    }

    /// Medians of so many runs, the two sides taking turns.
    fn time(&self, input: &Path, runs: usize) -> (Used, Used) {
        let nowhere = Path::new("/dev/null");
        let mut ours = Vec::new();
        let mut rust = Vec::new();
        for _ in 0..runs {
            ours.push(run(&self.ours, input, nowhere));
            rust.push(run(&self.rust, input, nowhere));
        }
        (median(ours), median(rust))
    }

    pub fn table(&self, mib: usize, runs: usize) {
        println!(
            "Processor time, in the program and in the system; median of {runs} runs of each, taking turns; from a file to nowhere.\n"
        );
        println!(
            "| stream, {mib} MiB | lines | ours, s | of it in the system | Rust, s | of it in the system | ratio | ours, MiB/s |"
        );
        println!("|---|---|---|---|---|---|---|---|");
        for kind in KINDS {
            let input = self.file(&stream(kind, SEED, mib * MIB));
            let lines = self.hold_equal(&input);
            let (ours, rust) = self.time(&input, runs);
            println!(
                "| {kind:?} | {lines} | {:.3} | {:.3} | {:.3} | {:.3} | {:.2} | {:.0} |",
                ours.total(),
                ours.system,
                rust.total(),
                rust.system,
                ours.total() / rust.total(),
                mib as f64 / ours.total(),
            );
            fs::remove_file(input).expect("the stream's file");
        }
    }

    /// How the cost and the memory of the mixed session grow.
    pub fn growth(&self, sizes: &[usize], runs: usize) {
        println!("| mixed session, MiB | ours, ms/MiB | Rust, ms/MiB | ratio | ours, KiB of memory | Rust, KiB of memory |");
        println!("|---|---|---|---|---|---|");
        for &mib in sizes {
            let stream = stream(Kind::Mixed, SEED, mib * MIB);
            let input = self.file(&stream);
            self.hold_equal(&input);
            let (ours, rust) = self.time(&input, runs);
            let each = |u: Used| u.total() * 1e3 / mib as f64;
            println!(
                "| {mib} | {:.2} | {:.2} | {:.2} | {} | {} |",
                each(ours),
                each(rust),
                ours.total() / rust.total(),
                memory(&self.ours, &stream),
                memory(&self.rust, &stream),
            );
            fs::remove_file(input).expect("the stream's file");
        }
        let input = self.file(&stream(Kind::Mixed, SEED, MIB));
        println!(
            "\nThe least stack on which it runs: ours {} KiB, the Rust's {} KiB.",
            stack(&self.ours, &input),
            stack(&self.rust, &input)
        );
        fs::remove_file(input).expect("the stream's file");
    }
}

fn median(mut runs: Vec<Used>) -> Used {
    runs.sort_by(|a, b| a.total().total_cmp(&b.total()));
    runs[runs.len() / 2]
}
