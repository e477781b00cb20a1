//! Packs a battery report, pushes the frame in two pieces, and prints the log line.

use std::error::Error;
use std::io::Write;

fn main() -> Result<(), Box<dyn Error>> {
    let mut frame = [0; 64];
    let len = mdr::pack(mdr::DataType::DataMdr, 0, &[0x23, 0x00, 0x50, 0x01], &mut frame)?;

    let mut store = vec![0; 12288];
    let mut work = vec![0; 12288];
    let mut out = vec![0; 4 * store.len()];
    let mut scanner = mdr::Scanner::open(8192, &mut store)?;
    let (first, second) = frame[..len].split_at(5);
    scanner.push(&mut store, first)?;
    scanner.push(&mut store, second)?;

    let plan = mdr::house_plan();
    while let Some(n) = scanner.line(&mut store, &plan, &mut work, &mut out)? {
        std::io::stdout().write_all(&out[..n])?;
    }
    Ok(())
}
