// Both figures of the task image on standard input, as the program figure writes them; nothing of an input that cannot be read whole.
// (Rust's library takes a closed standard input for an empty one.)
use slotfigures::{figures, MOST_PLACES, NO_TIME};
use std::io::{Read, Result, Write};

fn main() -> Result<()> {
    let mut image = Vec::new();
    std::io::stdin().take(16384).read_to_end(&mut image)?;
    let mut table = [NO_TIME; MOST_PLACES];
    let mut out = std::io::stdout().lock();
    match figures(&image, &mut table) {
        Err(r) => writeln!(out, "refused {} {}", r.number, r.place),
        Ok(f) => {
            writeln!(
                out,
                "tight {}\npublished {}\nexits {}",
                f.tight, f.published, f.exits
            )?;
            for (o, time) in table
                .iter()
                .enumerate()
                .filter(|(_, time)| **time != NO_TIME)
            {
                writeln!(out, "{o} {time}")?;
            }
            Ok(())
        }
    }
}
