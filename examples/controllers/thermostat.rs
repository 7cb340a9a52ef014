//! A thermostat: it heats below 19.00, doesn't above 21.00, and between goes on as before. Each line
//! is a temperature and whether the door is open, such as `18.50 f`. It answers `t` to heat, and
//! else `f`.
//!
//! rustc -o thermostat thermostat.rs
use std::io::{self, BufRead, Error, ErrorKind, Write};

fn main() -> io::Result<()> {
    let (mut heats, mut out) = (false, io::stdout());
    for line in io::stdin().lock().lines() {
        let line = line?;
        let word = line.split(' ').next().unwrap_or("");
        let temperature: f64 = word.parse().map_err(|it| Error::new(ErrorKind::InvalidData, it))?;
        if temperature < 19.0 {
            heats = true;
        } else if temperature > 21.0 {
            heats = false;
        }
        writeln!(out, "{}", if heats { "t" } else { "f" })?;
        out.flush()?; // lurette waits for this line
    }
    Ok(())
}
