//! What the command line asks for.

use std::time::{Duration, SystemTime, UNIX_EPOCH};

pub struct Options {
    /// How many inputs a round has, at least.
    pub count: usize,
    pub seed: u64,
    /// How long to go on with further rounds.
    pub duration: Duration,
    /// Whether the inputs that have not been begun are left out once there is a mismatch.
    pub stops: bool,
}

const USAGE: &str = "usage: outside [--count INPUTS] [--seed NUMBER] [--seconds SECONDS] [--stop-at-mismatch]";

impl Options {
    /// With --seconds and no --seed the first seed is taken from the clock.
    pub fn from_arguments(arguments: impl Iterator<Item = String>) -> Result<Options, String> {
        let mut arguments = arguments;
        let (mut count, mut seed, mut seconds, mut stops) = (400_000, None, None, false);
        while let Some(option) = arguments.next() {
            if option == "--stop-at-mismatch" {
                stops = true;
                continue;
            }
            let number = arguments.next().and_then(|value| value.parse::<u64>().ok()).ok_or(USAGE)?;
            match option.as_str() {
                "--count" => count = number as usize,
                "--seed" => seed = Some(number),
                "--seconds" => seconds = Some(number),
                _ => return Err(USAGE.into()),
            }
        }
        let clock = || SystemTime::now().duration_since(UNIX_EPOCH).map_or(1, |time| time.as_secs());
        let seed = seed.unwrap_or_else(|| if seconds.is_some() { clock() } else { 1 });
        Ok(Options { count, seed, duration: Duration::from_secs(seconds.unwrap_or(0)), stops })
    }
}
