//! Settings that are counted, for a person to read: a verdict to a line.

#[cfg(test)]
mod tests;

use crate::model::{Counted, VERDICTS};

/// What each verdict says.
const MEANINGS: [&str; VERDICTS] = ["Tier 1 is enough", "Tier 1 is too little", "no exposure"];

/// The lines for a call that counted the settings of a set.
pub fn lines(counted: &Counted) -> String {
    let (number, place) = (counted.number, counted.place);
    if number != 0 {
        return format!("refused {number} at {place}\n");
    }
    let line = |verdict: usize| {
        let settings = match counted.counts[verdict] {
            1 => "1 setting leads".to_string(),
            count => format!("{count} settings lead"),
        };
        let meaning = MEANINGS[verdict];
        format!("{settings} to verdict {verdict}, {meaning}\n")
    };
    (0..VERDICTS).map(line).collect()
}
