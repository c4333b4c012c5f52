//! Made, damaged and mixed texts in a run that the seed decides.

use std::io;

use crate::{
    damage::{damage, Change},
    frames::Frames,
    made::{self, Made},
    rng::Rng,
};

/// Writes so many cases, of one format and mode or of all. A format or mode that is unknown is
/// written as it stands, over a text of a known one. Format 4 is not among them: it is known, but
/// not to flussab-cnf.
pub fn write(seed: u64, count: u64, of: Option<(u8, u8)>, frames: &mut Frames) -> io::Result<()> {
    let rng = &mut Rng::new(seed);
    while frames.count() < count {
        let (format, mode) = of.unwrap_or_else(|| any(rng));
        let written_as = known(format, rng);
        let (text, family) = match rng.below(100) {
            0..=39 => (made::text(written_as, rng, 3), None),
            40..=74 => {
                let mut text = made::text(written_as, rng, 3);
                damage(&mut text.text, rng);
                (text, None)
            }
            75..=91 => (made::mixed(written_as, rng), None),
            92..=97 => (made::text(written_as, rng, 12), None),
            _ => (made::text(written_as, rng, 2), Some(Change::any(rng))),
        };
        let room = made::room(&text, rng);
        let Made { text, .. } = text;
        frames.put(format, mode, room, &text)?;

        // The same change at every place of the text.
        let places = if family.is_some() { text.len() } else { 0 };
        for place in 0..places {
            if let Some(change) = family.filter(|_| frames.count() < count) {
                frames.put(format, mode, room, &change.at(place, &text))?;
            }
        }
    }
    Ok(())
}

/// The format, or any that is known.
pub fn known(format: u8, rng: &mut Rng) -> u8 {
    if format < 4 {
        format
    } else {
        rng.below(4) as u8
    }
}

/// A format and a mode, now and then unknown.
pub fn any(rng: &mut Rng) -> (u8, u8) {
    match rng.below(1_000) {
        0 => (5 + rng.below(251) as u8, rng.below(256) as u8),
        1 => (rng.below(4) as u8, 4 + rng.below(252) as u8),
        _ => (rng.below(4) as u8, rng.below(2) as u8),
    }
}
