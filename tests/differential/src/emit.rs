//! Writes bench files with what the model prints for them: 0.bench, 0.out, 1.bench and so on; then place-0.bench and so on, with a number
//! at a limit in each place.

use crate::random::Random;
use crate::{cases, damage, files};
use model::places;
use std::fs;
use std::path::Path;

pub fn emit(dir: &Path, number: u64, seed: u64) -> std::io::Result<()> {
    fs::create_dir_all(dir)?;
    for case in 0..number {
        let mut random = Random::new(seed, case);
        write(dir, &case.to_string(), &file(&mut random, case))?;
    }
    for (at, file) in places::files().enumerate() {
        write(dir, &format!("place-{at}"), file.as_bytes())?;
    }
    Ok(())
}

fn write(dir: &Path, name: &str, file: &[u8]) -> std::io::Result<()> {
    fs::write(dir.join(format!("{name}.bench")), file)?;
    fs::write(dir.join(format!("{name}.out")), model::program::run(file).bytes)
}

/// Mostly short runs in which much happens; beside them refused files, and one in ten of any kind, long ones among them.
fn file(random: &mut Random, case: u64) -> Vec<u8> {
    match case % 10 {
        0..=5 => files::rich(random),
        6 => damage::faulty(random),
        7 => {
            let rich = files::rich(random);
            damage::damage(random, rich)
        }
        8 => match random.below(4) {
            0 => files::full(random),
            1 => files::both_limits(random),
            2 => files::many_events(random),
            _ => files::many_bytes(random),
        },
        _ => cases::file(random).1,
    }
}
