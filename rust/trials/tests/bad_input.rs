//! Bytes that are no file, or only a part of one.

use second::Version;
use trials::{largest, seed, typical, Rng};

/// The number of the answer that both give.
fn agreed(file: &[u8], origin: &str) -> u16 {
    trials::agreed(file, origin).0
}

fn lengths() -> impl Iterator<Item = usize> {
    (0..=60)
        .chain(6_870..=6_914)
        .chain([65_535, 65_536, 65_537, 100_000, 100_001])
        .chain([131_070, 131_072, 131_098])
}

#[test]
fn zeros_ones_and_noise() {
    for length in lengths() {
        let due = match length {
            0 => 0,
            1..26 => 1,
            _ if length % 2 == 1 => 1,
            _ => 2,
        };
        assert_eq!(agreed(&vec![0; length], "zeros"), due);
        assert_eq!(agreed(&vec![0xff; length], "ones"), due);
        let mut rng = Rng::new(seed(), length as u64);
        for _ in 0..20 {
            let noise: Vec<u8> = (0..length).map(|_| rng.word() as u8).collect();
            agreed(&noise, "noise");
        }
    }
}

/// A first word of 2 before zeros: no offset is as it should be.
#[test]
fn version_2_before_zeros_ones_and_noise() {
    for length in lengths().filter(|&length| length >= 2) {
        let short = length < 28 || length % 2 == 1;
        let starts = |byte: u8| [vec![2, 0], vec![byte; length - 2]].concat();
        assert_eq!(agreed(&starts(0), "zeros"), if short { 1 } else { 4 });
        assert_eq!(agreed(&starts(0xff), "ones"), if short { 1 } else { 3 });
        let mut rng = Rng::new(!seed(), length as u64);
        for _ in 0..20 {
            let mut noise = starts(0);
            noise[2..].fill_with(|| rng.word() as u8);
            agreed(&noise, "noise");
        }
    }
}

/// All bytes that there are of one length or two.
#[test]
fn the_shortest() {
    for one in 0..=255 {
        assert_eq!(agreed(&[one], "one byte"), 1);
        for two in 0..=255 {
            assert_eq!(agreed(&[one, two], "two bytes"), 1);
        }
    }
}

#[test]
fn a_sound_file_followed_by_zeros() {
    for version in Version::ALL {
        let sound = typical(version, seed());
        for length in lengths().filter(|&length| length > sound.len()) {
            let mut file = sound.clone();
            file.resize(length, 0);
            assert_eq!(agreed(&file, "longer"), if length % 2 == 1 { 1 } else { 5 });
        }
    }
}

#[test]
fn every_prefix_of_a_sound_file() {
    for version in Version::ALL {
        let header = 2 * version.header();
        for sound in [typical(version, seed()), largest(version, seed())] {
            assert_eq!(agreed(&sound, "whole"), 0);
            assert_eq!(agreed(&sound[..0], "nothing of it"), 0);
            for length in 1..sound.len() {
                let short = length < header || length % 2 == 1;
                assert_eq!(
                    agreed(&sound[..length], "prefix"),
                    if short { 1 } else { 5 }
                );
            }
        }
    }
}

#[test]
fn every_prefix_with_its_count_of_nodes_made_to_fit() {
    for seed in 0..40 {
        let version = Version::BY_ROW[seed as usize % 2];
        let sound = typical(version, seed);
        let nodes = u16::from_le_bytes([sound[12], sound[13]]);
        for kept in 0..=nodes {
            let mut file = sound[..sound.len() - 6 * usize::from(nodes - kept)].to_vec();
            file[12..14].copy_from_slice(&kept.to_le_bytes());
            let due = if kept == nodes { 0 } else { 8 };
            assert_eq!(agreed(&file, "fewer nodes"), due);
        }
    }
}
