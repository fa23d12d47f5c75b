//! What the host lends for the devices: registers, characters, a typing buffer.

use crate::random::Random;
use crate::words::{edge, word};
use protocol::Devices;

/// What a run is lent; the autoload key gets all but the typing buffer.
#[derive(Default)]
pub struct Lent {
    /// The device buffer registers.
    pub devices: Devices,
    /// The characters in the reader.
    pub characters: Vec<u8>,
    /// The typing buffer with what it holds.
    pub typing: Vec<u8>,
}

/// Nothing in one of three, else something that no call refuses.
pub fn lent(random: &mut Random, size: usize) -> Lent {
    if random.one_in(3) {
        return Lent::default();
    }
    let devices = Devices {
        reader: register(random),
        typewriter: register(random),
    };
    let space = match random.below(8) {
        0 => 0,
        1..=6 => random.below(9),
        _ => random.below(40),
    };
    Lent {
        devices,
        characters: characters(random, size),
        typing: (0..space).map(|_| random.bits(8) as u8).collect(),
    }
}

/// A value of a device buffer register.
fn register(random: &mut Random) -> u32 {
    match random.below(4) {
        0 => 0,
        1 => random.bits(6) as u32,
        2 => edge(random),
        _ => random.bits(24) as u32,
    }
}

/// Characters, at times those of words for a store of `size` cells.
fn characters(random: &mut Random, size: usize) -> Vec<u8> {
    let count = match random.below(8) {
        0 => 0,
        1..=3 => random.below(6),
        4..=6 => random.below(13),
        _ => random.below(40),
    };
    let of_words = random.one_in(3);
    let mut characters = Vec::new();
    while characters.len() < count as usize {
        let four = if of_words {
            word(random, size)
        } else {
            random.bits(24) as u32
        };
        characters.extend([18, 12, 6, 0].map(|places| (four >> places & 63) as u8));
    }
    characters.truncate(count as usize);
    characters
}

/// Brings about refusal 13.
pub fn refuse_device(random: &mut Random, lent: &mut Lent) {
    let wide = random.pick(&[1 << 24, (1 << 24) + 1, 1 << 31, u32::MAX]);
    match random.below(3) {
        0 => refuse_character(random, &mut lent.characters),
        1 => lent.devices.reader = wide,
        _ => lent.devices.typewriter = wide,
    }
}

fn refuse_character(random: &mut Random, characters: &mut Vec<u8>) {
    let value = random.pick(&[64, 65, 127, 128, 192, 255]);
    let places = characters.len() as u32;
    if places == 0 {
        return characters.push(value);
    }
    let any = random.below(places);
    let place = random.pick(&[0, places - 1, any]);
    characters[place as usize] = value;
}
