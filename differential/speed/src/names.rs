//! Names of functions, to be checked for UTF-8.

use compare::random::Random;

const LETTERS: &[u8; 64] = b"abcdefghijklmnopqrstuvwxyzABCDEFGHIJKLMNOPQRSTUVWXYZ0123456789_$";
const TWO_BYTES: [char; 6] = ['é', 'ä', 'ø', 'ß', 'λ', 'ж'];
const THREE_BYTES: [char; 6] = ['名', '前', '関', '数', 'ア', '€'];

/// The longest name that a record holds.
const LENGTH: usize = 32;

pub const ASCII: usize = 0;
pub const ASCII_ANYWHERE: usize = 1;
pub const ASCII_SHORTER: usize = 2;
pub const FEW_OTHERS: usize = 3;
pub const MOSTLY_OTHERS: usize = 4;
pub const FEW_SHORTER: usize = 5;
pub const SETS: usize = 6;

/// Names one after the other, and where each starts and ends.
pub struct Names {
    bytes: Vec<u8>,
    places: Vec<(usize, usize)>,
}

impl Names {
    pub fn new(set: usize, count: usize) -> Self {
        let mut random = Random::default();
        let (mut bytes, mut places) = (Vec::new(), Vec::new());
        for _ in 0..count {
            // With a byte between them, names of 32 bytes start at each remainder by 8 in turn; without it, at
            // remainder 0.
            bytes.extend((set == ASCII_ANYWHERE).then_some(b' '));
            let start = bytes.len();
            let length = match set {
                ASCII_SHORTER => 8 + random.below(24),
                FEW_SHORTER => 8 + random.below(11),
                _ => LENGTH,
            };
            let others = others(&mut random, set);
            bytes.extend(name(&mut random, length, &others));
            places.push((start, bytes.len()));
        }
        Names { bytes, places }
    }

    pub fn all(&self) -> Vec<&[u8]> {
        self.places.iter().map(|&(start, end)| &self.bytes[start..end]).collect()
    }
}

fn others(random: &mut Random, set: usize) -> Vec<char> {
    match set {
        FEW_OTHERS | FEW_SHORTER if random.once_in(2) => vec![random.pick(&TWO_BYTES)],
        FEW_OTHERS | FEW_SHORTER => vec![random.pick(&TWO_BYTES), random.pick(&THREE_BYTES)],
        MOSTLY_OTHERS => (0..10).map(|_| random.pick(&THREE_BYTES)).collect(),
        _ => Vec::new(),
    }
}

/// A name of `length` bytes: these characters, and ASCII anywhere between them.
pub fn name(random: &mut Random, length: usize, others: &[char]) -> Vec<u8> {
    let mut name = others.to_vec();
    let others: usize = others.iter().map(|other| other.len_utf8()).sum();
    for _ in others..length {
        let place = random.below(name.len() + 1);
        name.insert(place, char::from(random.pick(LETTERS)));
    }
    name.into_iter().collect::<String>().into_bytes()
}
