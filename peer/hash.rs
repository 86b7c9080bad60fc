//! The two fields and the hash of a text over them.

const M61: u128 = (1 << 61) - 1;

#[derive(Clone, Copy)]
pub enum Field {
    M61,
    B63,
}

impl Field {
    pub fn numbered(number: u8) -> Option<Field> {
        match number {
            0 => Some(Field::M61),
            1 => Some(Field::B63),
            _ => None,
        }
    }

    fn order(self) -> u64 {
        match self {
            Field::M61 => M61 as u64,
            Field::B63 => 1 << 63,
        }
    }

    /// The number of the element that any number means.
    pub fn element(self, x: u64) -> u64 {
        match self {
            Field::M61 => (x as u128 % M61) as u64,
            Field::B63 => x & !(1 << 63),
        }
    }

    fn sum(self, a: u64, b: u64) -> u64 {
        match self {
            Field::M61 => ((a as u128 + b as u128) % M61) as u64,
            Field::B63 => a ^ b,
        }
    }

    fn product(self, a: u64, b: u64) -> u64 {
        match self {
            Field::M61 => (a as u128 * b as u128 % M61) as u64,
            Field::B63 => {
                let mut wide = 0u128;
                for i in (0..63).filter(|i| a >> i & 1 == 1) {
                    wide ^= (b as u128) << i;
                }
                // long division by z^63 + z + 1, from the highest power down
                for i in (63..126).rev() {
                    if wide >> i & 1 == 1 {
                        wide ^= ((1u128 << 63) | 3) << (i - 63);
                    }
                }
                wide as u64
            }
        }
    }
}

pub fn hash(field: Field, ring: &[u64], text: &[u8]) -> Result<u64, u8> {
    if text.len() > 57_344 {
        return Err(9);
    }
    if ring.len() < text.len().div_ceil(7 * 1_024) {
        return Err(10);
    }
    if ring.iter().any(|&k| k >= field.order()) {
        return Err(13);
    }
    let mut x = 0;
    for (chunk, &subkey) in text.chunks(7 * 1_024).zip(ring) {
        for block in chunk.chunks(7) {
            let mut filled = [0; 8];
            filled[..block.len()].copy_from_slice(block);
            x = field.product(field.sum(x, u64::from_le_bytes(filled)), subkey);
        }
    }
    Ok(field.element(field.sum(x, text.len() as u64)))
}
