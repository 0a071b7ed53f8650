//! Records that have keys, and keys to look for.

use super::sample::Sizes;
use crate::inputs::Field;
use crate::model::{key_of, largest};
use crate::random::Random;

/// How the keys of a tree's records come.
#[derive(Debug, Clone, Copy, PartialEq, Eq)]
pub enum Order {
    /// Rising, each once as far as the width has so many.
    Distinct,
    /// Never falling, many equal.
    Equal,
    /// Few keys in any order.
    Few,
    /// Any bytes.
    Any,
}

pub const ORDERS: [Order; 4] = [Order::Distinct, Order::Equal, Order::Few, Order::Any];

impl Order {
    pub fn any(random: &mut Random) -> Order {
        ORDERS[random.up_to(3) as usize]
    }
}

/// A field of a record of this size, which is not 0.
pub fn any_field(record_size: u16, random: &mut Random) -> Field {
    let size = u64::from(record_size);
    let width = 1 + random.up_to(size.min(8) - 1);
    Field::new(random.up_to(size - width), width)
}

/// The largest key of a field.
pub fn most(key: Field) -> u64 {
    largest(key.width as u8) as u64
}

/// The records of a tree of these sizes, with keys that come in an order.
pub fn records(sizes: &Sizes, key: Field, order: Order, random: &mut Random) -> Vec<u8> {
    let mut records = sizes.any_records(random);
    let (start, width) = (key.start as usize, key.width as usize);
    let most = most(key);
    let step = most / (sizes.record_count + 1);
    let mut last = random.any_magnitude(step);
    for record in records.chunks_mut(sizes.geometry.record_size.into()) {
        let next = (last.saturating_add(1 + random.any_magnitude(step))).min(most);
        last = match order {
            Order::Distinct => next,
            Order::Equal if random.up_to(3) == 0 => next,
            Order::Equal => last,
            Order::Few => random.up_to(5) * (most / 5),
            Order::Any => key_of(record, key),
        };
        record[start..start + width].copy_from_slice(&last.to_le_bytes()[..width]);
    }
    records
}

/// A key and those beside it, and the same with a bit above the field.
pub fn around(own: u64, key: Field) -> Vec<u64> {
    let mut keys = vec![own, own.wrapping_sub(1), own.wrapping_add(1)];
    if key.width < 8 {
        keys.push(own + most(key) + 1);
    }
    keys
}

/// The least and the largest key of a field, the numbers around that, and the largest there is.
pub fn limits(key: Field) -> [u64; 6] {
    let most = most(key);
    let above = most.wrapping_add(1);
    [0, 1, most - 1, most, above, u64::MAX]
}
