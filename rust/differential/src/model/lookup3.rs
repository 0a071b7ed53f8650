//! The checksum: hashlittle of lookup3.c with start value 0.

/// One line of `mix`: x -= z, x ^= z turned left, z += y.
fn mix_line(x: &mut u32, y: u32, z: &mut u32, by: u32) {
    *x = x.wrapping_sub(*z) ^ z.rotate_left(by);
    *z = z.wrapping_add(y);
}

/// One line of `final`: x ^= y, x -= y turned left.
fn final_line(x: &mut u32, y: u32, by: u32) {
    *x = (*x ^ y).wrapping_sub(y.rotate_left(by));
}

/// Adds 12 bytes, as three words, to a, b and c.
fn add(words: &mut [u32; 3], block: &[u8]) {
    for (word, bytes) in words.iter_mut().zip(block.chunks(4)) {
        let number = u32::from_le_bytes(bytes.try_into().expect("blocks have 12 bytes"));
        *word = word.wrapping_add(number);
    }
}

pub fn lookup3(data: &[u8]) -> u32 {
    let [mut a, mut b, mut c] = [0xdead_beef_u32.wrapping_add(data.len() as u32); 3];
    let mut rest = data;
    while rest.len() > 12 {
        let (block, after) = rest.split_at(12);
        rest = after;
        let mut words = [a, b, c];
        add(&mut words, block);
        [a, b, c] = words;
        mix_line(&mut a, b, &mut c, 4);
        mix_line(&mut b, c, &mut a, 6);
        mix_line(&mut c, a, &mut b, 8);
        mix_line(&mut a, b, &mut c, 16);
        mix_line(&mut b, c, &mut a, 19);
        mix_line(&mut c, a, &mut b, 4);
    }
    if rest.is_empty() {
        return c;
    }
    let mut block = [0; 12];
    block[..rest.len()].copy_from_slice(rest);
    let mut words = [a, b, c];
    add(&mut words, &block);
    [a, b, c] = words;
    final_line(&mut c, b, 14);
    final_line(&mut a, c, 11);
    final_line(&mut b, a, 25);
    final_line(&mut c, b, 16);
    final_line(&mut a, c, 4);
    final_line(&mut b, a, 14);
    final_line(&mut c, b, 24);
    c
}
