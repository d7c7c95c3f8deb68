//! Practice events from a seed: the upper eight bits of a drawn seed are looked up in a table of all 256 events.

const MOST_EVENTS: u64 = 10_000;

/// The event of a seed with these upper eight bits.
const fn event(upper: u8) -> [u8; 3] {
    match upper >> 6 {
        0 => [0, 0, 0],
        3 => [2, upper >> 3 & 7, upper & 7],
        _ => [1, upper & 63, 0],
    }
}

const EVENTS: [[u8; 3]; 256] = {
    let mut all = [[0; 3]; 256];
    let mut n = 0;
    while n < 256 {
        all[n] = event(n as u8);
        n += 1;
    }
    all
};

/// The length of what was written: 32, then 33.
pub fn practice(mut seed: u32, count: u64, events: &mut [u8]) -> Result<usize, u8> {
    if count > MOST_EVENTS {
        return Err(32);
    }
    let length = 3 * count as usize;
    if events.len() < length {
        return Err(33);
    }
    let mut to = events.as_mut_ptr();
    for _ in 0..count {
        seed = seed.wrapping_mul(1664525).wrapping_add(1013904223);
        // SAFETY: the list fits into the lent bytes, and an upper byte is below 256.
        unsafe {
            std::ptr::copy_nonoverlapping(EVENTS.get_unchecked((seed >> 24) as usize).as_ptr(), to, 3);
            to = to.add(3);
        }
    }
    Ok(length)
}
