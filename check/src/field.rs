//! The field of 256 elements (ICD 6.1): alpha is 2, alpha^8 = alpha^4 + alpha^3 + alpha^2 + 1.

/// alpha^e for e from 0 to 254.
pub const POWERS: [u8; 255] = powers();
/// The exponent of each element; entry 0 holds 0 and means nothing.
pub const LOGS: [u8; 256] = logs();
/// All products, so that one look-up multiplies.
pub static PRODUCTS: [[u8; 256]; 256] = products();

const fn powers() -> [u8; 255] {
    let mut table = [0; 255];
    let mut value: u16 = 1;
    let mut e = 0;
    while e < 255 {
        table[e] = value as u8;
        value <<= 1;
        if value > 255 {
            value ^= 0x11D;
        }
        e += 1;
    }
    table
}

const fn logs() -> [u8; 256] {
    let mut table = [0; 256];
    let mut e = 0;
    while e < 255 {
        table[POWERS[e] as usize] = e as u8;
        e += 1;
    }
    table
}

const fn products() -> [[u8; 256]; 256] {
    let mut table = [[0; 256]; 256];
    let mut a = 1;
    while a < 256 {
        let mut b = 1;
        while b < 256 {
            table[a][b] = POWERS[(LOGS[a] as usize + LOGS[b] as usize) % 255];
            b += 1;
        }
        a += 1;
    }
    table
}

pub fn multiply(a: u8, b: u8) -> u8 {
    PRODUCTS[a as usize][b as usize]
}

/// The inverse of an element that is not 0.
pub fn inverse(a: u8) -> u8 {
    assert!(a != 0, "0 has no inverse");
    POWERS[(255 - LOGS[a as usize] as usize) % 255]
}

#[cfg(test)]
mod tests {
    use super::*;

    #[test]
    fn by_hand() {
        assert_eq!(multiply(16, 16), 29);
        assert_eq!(multiply(2, 142), 1);
        assert_eq!(multiply(0, 77), 0);
    }

    /// ICD Table 41, the rows that it prints.
    #[test]
    fn table_41() {
        let first = [1, 2, 4, 8, 16, 32, 64, 128, 29, 58, 116, 232, 205, 135, 19];
        let last = [22, 44, 88, 176, 125, 250, 233, 207, 131, 27, 54, 108, 216, 173, 71, 142];
        assert_eq!(POWERS[..15], first);
        assert_eq!(POWERS[239..], last);
    }

    /// The product by shifting and adding, from Eq. 7 alone.
    fn slow(a: u8, b: u8) -> u8 {
        let mut sum = 0u16;
        for bit in (0..8).rev() {
            sum <<= 1;
            if sum & 0x100 != 0 {
                sum ^= 0x11D;
            }
            if b >> bit & 1 == 1 {
                sum ^= a as u16;
            }
        }
        sum as u8
    }

    #[test]
    fn products_and_inverses() {
        for a in 0..=255u8 {
            for b in 0..=255u8 {
                assert_eq!(multiply(a, b), slow(a, b));
            }
            if a != 0 {
                assert_eq!(multiply(a, inverse(a)), 1);
            }
        }
    }
}
