//! CRC-32 of IEEE 802.3, reflected: bit by bit as the reference, and eight bytes a step for
//! everyday use.

/// The polynomial with its bits reversed, as the reflected form shifts to the right.
const POLYNOMIAL: u32 = 0xEDB8_8320;

/// Bytes that `crc32` takes in one step.
const STEP: usize = 8;

/// `TABLES[k][b]` is what byte `b` does to the register once `k` more zero bytes have gone through.
static TABLES: [[u32; 256]; STEP] = tables();

/// The CRC-32 of `bytes`, as the definition has it: one bit after the other.
pub fn bitwise(bytes: &[u8]) -> u32 {
    !bytes.iter().fold(!0, |register, &byte| eight_shifts(register ^ u32::from(byte)))
}

/// The CRC-32 of `bytes`, eight bytes a step.
pub fn crc32(bytes: &[u8]) -> u32 {
    let (steps, rest) = bytes.as_chunks();
    let register = steps.iter().fold(!0, step);
    !rest.iter().fold(register, |register, &byte| {
        (register >> 8) ^ TABLES[0][usize::from(register as u8 ^ byte)]
    })
}

/// The first four bytes meet the register; each of the eight then acts alone, so that the eight
/// look-ups do not wait for one another.
fn step(register: u32, bytes: &[u8; STEP]) -> u32 {
    let [r0, r1, r2, r3] = register.to_le_bytes();
    let at = |table: usize, byte: u8| TABLES[table][usize::from(byte)];
    at(7, bytes[0] ^ r0)
        ^ at(6, bytes[1] ^ r1)
        ^ at(5, bytes[2] ^ r2)
        ^ at(4, bytes[3] ^ r3)
        ^ at(3, bytes[4])
        ^ at(2, bytes[5])
        ^ at(1, bytes[6])
        ^ at(0, bytes[7])
}

const fn tables() -> [[u32; 256]; STEP] {
    let mut tables = [[0; 256]; STEP];
    let mut byte = 0;
    while byte < 256 {
        let mut register = eight_shifts(byte as u32);
        tables[0][byte] = register;
        let mut table = 1;
        while table < STEP {
            register = eight_shifts(register);
            tables[table][byte] = register;
            table += 1;
        }
        byte += 1;
    }
    tables
}

const fn eight_shifts(mut register: u32) -> u32 {
    let mut bit = 0;
    while bit < 8 {
        register = if register & 1 == 1 { (register >> 1) ^ POLYNOMIAL } else { register >> 1 };
        bit += 1;
    }
    register
}
