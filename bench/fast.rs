// A fast twin of `tally`: the same rules and the same work for each frame, made as fast as is reasonable.
// A frame is checked without branches and looked at closer only if wrong; accounts lie by address;
// lines go into one buffer, with the digits of two numbers made at once in one register.
use std::fs::File;
use std::io::{ErrorKind, Read, Result, Write};
use std::mem::ManuallyDrop;
use std::os::fd::FromRawFd;

const FRAME: usize = 24;
const BLOCK: usize = 2730 * FRAME; // as many frames as a pipe holds
const PAGE: usize = 128 * 1024;
const LINE: usize = 320; // no line is longer, with the bytes stored past its end
const TARIFFS: usize = 16;
const ACCOUNTS: usize = 16;
const LAST_TICK: u32 = 2_000_000_000;

#[derive(Clone, Copy)]
#[repr(align(128))]
struct Account {
    ticks: [u32; TARIFFS],
    last: u32,
    current: u32, // counts from 1; 0 while the account is closed
}

const CLOSED: Account = Account { ticks: [0; TARIFFS], last: 0, current: 0 };

/// Whether each flag byte below 16 may be, by bit.
const FLAGS: u16 = {
    let (mut right, mut flags) = (0u16, 0);
    while flags < 16 {
        if (flags & 4 == 0 || flags & 2 != 0) && flags & 9 != 9 {
            right |= 1 << flags;
        }
        flags += 1;
    }
    right
};

/// The text " T:" of each tariff; three bytes count up to tariff 9, then four.
const TARIFF: [[u8; 4]; TARIFFS] = {
    let mut texts = [[0; 4]; TARIFFS];
    let mut i = 0;
    while i < TARIFFS {
        let t = i as u8 + 1;
        texts[i] = if t < 10 { [b' ', b'0' + t, b':', 0] } else { [b' ', b'1', b'0' + t - 10, b':'] };
        i += 1;
    }
    texts
};

/// The digits of each address number, and how many they are.
const NUMBER: [[u8; 4]; 128] = {
    let mut texts = [[0; 4]; 128];
    let mut i = 0;
    while i < 128 {
        let (a, b, c) = (b'0' + i as u8 / 100, b'0' + i as u8 / 10 % 10, b'0' + i as u8 % 10);
        texts[i] = if i < 10 { [c, 0, 0, 1] } else if i < 100 { [b, c, 0, 2] } else { [a, b, c, 3] };
        i += 1;
    }
    texts
};

/// For each highest bit, what a number needs added to have its count of digits in the upper half.
const CARRY: [u64; 32] = {
    let mut table = [0; 32];
    let mut i = 0;
    while i < 32 {
        let low = 1u64 << i;
        let (mut digits, mut bound) = (1, 10);
        while bound <= low {
            digits += 1;
            bound *= 10;
        }
        table[i] = if bound < low * 2 { (digits + 1 << 32) - bound } else { digits << 32 };
        i += 1;
    }
    table
};

/// How many digits a number has.
#[inline(always)]
fn digits(n: u32) -> usize {
    (n as u64 + CARRY[(n | 1).ilog2() as usize] >> 32) as usize
}

/// The four digits of a number below ten thousand, the first in the lowest byte.
#[inline(always)]
fn four(n: u32) -> u32 {
    let high = n * 5243 >> 19;
    let pairs = high | n - high * 100 << 16;
    let high = pairs * 103 >> 10 & 0x000f_000f;
    (high | pairs - high * 10 << 8) + 0x3030_3030
}

/// The eight digits of two numbers below a hundred million, the first in the lowest byte.
#[cfg(target_arch = "x86_64")]
#[inline(always)]
fn two_eights(x: u32, y: u32) -> [u64; 2] {
    use std::arch::x86_64::*;
    unsafe {
        let both = _mm_set_epi32(0, y as i32, 0, x as i32);
        let high = _mm_srli_epi64(_mm_mul_epu32(both, _mm_set1_epi64x(3_518_437_209)), 45);
        let low = _mm_sub_epi64(both, _mm_mul_epu32(high, _mm_set1_epi64x(10_000)));
        let fours = _mm_or_si128(high, _mm_slli_epi64(low, 32));
        let high = _mm_srli_epi16(_mm_mulhi_epu16(fours, _mm_set1_epi32(5243)), 3);
        let low = _mm_sub_epi16(fours, _mm_mullo_epi16(high, _mm_set1_epi32(100)));
        let pairs = _mm_or_si128(high, _mm_slli_epi32(low, 16));
        let high = _mm_mulhi_epu16(pairs, _mm_set1_epi16(6554));
        let ones = _mm_sub_epi16(_mm_slli_epi16(pairs, 8), _mm_mullo_epi16(high, _mm_set1_epi16(2559)));
        let text = _mm_add_epi8(ones, _mm_set1_epi8(b'0' as i8));
        [_mm_cvtsi128_si64(text) as u64, _mm_cvtsi128_si64(_mm_unpackhi_epi64(text, text)) as u64]
    }
}

#[cfg(not(target_arch = "x86_64"))]
fn two_eights(x: u32, y: u32) -> [u64; 2] {
    [x, y].map(|n| four(n / 10_000) as u64 | (four(n % 10_000) as u64) << 32)
}

/// Puts bytes at a place with room, and gives the place after the first `length`.
#[inline(always)]
unsafe fn put<T>(at: *mut u8, value: T, length: usize) -> *mut u8 {
    at.cast::<T>().write_unaligned(value);
    at.add(length)
}

#[inline(always)]
unsafe fn put_report_number(at: *mut u8, n: u32) -> *mut u8 {
    if n == 10_000 {
        return put(at, *b"10000", 5);
    }
    let length = digits(n);
    put(at, four(n) >> (32 - 8 * length & 31), length)
}

/// Puts " T:TICKS", of which the last eight digits are made already and the hundred millions are not.
#[inline(always)]
unsafe fn put_tariff(at: *mut u8, i: usize, ticks: u32, high: u32, low: u64) -> *mut u8 {
    let at = put(at, TARIFF[i & 15], if i < 9 { 3 } else { 4 });
    let length = digits(ticks);
    if high == 0 {
        return put(at, low >> (64 - 8 * length & 63), length);
    }
    let at = put(at, four(high) >> (8 * (12 - length) & 31), length - 8);
    put(at, low, 8)
}

#[inline(always)]
unsafe fn put_line(at: *mut u8, frame: &[u8; FRAME], state: &[u8; 8], length: usize, account: &Account) -> *mut u8 {
    let number = NUMBER[frame[5] as usize & 127];
    let at = put(at, [b'0' + frame[4], b'.'], 2);
    let at = put(at, number, number[3] as usize);
    let at = put(at, *b" #", 2);
    let at = put_report_number(at, account.last);
    let mut at = put(at, *state, length);
    let mut i = 0;
    while i < account.current as usize {
        let (x, y) = (account.ticks[i & 15], account.ticks[i + 1 & 15]);
        let (a, b) = if x | y < 100_000_000 { (0, 0) } else { (x / 100_000_000, y / 100_000_000) };
        let [c, d] = two_eights(x - a * 100_000_000, y - b * 100_000_000);
        at = put_tariff(at, i, x, a, c);
        if i + 1 < account.current as usize {
            at = put_tariff(at, i + 1, y, b, d);
        }
        i += 2;
    }
    put(at, b'\n', 1)
}

#[inline(always)]
fn u16_at(frame: &[u8; FRAME], i: usize) -> u16 {
    u16::from_le_bytes([frame[i], frame[i + 1]])
}

#[inline(always)]
fn u32_at(frame: &[u8; FRAME], i: usize) -> u32 {
    u32::from_le_bytes([frame[i], frame[i + 1], frame[i + 2], frame[i + 3]])
}

#[inline(always)]
fn is_right(frame: &[u8; FRAME]) -> bool {
    let (flags, tick, time, interval) = (frame[8], u32_at(frame, 12), u32_at(frame, 16), u32_at(frame, 20));
    (u32_at(frame, 0) == 1 << 16 | 24)
        & (frame[4].wrapping_sub(1) < 2)
        & (frame[5].wrapping_sub(1) < 127)
        & (u16_at(frame, 6).wrapping_sub(1) < 10_000)
        & (flags < 16)
        & (FLAGS >> (flags & 15) & 1 == 1)
        & (frame[9].wrapping_sub(1) < 2)
        & (u16_at(frame, 10) == 0)
        & (tick <= LAST_TICK)
        & ((interval != 0) == (flags & 4 != 0))
        & (time as u64 + interval as u64 <= tick as u64)
}

/// The place of the first wrong byte of a wrong frame.
#[cold]
fn wrong_place(frame: &[u8; FRAME]) -> u64 {
    let flags = frame[8];
    let checks = [
        (0, u16_at(frame, 0) == 24),
        (2, u16_at(frame, 2) == 1),
        (4, (1..=2).contains(&frame[4])),
        (5, (1..=127).contains(&frame[5])),
        (6, (1..=10_000).contains(&u16_at(frame, 6))),
        (8, flags < 16 && FLAGS >> flags & 1 == 1),
        (9, (1..=2).contains(&frame[9])),
        (10, u16_at(frame, 10) == 0),
        (12, u32_at(frame, 12) <= LAST_TICK),
    ];
    checks.iter().find(|check| !check.1).map_or(20, |check| check.0)
}

struct Tally {
    accounts: [Account; 256], // by kind and number
    open: usize,
}

impl Tally {
    /// Tells a right frame at a place with room for a line, and gives the place after it;
    /// or the code of a broken account rule.
    #[inline(always)]
    unsafe fn tell(&mut self, frame: &[u8; FRAME], at: *mut u8) -> std::result::Result<*mut u8, u8> {
        let account = &mut self.accounts[(frame[4] as usize - 1 << 7 | frame[5] as usize) & 255];
        let number = u16_at(frame, 6) as u32;
        let (flags, time, interval) = (frame[8], u32_at(frame, 16), u32_at(frame, 20));
        if account.current == 0 {
            *account = Account { current: 1, ..CLOSED };
            self.open += 1;
        } else if number == account.last {
            return Ok(put_line(at, frame, b" repeat ", 7, account));
        }
        if number != account.last + 1 {
            return Err(16);
        }
        if flags & 2 == 0 {
            if account.current != 1 {
                return Err(16);
            }
        } else if flags & 4 != 0 {
            let ticks = &mut account.ticks[account.current as usize - 1 & 15];
            if interval < *ticks || account.current == TARIFFS as u32 {
                return Err(16);
            }
            *ticks = interval;
            account.current += 1;
        } else if account.current == 1 {
            if account.ticks[0] != 0 {
                return Err(16);
            }
            account.current = 2;
        }
        let ticks = &mut account.ticks[account.current as usize - 1 & 15];
        if time < *ticks {
            return Err(16);
        }
        if self.open > ACCOUNTS {
            return Err(17);
        }
        *ticks = time;
        account.last = number;
        let (state, length) = if flags & 1 != 0 { (b" open   ", 5) } else { (b" closed ", 7) };
        let at = put_line(at, frame, state, length, account);
        if flags & 1 == 0 {
            account.current = 0;
            self.open -= 1;
        }
        Ok(at)
    }
}

/// Lines that are told and not yet written.
struct Page {
    bytes: Vec<u8>,
    output: ManuallyDrop<File>,
}

impl Page {
    fn write(&mut self, at: *mut u8) -> Result<*mut u8> {
        let start = self.bytes.as_mut_ptr();
        self.output.write_all(&self.bytes[..at as usize - start as usize])?;
        Ok(start)
    }
}

fn read(input: &mut File, block: &mut [u8]) -> Result<usize> {
    loop {
        match input.read(block) {
            Err(error) if error.kind() == ErrorKind::Interrupted => {}
            result => return result,
        }
    }
}

fn main() -> Result<()> {
    let mut input = ManuallyDrop::new(unsafe { File::from_raw_fd(0) });
    let mut page = Page { bytes: vec![0; PAGE], output: ManuallyDrop::new(unsafe { File::from_raw_fd(1) }) };
    let mut block = vec![0; BLOCK];
    let mut tally = Tally { accounts: [CLOSED; 256], open: 0 };
    let mut at = page.bytes.as_mut_ptr();
    let full = at as usize + PAGE - LINE;
    let (mut left, mut place) = (0, 0u64);
    loop {
        let count = read(&mut input, &mut block[left..])?;
        if count == 0 {
            if left > 0 {
                writeln!(page.output, "fault frame 15 {}", place + left as u64)?;
            }
            return Ok(());
        }
        let filled = left + count;
        let (frames, rest) = block[..filled].as_chunks::<FRAME>();
        left = rest.len();
        for frame in frames {
            if at as usize > full {
                at = page.write(at)?;
            }
            if !is_right(frame) {
                page.write(at)?;
                return writeln!(page.output, "fault frame 15 {}", place + wrong_place(frame));
            }
            match unsafe { tally.tell(frame, at) } {
                Ok(after) => at = after,
                Err(code) => {
                    page.write(at)?;
                    return writeln!(page.output, "fault account {code} {place}");
                }
            }
            place += FRAME as u64;
        }
        at = page.write(at)?;
        block.copy_within(filled - left..filled, 0);
    }
}
