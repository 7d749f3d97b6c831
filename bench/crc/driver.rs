// Times the proved CRC16 beside a table of 256 entries and beside memcpy, on the same payloads in one run.
use std::hint::black_box;
use std::time::Instant;

extern "C" {
    fn pivotspark_crc16(payload: *const u8, length: usize) -> u16;
    fn pivotspark_check(packet: *const u8, length: usize) -> u16;
}

const fn table() -> [u16; 256] {
    let mut entries = [0u16; 256];
    let mut i = 0;
    while i < 256 {
        let mut r = i as u16;
        let mut k = 0;
        while k < 8 {
            r = if r & 1 == 1 { r >> 1 ^ 0xA001 } else { r >> 1 };
            k += 1;
        }
        entries[i] = r;
        i += 1;
    }
    entries
}

static TABLE: [u16; 256] = table();

// A byte a turn, by a table.
#[inline(never)]
fn by_table(payload: &[u8]) -> u16 {
    let mut r = 0xffffu16;
    for b in payload {
        r = r >> 8 ^ TABLE[(r as u8 ^ b) as usize];
    }
    r ^ 0xffff
}

#[inline(never)]
fn proved(payload: &[u8]) -> u16 {
    // The callee only reads the slice that it is lent.
    unsafe { pivotspark_crc16(payload.as_ptr(), payload.len()) }
}

#[inline(never)]
fn copied(payload: &[u8]) -> u16 {
    let mut to = [std::mem::MaybeUninit::<u8>::uninit(); 1024];
    // 1,024 bytes have room for any payload.
    unsafe { std::ptr::copy_nonoverlapping(payload.as_ptr(), black_box(to.as_mut_ptr()).cast(), payload.len()) };
    black_box(&to);
    0
}

// The best of several rounds, in nanoseconds a payload.
fn time(f: fn(&[u8]) -> u16, payloads: &[u8], length: usize) -> f64 {
    let mut best = f64::MAX;
    for _ in 0..40 {
        let start = Instant::now();
        for payload in payloads.chunks_exact(length) {
            black_box(f(black_box(payload)));
        }
        let spent = start.elapsed().as_nanos() as f64 / (payloads.len() / length) as f64;
        best = best.min(spent);
    }
    best
}

fn main() {
    // 256 KiB from a fixed generator, so that every run sees the same bytes.
    let mut x = 1u64;
    let bytes: Vec<u8> = (0..1 << 18)
        .map(|_| {
            x = x.wrapping_mul(6364136223846793005).wrapping_add(1442695040888963407);
            (x >> 56) as u8
        })
        .collect();
    for length in 0..1100 {
        assert_eq!(proved(&bytes[..length]), by_table(&bytes[..length]), "length {length}");
    }
    let setup = [0x2Du8, 0x00, 0x10];
    assert_eq!(unsafe { pivotspark_check(setup.as_ptr(), setup.len()) }, 0x2D);
    // Cut short: 256 times the reason, a wrong length.
    assert_eq!(unsafe { pivotspark_check(setup.as_ptr(), 2) }, 0x300);
    println!("bytes  crc16 ns  table ns  memcpy ns  table/crc16  crc16/memcpy");
    for length in [512, 8, 1, 7, 13, 31, 64] {
        let ours = time(proved, &bytes, length);
        let table = time(by_table, &bytes, length);
        let memcpy = time(copied, &bytes, length);
        println!("{:5}  {ours:8.2}  {table:8.2}  {memcpy:9.2}  {:11.2}  {:12.2}", length, table / ours, ours / memcpy);
    }
}
