//! Reads an integer in hexadecimal and writes it again in its shortest form, through the C interface.
//!
//!     tools/archive
//!     rustc -O examples/integer.rs -C link-arg=target/native/libexports.a -o target/integer
//!     target/integer 40 25

extern "C" {
    fn moq_integer_read(s: *const u8, s_len: usize, info: *mut u64, info_len: usize) -> u64;
    fn moq_integer_write(n: u64, out: *mut u8, out_len: usize, info: *mut u64, info_len: usize) -> u64;
}

/// The number and the bytes used, or the number that is answered.
fn read(s: &[u8]) -> Result<(u64, u64), u64> {
    let mut info = [0; 2];
    // Each pointer and count is that of one slice, and the slices are apart.
    match unsafe { moq_integer_read(s.as_ptr(), s.len(), info.as_mut_ptr(), info.len()) } {
        0 => Ok((info[0], info[1])),
        number => Err(number),
    }
}

/// The shortest form, or the number that is answered.
fn write(n: u64) -> Result<Vec<u8>, u64> {
    let mut out = vec![0; 8];
    let mut info = [0; 1];
    match unsafe { moq_integer_write(n, out.as_mut_ptr(), out.len(), info.as_mut_ptr(), info.len()) } {
        0 => {
            out.truncate(info[0] as usize);
            Ok(out)
        }
        number => Err(number),
    }
}

fn main() {
    let digits: String = std::env::args().skip(1).collect();
    let bytes: Option<Vec<u8>> = digits
        .as_bytes()
        .chunks(2)
        .map(|pair| u8::from_str_radix(std::str::from_utf8(pair).ok()?, 16).ok())
        .collect();
    let Some(bytes) = bytes else {
        eprintln!("integer: {digits} is not hexadecimal");
        return;
    };
    match read(&bytes) {
        Ok((n, used)) => println!("0 {n} {used} {:02x?}", write(n)),
        Err(number) => println!("{number}"),
    }
}
