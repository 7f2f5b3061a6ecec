// A host in Rust: says how many lines the payload on standard input has, or why it is refused.
//
//     (cd crates/capi && rt lib)
//     rustc examples/rust/main.rs -L crates/capi/out -o target/host_in_rust

use std::io::{self, Read};
use std::process::ExitCode;

#[link(name = "capi", kind = "static")]
unsafe extern "C" {
    fn qrbill_read(payload: *const u8, length: usize) -> u32;
}

const ROOM: u64 = 998; // one byte more than a payload may have, so that a longer one is told

fn main() -> io::Result<ExitCode> {
    let mut payload = Vec::new();
    io::stdin().take(ROOM).read_to_end(&mut payload)?;
    // The bytes are only read, and the pointer of a Vec is never null.
    let answer = unsafe { qrbill_read(payload.as_ptr(), payload.len()) };
    if answer >= 1000 {
        println!("refused {} line {}", answer / 1000, answer % 1000);
        return Ok(ExitCode::FAILURE);
    }
    println!("accepted {answer} lines");
    Ok(ExitCode::SUCCESS)
}
