//! The sandbox from Rust: a procedure that counts its calls, run over two maps by two threads, and code that is refused.
//!
//!     tools/c-library
//!     rustc --edition 2021 examples/rust/main.rs -C link-arg=out/c-library/libbpf_host_sandbox.a && ./main

mod sandbox;

use sandbox::{assemble, disassemble, explain, Map, Procedure, Profile, Refused};

/// Adds 1 to the number at the key of zeros, and returns it.
const COUNT: &str = "
    stdw [r10-16], 0
    stdw [r10-8], 0
    mov64 r1, r10
    add64 r1, -16
    mov64 r2, r10
    add64 r2, -48
    call 1           ; get
    ldxdw r7, [r10-48]
    add64 r7, 1
    stxdw [r10-48], r7
    mov64 r1, r10
    add64 r1, -16
    mov64 r2, r10
    add64 r2, -48
    call 2           ; put
    mov64 r0, r7
    exit";

/// Calls the procedure so often over a map of its own, and returns the last count.
fn count(mut procedure: Procedure, calls: u64) -> Result<u64, Refused> {
    let mut map = Map::new()?;
    let mut last = 0;
    for _ in 0..calls {
        last = procedure.run(&mut map, b"", 16)?.value;
    }
    let value = map.get(&[0; 16]).unwrap_or_default();
    assert_eq!(value[..8], last.to_le_bytes());
    assert_eq!((map.len(), map.is_empty(), map.next(&[0; 16])), (1, false, None));
    assert!(map.remove(&[0; 16]) && !map.remove(&[0; 16]));
    map.put(&[1; 16], &[2; 32])?;
    assert_eq!(map.next(&[0; 16]), Some([1; 16]));
    Ok(last)
}

fn main() -> Result<(), Box<dyn std::error::Error>> {
    let code = assemble(COUNT)?;
    let procedures = [Procedure::verify(&code, Profile::One)?, Procedure::verify(&code, Profile::Two)?];
    println!("accepted: at most {} steps", procedures[0].bound());
    let threads = procedures.into_iter().zip([1000, 2000]).map(|(it, calls)| std::thread::spawn(move || count(it, calls)));
    for thread in threads.collect::<Vec<_>>() {
        println!("counted {}", thread.join().expect("no panic")?);
    }
    let back = disassemble(&code)?;
    println!("disassembled to {} lines, which assemble to the same: {}", back.lines().count(), assemble(&back)? == code);
    let loops = assemble("ja -1\nexit")?;
    if let Err(refused) = Procedure::verify(&loops, Profile::One) {
        println!("{refused}: {}", explain(&loops, Profile::One)?);
    }
    println!("{}", assemble("exit\nmov9 r0, 1").unwrap_err());
    Ok(())
}
