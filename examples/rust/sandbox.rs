//! The sandbox of bpf_host for Rust: procedures in BPF byte code (RFC 9669), verified and run over maps. What is safe here
//! keeps what the header asks of C: handles begin empty, are cleared at last, and a call has each of them alone.
//!
//!     let mut procedure = Procedure::verify(&assemble("mov64 r0, 7\nexit")?, Profile::One)?;
//!     let ended = procedure.run(&mut Map::new()?, b"", 16)?;

use std::ffi::c_void;
use std::fmt;
use std::ptr::null_mut;

/// What the library answered where it refused a call: the number that include/bpf_host_sandbox.h names, and the slot of the
/// code or the line of the text, where there is one.
#[derive(Clone, Copy, Debug, PartialEq, Eq)]
pub struct Refused {
    pub status: u32,
    pub at: Option<u32>,
}

impl Refused {
    pub const MEMORY: u32 = 21;
    pub const BUFFER_TOO_SHORT: u32 = 35;
}

impl fmt::Display for Refused {
    fn fmt(&self, f: &mut fmt::Formatter<'_>) -> fmt::Result {
        match self.at {
            Some(at) => write!(f, "refused with status {} at {at}", self.status),
            None => write!(f, "refused with status {}", self.status),
        }
    }
}

impl std::error::Error for Refused {}

/// How much the verifier follows.
#[derive(Clone, Copy, Debug, PartialEq, Eq)]
pub enum Profile {
    One = 1,
    Two = 2,
}

/// How a call ended.
#[derive(Clone, Debug, PartialEq, Eq)]
pub struct Ended {
    pub value: u64,
    pub steps: u32,
    pub output: Vec<u8>,
}

#[repr(C)]
struct Handle {
    at: *mut c_void,
    is_full: bool,
}

#[repr(C)]
#[derive(Default)]
struct RawVerdict {
    bound: u32,
    slot: u32,
}

#[repr(C)]
#[derive(Default)]
struct RawEnded {
    value: u64,
    steps: u32,
    length: u32,
}

// As include/bpf_host_sandbox.h declares them.
unsafe extern "C" {
    fn bpfh_verify(code: *const u8, length: usize, profile: u8, procedure: *mut Handle, verdict: *mut RawVerdict) -> u32;
    fn bpfh_run(
        procedure: *mut Handle,
        map: *mut Handle,
        client: u32,
        args: *const u8,
        args_length: usize,
        out: *mut u8,
        out_length: usize,
        ended: *mut RawEnded,
    ) -> u32;
    fn bpfh_map_new(map: *mut Handle) -> u32;
    fn bpfh_map_get(map: *mut Handle, key: *const u8, key_length: usize, value: *mut u8, value_length: usize) -> u32;
    fn bpfh_map_put(map: *mut Handle, key: *const u8, key_length: usize, value: *const u8, value_length: usize) -> u32;
    fn bpfh_map_del(map: *mut Handle, key: *const u8, key_length: usize) -> u32;
    fn bpfh_map_next(map: *mut Handle, key: *const u8, key_length: usize, next: *mut u8, next_length: usize) -> u32;
    fn bpfh_map_len(map: *mut Handle, count: *mut u64) -> u32;
    fn bpfh_clear(handle: *mut Handle);
    fn bpfh_explain(code: *const u8, length: usize, profile: u8, text: *mut u8, text_length: usize, told: *mut u64) -> u32;
    fn bpfh_disassemble(code: *const u8, length: usize, text: *mut u8, text_length: usize, told: *mut u64, slot: *mut u32) -> u32;
    fn bpfh_assemble(text: *const u8, length: usize, code: *mut u8, code_length: usize, told: *mut u64, line: *mut u32) -> u32;
}

/// Nothing, or an error of this status.
fn check(status: u32) -> Result<(), Refused> {
    match status {
        0 => Ok(()),
        status => Err(Refused { status, at: None }),
    }
}

impl Handle {
    const EMPTY: Handle = Handle { at: null_mut(), is_full: false };
}

impl Drop for Handle {
    fn drop(&mut self) {
        // SAFETY: no call has the handle, which began empty and which only the library has changed.
        unsafe { bpfh_clear(self) }
    }
}

// SAFETY: what is inside is the library's own, and it is proved that a handle may go to another thread. Only one that is
// borrowed mutably, or owned, reaches a call.
unsafe impl Send for Handle {}

/// Code that was accepted.
pub struct Procedure {
    handle: Handle,
    bound: u32,
}

impl Procedure {
    /// Verifies code. A refusal has the number of its first fault, and the slot.
    pub fn verify(code: &[u8], profile: Profile) -> Result<Procedure, Refused> {
        let (mut handle, mut verdict) = (Handle::EMPTY, RawVerdict::default());
        // SAFETY: the slice, the handle and the verdict live, apart, during the call.
        match unsafe { bpfh_verify(code.as_ptr(), code.len(), profile as u8, &mut handle, &mut verdict) } {
            0 => Ok(Procedure { handle, bound: verdict.bound }),
            status if status < Refused::MEMORY => Err(Refused { status, at: Some(verdict.slot) }),
            status => Err(Refused { status, at: None }),
        }
    }

    /// The most steps that a call takes.
    pub fn bound(&self) -> u32 {
        self.bound
    }

    /// Runs it over a map, called by a client with at most 256 bytes of arguments. Where memory runs out for a new entry the map
    /// is as it was just before that.
    pub fn run(&mut self, map: &mut Map, args: &[u8], client: u32) -> Result<Ended, Refused> {
        let (mut out, mut ended) = ([0; 256], RawEnded::default());
        // SAFETY: two handles that are borrowed mutably, a slice and two locals, all apart.
        check(unsafe {
            bpfh_run(
                &mut self.handle,
                &mut map.handle,
                client,
                args.as_ptr(),
                args.len(),
                out.as_mut_ptr(),
                out.len(),
                &mut ended,
            )
        })?;
        Ok(Ended { value: ended.value, steps: ended.steps, output: out[..ended.length as usize].to_vec() })
    }
}

/// At most 4,096 entries, in the order of the keys' bytes.
pub struct Map {
    handle: Handle,
}

impl Map {
    /// A map with no entries. The error is that memory ran out.
    pub fn new() -> Result<Map, Refused> {
        let mut handle = Handle::EMPTY;
        // SAFETY: an empty handle.
        check(unsafe { bpfh_map_new(&mut handle) })?;
        Ok(Map { handle })
    }

    /// The value at a key.
    pub fn get(&mut self, key: &[u8; 16]) -> Option<[u8; 32]> {
        let mut value = [0; 32];
        // SAFETY: arrays of these lengths, and a handle that is borrowed mutably.
        let status = unsafe { bpfh_map_get(&mut self.handle, key.as_ptr(), 16, value.as_mut_ptr(), 32) };
        (status == 0).then_some(value)
    }

    /// Writes the value at a key. Refused, with the map as it was, where it is full or memory ran out.
    pub fn put(&mut self, key: &[u8; 16], value: &[u8; 32]) -> Result<(), Refused> {
        // SAFETY: as above.
        check(unsafe { bpfh_map_put(&mut self.handle, key.as_ptr(), 16, value.as_ptr(), 32) })
    }

    /// Takes out the entry of a key, and says whether there was one.
    pub fn remove(&mut self, key: &[u8; 16]) -> bool {
        // SAFETY: as above.
        unsafe { bpfh_map_del(&mut self.handle, key.as_ptr(), 16) == 0 }
    }

    /// The least key above this one.
    pub fn next(&mut self, key: &[u8; 16]) -> Option<[u8; 16]> {
        let mut next = [0; 16];
        // SAFETY: as above.
        let status = unsafe { bpfh_map_next(&mut self.handle, key.as_ptr(), 16, next.as_mut_ptr(), 16) };
        (status == 0).then_some(next)
    }

    /// The number of entries.
    pub fn len(&mut self) -> u64 {
        let mut count = 0;
        // SAFETY: as above. The handle holds a map, so that the count is written.
        unsafe { bpfh_map_len(&mut self.handle, &mut count) };
        count
    }

    /// Whether there are none.
    pub fn is_empty(&mut self) -> bool {
        self.len() == 0
    }
}

/// What a call writes into a buffer, asked again with a longer one where the first is too short.
fn told(mut call: impl FnMut(&mut [u8], &mut u64, &mut u32) -> u32) -> Result<Vec<u8>, Refused> {
    let (mut length, mut at) = (512, 0);
    loop {
        let mut buffer = vec![0; length as usize];
        match call(&mut buffer, &mut length, &mut at) {
            0 => {
                buffer.truncate(length as usize);
                return Ok(buffer);
            }
            Refused::BUFFER_TOO_SHORT => {}
            Refused::MEMORY => return Err(Refused { status: Refused::MEMORY, at: None }),
            status => return Err(Refused { status, at: Some(at) }),
        }
    }
}

/// Why a profile refuses code, as a sentence; empty where it is accepted.
pub fn explain(code: &[u8], profile: Profile) -> Result<String, Refused> {
    // SAFETY: the slices and the number live, apart, during the call.
    let text = told(|text, length, _| unsafe {
        bpfh_explain(code.as_ptr(), code.len(), profile as u8, text.as_mut_ptr(), text.len(), length)
    })?;
    Ok(String::from_utf8_lossy(&text).into_owned())
}

/// The text of code, a line for each instruction. A refusal has the slot of the first fault.
pub fn disassemble(code: &[u8]) -> Result<String, Refused> {
    // SAFETY: as above.
    let text = told(|text, length, slot| unsafe {
        bpfh_disassemble(code.as_ptr(), code.len(), text.as_mut_ptr(), text.len(), length, slot)
    })?;
    Ok(String::from_utf8_lossy(&text).into_owned())
}

/// The code of an assembler text. A refusal has the line of the first fault.
pub fn assemble(text: &str) -> Result<Vec<u8>, Refused> {
    // SAFETY: as above.
    told(|code, length, line| unsafe {
        bpfh_assemble(text.as_ptr(), text.len(), code.as_mut_ptr(), code.len(), length, line)
    })
}
