//! Our library through its C exports.
#![cfg_attr(not(feature = "ours"), allow(dead_code))]

pub const RECORD: usize = 128;

#[cfg(feature = "ours")]
mod linked {
    extern "C" {
        pub fn btfdump_open(
            record: *mut u8, record_len: usize, section: *const u8, section_len: usize,
            pointer_size: u32, modes: u32, work: *mut u8, work_len: usize, text: *mut u8, text_len: usize,
        ) -> u64;
        pub fn btfdump_dump_type(
            record: *mut u8, record_len: usize, section: *const u8, section_len: usize,
            work: *mut u8, work_len: usize, text: *mut u8, text_len: usize, id: u32,
        ) -> u64;
        pub fn btfdump_dump_types(
            record: *mut u8, record_len: usize, section: *const u8, section_len: usize,
            work: *mut u8, work_len: usize, text: *mut u8, text_len: usize,
        ) -> u64;
    }
}

/// number and value
#[derive(Clone, Copy, Debug, PartialEq)]
pub struct Answer {
    pub number: u32,
    pub value: u32,
}

#[cfg(feature = "ours")]
fn answer(a: u64) -> Answer {
    Answer { number: (a >> 32) as u32, value: a as u32 }
}

pub fn linked() -> bool {
    cfg!(feature = "ours")
}

#[cfg(feature = "ours")]
pub fn open(record: &mut [u8], section: &[u8], pointer_size: u32, modes: u32, work: &mut [u8], text: &mut [u8]) -> Answer {
    answer(unsafe {
        linked::btfdump_open(
            record.as_mut_ptr(), record.len(), section.as_ptr(), section.len(), pointer_size, modes,
            work.as_mut_ptr(), work.len(), text.as_mut_ptr(), text.len(),
        )
    })
}

#[cfg(feature = "ours")]
pub fn one(record: &mut [u8], section: &[u8], work: &mut [u8], text: &mut [u8], id: u32) -> Answer {
    answer(unsafe {
        linked::btfdump_dump_type(
            record.as_mut_ptr(), record.len(), section.as_ptr(), section.len(),
            work.as_mut_ptr(), work.len(), text.as_mut_ptr(), text.len(), id,
        )
    })
}

#[cfg(feature = "ours")]
pub fn all(record: &mut [u8], section: &[u8], work: &mut [u8], text: &mut [u8]) -> Answer {
    answer(unsafe {
        linked::btfdump_dump_types(
            record.as_mut_ptr(), record.len(), section.as_ptr(), section.len(),
            work.as_mut_ptr(), work.len(), text.as_mut_ptr(), text.len(),
        )
    })
}

#[cfg(not(feature = "ours"))]
pub fn open(_: &mut [u8], _: &[u8], _: u32, _: u32, _: &mut [u8], _: &mut [u8]) -> Answer {
    unreachable!("built without our library")
}

#[cfg(not(feature = "ours"))]
pub fn one(_: &mut [u8], _: &[u8], _: &mut [u8], _: &mut [u8], _: u32) -> Answer {
    unreachable!("built without our library")
}

#[cfg(not(feature = "ours"))]
pub fn all(_: &mut [u8], _: &[u8], _: &mut [u8], _: &mut [u8]) -> Answer {
    unreachable!("built without our library")
}
