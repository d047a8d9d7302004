//! The Rust original behind one function: open a section, then ask for ids.
//! What it prints is captured, what it panics with is told apart.
use crate::table::{is_big, to_bytes};
use std::cell::RefCell;
use std::panic::{catch_unwind, AssertUnwindSafe};
use std::sync::{Arc, Mutex};

/// How a call of `dump_type` ended.
#[derive(Clone, Debug, PartialEq)]
pub enum End {
    Done,
    /// 13 and 14 by its errors, 15 and 16 by its panics, 12 by the counters of the counted copy
    Refused(u32),
    /// the step budget of the counted copy is used up
    Budget,
    /// anything that no rule foresees
    Strange(String),
}

/// What one call printed, and how it ended.
#[derive(Clone, Debug, PartialEq)]
pub struct Said {
    pub bytes: Vec<u8>,
    pub end: End,
}

thread_local! {
    static PANIC: RefCell<String> = const { RefCell::new(String::new()) };
}

/// Keeps the message of a panic instead of printing it.
pub fn keep_panics() {
    std::panic::set_hook(Box::new(|info| {
        let text = match (info.payload().downcast_ref::<&str>(), info.payload().downcast_ref::<String>()) {
            (Some(s), _) => s.to_string(),
            (_, Some(s)) => s.clone(),
            _ => "panic without a message".into(),
        };
        PANIC.with(|p| *p.borrow_mut() = text);
    }));
}

fn error_end(text: String) -> End {
    if text.starts_with("Unsatisfiable type cycle") {
        End::Refused(13)
    } else if text.starts_with("unexpected nameless definition") {
        End::Refused(14)
    } else {
        End::Strange(text)
    }
}

fn panic_end(payload: Box<dyn std::any::Any + Send>) -> End {
    match payload.downcast_ref::<counted::counted::Left>() {
        Some(counted::counted::Left::Deep) => return End::Refused(12),
        Some(counted::counted::Left::Budget) => return End::Budget,
        None => {}
    }
    let text = PANIC.with(|p| p.borrow().clone());
    if text.contains("divisor of zero") {
        End::Refused(15)
    } else if text.contains("with overflow") {
        End::Refused(16)
    } else {
        End::Strange(text)
    }
}

/// A 32-bit ELF file with the section as its `.BTF`, in the section's order of
/// bytes: through it the Rust finds pointer size 4.
pub fn elf32(section: &[u8]) -> Vec<u8> {
    let big = is_big(section);
    let half = |h: u16| if big { h.to_be_bytes() } else { h.to_le_bytes() };
    let names = b"\0.BTF\0.shstrtab\0";
    let btf_at = 52u32;
    let names_at = btf_at + section.len() as u32;
    let headers_at = (names_at + names.len() as u32 + 3) & !3;
    let mut out = vec![0x7f, b'E', b'L', b'F', 1, 1 + big as u8, 1, 0, 0, 0, 0, 0, 0, 0, 0, 0];
    for h in [1, if big { 8 } else { 3 }] {
        out.extend_from_slice(&half(h)); // relocatable file, MIPS or 386
    }
    for w in [1, 0, 0, headers_at, 0] {
        out.extend_from_slice(&to_bytes(w, big)); // version, entry, no program headers, section headers, flags
    }
    for h in [52, 0, 0, 40, 3, 2] {
        out.extend_from_slice(&half(h));
    }
    out.extend_from_slice(section);
    out.extend_from_slice(names);
    out.resize(headers_at as usize, 0);
    let mut header = |name: u32, kind: u32, at: u32, len: u32| {
        for w in [name, kind, 0, 0, at, len, 0, 0, 1, 0] {
            out.extend_from_slice(&to_bytes(w, big));
        }
    };
    header(0, 0, 0, 0);
    header(1, 1, btf_at, section.len() as u32);
    header(6, 3, names_at, names.len() as u32);
    out
}

macro_rules! side {
    ($side:ident, $original:ident) => {
        pub mod $side {
            use super::*;
            use $original::c_dumper::{CDumper, CDumperCfg};
            use $original::types::Btf;

            /// Opens the section and hands `body` a function that asks for one
            /// id. The error is why the Rust does not open it.
            pub fn run<R>(
                section: &[u8],
                pointer_size: u32,
                union_as_struct: bool,
                body: impl FnOnce(&mut dyn FnMut(u32) -> Said) -> R,
            ) -> Result<R, String> {
                let file = if pointer_size == 4 { elf32(section) } else { vec![] };
                let loaded = catch_unwind(AssertUnwindSafe(|| {
                    if pointer_size == 4 {
                        let elf = object::File::parse(file.as_slice()).expect("the wrapper is an ELF file");
                        Btf::load_elf(&elf).map_err(|e| e.to_string())
                    } else {
                        Btf::load_raw(section).map_err(|e| e.to_string())
                    }
                }));
                let btf = match loaded {
                    Ok(r) => r?,
                    Err(_) => return Err(PANIC.with(|p| p.borrow().clone())),
                };
                assert!(btf.ptr_sz() == pointer_size);
                let mut dumper = CDumper::new(&btf, CDumperCfg { verbose: false, union_as_struct });
                let out = Arc::new(Mutex::new(Vec::new()));
                let mut ask = |id: u32| {
                    std::io::set_output_capture(Some(out.clone()));
                    let end = catch_unwind(AssertUnwindSafe(|| dumper.dump_type(id).map_err(|e| e.to_string())));
                    std::io::set_output_capture(None);
                    let bytes = match out.lock() {
                        Ok(mut v) => std::mem::take(&mut *v),
                        Err(poisoned) => std::mem::take(&mut *poisoned.into_inner()),
                    };
                    let end = match end {
                        Ok(Ok(())) => End::Done,
                        Ok(Err(text)) => error_end(text),
                        Err(payload) => panic_end(payload),
                    };
                    Said { bytes, end }
                };
                Ok(body(&mut ask))
            }
        }
    };
}

side!(plain, btfdump);
side!(with_counters, counted);
