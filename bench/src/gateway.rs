//! The gateway's own first look, linked as a library.

use crate::input::Input;

mod library {
    unsafe extern "C" {
        pub fn first_look(
            file: *const u8,
            file_len: usize,
            alc: *const u8,
            alc_len: usize,
            office: *const u8,
            office_len: usize,
            symbol: *const u8,
            symbol_len: usize,
            unit: *const u8,
            unit_len: usize,
            map: *const u8,
            map_len: usize,
            day: u32,
            packet: *mut u8,
            packet_len: usize,
        ) -> u64;
    }
}

pub fn first_look(input: &Input, packet: &mut [u8]) -> u64 {
    let texts = &input.texts;
    // SAFETY: each pointer comes with the length of the slice that it was taken from. The library
    // reads the texts, writes the packet buffer alone, and keeps none of them.
    unsafe {
        library::first_look(
            input.file.as_ptr(),
            input.file.len(),
            texts.agencies.as_ptr(),
            texts.agencies.len(),
            texts.offices.as_ptr(),
            texts.offices.len(),
            texts.symbols.as_ptr(),
            texts.symbols.len(),
            texts.units.as_ptr(),
            texts.units.len(),
            texts.accounts.as_ptr(),
            texts.accounts.len(),
            input.day,
            packet.as_mut_ptr(),
            packet.len(),
        )
    }
}
