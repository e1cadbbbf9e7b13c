//! The calls over one build of the library, as a shared object that `./bench --against` loads beside that of another.
#![allow(dead_code)] // the program uses the rest

mod calls;
mod takes;

/// The program and the shared objects are made of the same files by the same compiler, so that a take is the same to them.
#[unsafe(no_mangle)]
pub fn run_call(call: calls::Call, material: &takes::Material, out: &mut [u8]) {
    call.run(material, out);
}

/// Of a library that has excerpts: the names of the calls are not there in one from before them.
#[cfg(feature = "excerpt")]
#[unsafe(no_mangle)]
pub fn run_excerpt(file: &[u8], [first, last]: [u32; 2], out: &mut [u8]) {
    std::hint::black_box(vmd::excerpt_into(file, first, last, out).unwrap());
}
