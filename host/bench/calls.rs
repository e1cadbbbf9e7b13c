//! The library's calls on a take, and the copy that each is measured against. They have no named manner, so that earlier
//! builds have them too: those read in the lenient manner, which gives the same for these takes.
use std::hint::black_box;

use crate::takes::Material;

#[path = "../src/header.rs"]
mod header;

#[derive(Clone, Copy, PartialEq)]
#[repr(u32)]
pub enum Call {
    Open,
    Export,
    Join,
    Build,
    Fetches,
}

impl Call {
    /// Those that are measured with every take.
    pub const ALL: [Call; 4] = [Call::Open, Call::Export, Call::Join, Call::Build];

    pub fn name(self) -> &'static str {
        match self {
            Call::Open => "open",
            Call::Export => "export",
            Call::Join => "join",
            Call::Build => "build",
            Call::Fetches => "property frames by number",
        }
    }

    pub fn run(self, material: &Material, out: &mut [u8]) {
        match self {
            Call::Open => open(&material.file, out),
            Call::Export => drop(black_box(vmd::export_into(&material.file, out).unwrap())),
            Call::Join => {
                let (first, second) = material.halves();
                black_box(vmd::join_into(first, second, out).unwrap());
            }
            Call::Build => drop(black_box(material.parts().build_into(out).unwrap())),
            Call::Fetches => fetch(&material.file, material.columns.property_count, out),
        }
        black_box(out);
    }

    /// Copies the bytes that the call reads or, for building, the file that it writes.
    pub fn copy(self, material: &Material, out: &mut [u8]) {
        let bytes = match self {
            Call::Join => &material.halves,
            Call::Open | Call::Export | Call::Build | Call::Fetches => &material.file,
        };
        out[..bytes.len()].copy_from_slice(bytes);
        black_box(out);
    }
}

/// The library's own call, with the output as its scratch: `Take::open` tries a shorter one first, which takes time too. It
/// is long enough for a place for each property frame, which earlier builds need: a frame has 9 bytes and its place 8.
fn open(file: &[u8], out: &mut [u8]) {
    let (mut counts, mut places, mut totals) = ([0; 6], [0; 6], [0; 3]);
    // SAFETY: any bytes are numbers, and `out` is borrowed by this call alone; the arrays are this function's own. A build
    // from before the smallest frame writes two of the totals.
    let number = unsafe {
        let (_, scratch, _) = out.align_to_mut();
        header::vmd_parse_animation(
            file.as_ptr(),
            file.len(),
            scratch.as_mut_ptr(),
            scratch.len(),
            &mut counts,
            &mut places,
            &mut totals,
        )
    };
    assert_eq!(number, 0);
    black_box((counts, places, totals));
}

/// Every property frame by its number, by the library's own call: earlier builds need a longer scratch than `Take` keeps. It
/// is what opening the file by the same build has left in the output.
fn fetch(file: &[u8], frames: usize, out: &[u8]) {
    let (counts, places) = ([0, 0, 0, 0, 0, frames as u32], [0; 6]);
    for i in 0..frames {
        let mut record = [0; 3];
        // SAFETY: any bytes are numbers; the arrays are this function's own.
        let number = unsafe {
            let (_, scratch, _) = out.align_to();
            header::vmd_property_frame(
                file.as_ptr(),
                file.len(),
                &counts,
                &places,
                scratch.as_ptr(),
                scratch.len(),
                i,
                &mut record,
            )
        };
        assert_eq!(number, 0);
        black_box(record);
    }
}
