//! The takes in the repository's folder `examples` are what their maker writes.
use std::fs;
use std::path::Path;

use vmd::Take;

#[path = "../examples/make_examples.rs"]
mod make_examples;

#[test]
fn the_examples_are_what_their_maker_writes() {
    let folder = Path::new(env!("CARGO_MANIFEST_DIR")).join("../examples");
    let takes = make_examples::takes().unwrap();
    let mut names: Vec<_> = fs::read_dir(&folder).unwrap().map(|entry| entry.unwrap().file_name()).collect();
    names.sort();
    let mut expected: Vec<_> = takes.iter().map(|(name, _)| *name).collect();
    expected.sort();
    assert_eq!(names, expected);
    for (name, file) in takes {
        assert!(fs::read(folder.join(name)).unwrap() == file, "{name} is another: run 'cargo run --example make_examples'");
    }
}

fn named<'t>(takes: &'t [(&str, Vec<u8>)], name: &str) -> &'t [u8] {
    &takes.iter().find(|(of, _)| *of == name).unwrap().1
}

/// The show again, 10 bytes shorter: saved in the newer edition it is the show.
#[test]
fn the_encore_is_of_the_older_edition() {
    let takes = make_examples::takes().unwrap();
    let (show, encore) = (named(&takes, "show.vmd"), named(&takes, "encore.vmd"));
    assert_eq!(encore[..40], *b"Vocaloid Motion Data file\0\0\0\0\0dancer\0\0\0\0");
    assert_eq!(encore[40..], show[50..]);
    assert_eq!(vmd::export(encore).unwrap(), show);
    assert_eq!(vmd::export_older(encore).unwrap(), encore);
    assert_eq!(Take::open(encore).unwrap().parts().unwrap(), Take::open(show).unwrap().parts().unwrap());
}

#[test]
fn the_leap_switches_the_legs_off() {
    let takes = make_examples::takes().unwrap();
    for name in ["leap.vmd", "show.vmd", "encore.vmd"] {
        let take = Take::open(named(&takes, name)).unwrap();
        let enabled = take
            .property_frames_with_ik_states()
            .map(|(property, states)| (property.frame, states.map(|state| state.enabled).collect::<Vec<_>>()));
        let expected = [(0, [true, true]), (20, [false, true]), (22, [false, false]), (55, [true, true])];
        assert!(enabled.eq(expected.map(|(frame, states)| (frame, states.to_vec()))), "{name}");
    }
}
