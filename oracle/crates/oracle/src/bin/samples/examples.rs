//! Examples for the checker to compute: files, joins and parts, each with the original's answer. One example is one
//! theorem, so that a wrong one is named.

use crate::antt::{self, atom, number, Known, Module};
use crate::base;
use oracle::files::{self, MAGIC, SIZES};
use oracle::original::{self, VmdParsedAnimation};
use oracle::part_sets::{self, add_fault, Fault, FAULTS, NOT_WHOLE, PLACES};
use oracle::parts::Parts;
use oracle::random::Random;
use std::path::Path;

const SEED: u64 = 91;
const SECTIONS: [&str; 6] = ["bones", "morphs", "cameras", "lights", "self_shadows", "properties"];

pub fn write(folder: &Path) {
    let (said, known) = said();
    let modules =
        [said, headers(&known), cuts(&known), counts(&known), flags(&known), takes(&known), joins(&known), builds(&known)];
    let specs = folder.join("specs");
    std::fs::create_dir_all(&specs).expect("the folder is made");
    let mut lib = String::new();
    for module in &modules {
        std::fs::write(specs.join(format!("{}.antt", module.name)), module.text()).expect("a module is written");
        lib += &format!("pub mod {}\n", module.name);
        println!("{}/{}.antt: {} examples", specs.display(), module.name, module.examples);
    }
    std::fs::write(specs.join("Lib.antt"), lib).expect("the root is written");
}

// ---- what the examples say

const DEFINITIONS: &str = "\
-- the file is refused with this number
abbrev pub refuses : List ℕ → ℕ → Bool
refuses s n = declines (export_file lenient s) n

-- the file is exported as these bytes
abbrev pub exports : List ℕ → List ℕ → Bool
exports s t = same (bytes_of (export_file lenient s)) t

abbrev figures_of : Answer Take → List ℕ
figures_of (declined k) = []
figures_of (given t) =
    length t.bones ∷ length t.morphs ∷ length t.cameras ∷ length t.lights ∷ length t.self_shadows ∷ length t.properties
    ∷ ik_total t.properties ∷ smallest_frame t ∷ largest_frame t ∷ []

-- the file has these six counts, IK states, smallest and largest frame
abbrev pub figures : List ℕ → List ℕ → Bool
figures s l = same (figures_of (read_take lenient s)) l

-- the join is refused with this number, or written as these bytes
abbrev pub join_refuses : List ℕ → List ℕ → ℕ → Bool
join_refuses s t n = declines (join_files lenient s t) n

abbrev pub joins : List ℕ → List ℕ → List ℕ → Bool
joins s t u = same (bytes_of (join_files lenient s t)) u

-- the builder's parameters in their order
abbrev pub parts : List ℕ → List ℕ → List ℕ → List ℕ → List ℕ → List ℕ → List ℕ → List ℕ → List ℕ → List ℕ → List ℕ → List ℕ → List ℕ → List ℕ → List ℕ → List ℕ → List ℕ → Parts
parts m bs be ms me c l s p bi bf bt br bn mi mf mw = record {
  model = m;
  bone_names = record { bytes = bs; ends = be };
  morph_names = record { bytes = ms; ends = me };
  cameras = c;
  lights = l;
  self_shadows = s;
  properties = p;
  bone_name_indices = bi;
  bone_frames = bf;
  bone_translations = bt;
  bone_rotations = br;
  bone_interpolations = bn;
  morph_name_indices = mi;
  morph_frames = mf;
  morph_weights = mw;
}

-- building is refused with this number, or writes these bytes
abbrev pub build_refuses : Parts → ℕ → Bool
build_refuses p n = declines (build p) n

abbrev pub builds : Parts → List ℕ → Bool
builds p t = same (bytes_of (build p)) t";

fn said() -> (Module, Known) {
    let mut module = Module::new("Said", "What the examples say, and the files that they are made of.");
    let mut known = Known::default();
    module.say(DEFINITIONS);
    let (six, boundaries) = (base::six(), base::six_pieces().boundaries());
    let six_out = original::export_file(&six).expect("six is accepted");
    let in_lines = |file: &[u8]| antt::lines(&base::in_pieces(file, &boundaries));
    module.define_said("the first 26 bytes", "magic", &antt::bytes(MAGIC));
    known.add("magic", MAGIC);
    module.define_said("the empty take, 74 bytes", "empty", &known.bytes(&base::empty()));
    known.add("empty", &base::empty());
    module.define_said(
        "a take of six sections: special floats, bytes after its names, flags other than 0 and 1",
        "six",
        &in_lines(&six),
    );
    known.add("six", &six);
    module.define_said("its export", "six_out", &in_lines(&six_out));
    known.add("six_out", &six_out);
    (module, known)
}

// ---- files

fn figures(take: &VmdParsedAnimation) -> Vec<u32> {
    let counts = &take.metadata.counts;
    let ik_states = take.property_frames.iter().map(|frame| frame.ik_states.len()).sum();
    let numbers = [counts.bones, counts.morphs, counts.cameras, counts.lights, counts.self_shadows, counts.properties, ik_states];
    let frames = [original::smallest_frame(take), take.metadata.max_frame];
    numbers.into_iter().map(|count| count as u32).chain(frames).collect()
}

/// The file's refusal, or its export and figures.
fn add_file(module: &mut Module, known: &Known, name: &str, file: &[u8]) {
    let text = atom(&known.bytes(file));
    match original::read(file) {
        Err(refusal) => module.holds(name, &format!("refuses {text} {refusal}")),
        Ok(take) => {
            let exported = atom(&known.bytes(&original::export(&take)));
            let numbers = figures(&take).into_iter().map(|n| number(n) + " ∷ ").collect::<String>();
            module.holds(name, &format!("exports {text} {exported} && figures {text} ({numbers}[])"));
        }
    }
}

fn headers(known: &Known) -> Module {
    let mut module =
        Module::new("Headers", "Document 01's takes, every prefix of the empty take, and every byte of its header changed.");
    for (i, file) in files::takes_of_document_01().iter().enumerate() {
        add_file(&mut module, known, &format!("take_{i}"), file);
    }
    for (len, file) in files::prefixes(&base::empty()).enumerate() {
        add_file(&mut module, known, &format!("prefix_{len}"), &file);
    }
    for at in 0..50 {
        let mut file = base::empty();
        file[at] ^= 0x21;
        add_file(&mut module, known, &format!("header_{at}"), &file);
        if at < 31 && at % 5 == 0 {
            add_file(&mut module, known, &format!("short_header_{at}"), &file[..30 + at % 20]);
        }
    }
    module
}

/// Every boundary of six, its property frames' and IK states' among them.
fn boundaries_of_six() -> Vec<usize> {
    let pieces = base::six_pieces();
    let mut boundaries = pieces.boundaries();
    let frame = boundaries[13];
    boundaries.extend([frame + 4, frame + 5, frame + 9, frame + 30, frame + 51, frame + 55, frame + 56]);
    boundaries.sort();
    boundaries.dedup();
    boundaries
}

fn cuts(known: &Known) -> Module {
    let mut module =
        Module::new("Cuts", "A take of six sections cut at and beside every boundary, and with bytes after its end.");
    let six = base::six();
    let mut lengths: Vec<usize> = boundaries_of_six().into_iter().flat_map(|at| [at - 1, at, at + 1]).collect();
    lengths.sort();
    lengths.dedup();
    for len in lengths.into_iter().filter(|&len| len <= six.len()) {
        add_file(&mut module, known, &format!("cut_{len}"), &six[..len]);
    }
    for over in 1..6u8 {
        let file = [six.clone(), (1..=over).collect()].concat();
        add_file(&mut module, known, &format!("over_{over}"), &file);
    }
    module
}

fn counts(known: &Known) -> Module {
    let mut module =
        Module::new("Counts", "Counts of every section that fit, that are one too large, and that are huge; and IK counts.");
    for (section, label) in SECTIONS.into_iter().enumerate() {
        for left in [0, SIZES[section] - 1, SIZES[section], 2 * SIZES[section] + 1] {
            for count in [1, 2, 0x7fff_ffff, 0xffff_ffff, wrapping(SIZES[section])] {
                let mut pieces = files::Pieces::empty();
                pieces.sections[section] = files::Section { count, bytes: vec![7; left] };
                let file = pieces.first_sections(section + 1);
                add_file(&mut module, known, &format!("{label}_{count}_in_{left}"), &file);
            }
        }
    }
    let frame = base::six_pieces().boundaries()[13];
    for count in [0, 1, 3, 4, 0x7fff_ffff, 0xffff_ffff, wrapping(21)] {
        let mut file = base::six();
        file[frame + 5..frame + 9].copy_from_slice(&count.to_le_bytes());
        add_file(&mut module, known, &format!("ik_states_{count}"), &file);
    }
    module
}

/// A count whose records come to a few bytes in 32-bit arithmetic.
fn wrapping(size: usize) -> u32 {
    (1u64 << 32).div_ceil(size as u64) as u32
}

fn flags(known: &Known) -> Module {
    let mut module =
        Module::new("Flags", "Every flag of a take of six sections, and its self-shadow's mode, at 0, 1, 2, 128 and 255.");
    for (label, at) in base::flags_of_six() {
        for value in [0, 1, 2, 128, 255] {
            let mut file = base::six();
            file[at] = value;
            add_file(&mut module, known, &format!("{label}_is_{value}"), &file);
        }
    }
    module
}

// ---- takes, field by field

fn fields(names: &[&str], values: &[String]) -> String {
    let pairs: Vec<String> = names.iter().zip(values).map(|(name, value)| format!("{name} = {value}")).collect();
    format!("record {{ {} }}", pairs.join("; "))
}

fn bits(values: &[f32]) -> Vec<String> {
    values.iter().map(|value| number(value.to_bits())).collect()
}

fn records(texts: Vec<String>) -> String {
    texts.into_iter().map(|text| text + " ∷ ").collect::<String>() + "[]"
}

fn take_text(take: &VmdParsedAnimation) -> String {
    let bones = take.bone_frames.iter().map(|b| {
        let head = vec![antt::bytes(&b.bone_name_bytes), number(b.frame)];
        let values = [head, bits(&b.translation), bits(&b.rotation), vec![antt::bytes(&b.interpolation)]].concat();
        fields(&["name", "frame", "tx", "ty", "tz", "rx", "ry", "rz", "rw", "interpolation"], &values)
    });
    let morphs = take.morph_frames.iter().map(|m| {
        fields(&["name", "frame", "weight"], &[antt::bytes(&m.morph_name_bytes), number(m.frame), number(m.weight.to_bits())])
    });
    let cameras = take.camera_frames.iter().map(|c| {
        let head = vec![number(c.frame), number(c.distance.to_bits())];
        let tail = vec![antt::bytes(&c.interpolation), number(c.fov), c.perspective.to_string()];
        let values = [head, bits(&c.position), bits(&c.rotation), tail].concat();
        fields(&["frame", "distance", "px", "py", "pz", "rx", "ry", "rz", "interpolation", "fov", "perspective"], &values)
    });
    let lights = take.light_frames.iter().map(|l| {
        let values = [vec![number(l.frame)], bits(&l.color), bits(&l.direction)].concat();
        fields(&["frame", "red", "green", "blue", "dx", "dy", "dz"], &values)
    });
    let shadows = take
        .self_shadow_frames
        .iter()
        .map(|s| fields(&["frame", "mode", "distance"], &[number(s.frame), s.mode.to_string(), number(s.distance.to_bits())]));
    let properties = take.property_frames.iter().map(|p| {
        let states = p.ik_states.iter();
        let states = states.map(|k| fields(&["name", "enabled"], &[antt::bytes(&k.bone_name_bytes), k.enabled.to_string()]));
        fields(&["frame", "visible", "ik_states"], &[number(p.frame), p.visible.to_string(), records(states.collect())])
    });
    let sections = [
        records(bones.collect()),
        records(morphs.collect()),
        records(cameras.collect()),
        records(lights.collect()),
        records(shadows.collect()),
        records(properties.collect()),
    ];
    let lines = SECTIONS.iter().zip(sections).map(|(name, text)| format!("  {name} = {text};\n")).collect::<String>();
    format!("record {{\n  model = {};\n{lines}}}", antt::bytes(&take.metadata.model_name_bytes))
}

fn add_take(module: &mut Module, known: &Known, name: &str, file: &[u8]) {
    let take = original::read(file).expect("the file is accepted");
    module.equal(name, &format!("read_take lenient {}", atom(&known.bytes(file))), &format!("given ({})", take_text(&take)));
}

fn takes(known: &Known) -> Module {
    let mut module = Module::new("Records", "What files say, every field of every record.");
    add_take(&mut module, known, "six_said", &base::six());
    for (name, file) in base::joined_files().into_iter().filter(|(_, file)| original::read(file).is_ok()) {
        add_take(&mut module, known, &format!("{name}_said"), &file);
    }
    let drawn = (0u64..).map(|i| files::pieces(1, &mut Random::for_case(SEED, i)).file());
    for (i, file) in drawn.filter(|file| (100..300).contains(&file.len())).take(24).enumerate() {
        add_take(&mut module, known, &format!("random_{i}"), &file);
    }
    module
}

// ---- joins

fn joins(known: &Known) -> Module {
    let mut module =
        Module::new("Joins", "Files joined: the original's export of the records that it reads in both, one after the other.");
    let mut files = base::joined_files();
    let mut known = known.clone();
    for (name, file) in &files {
        module.define(name, &known.bytes(file));
        known.add(name, file);
    }
    files.push(("six", base::six()));
    for (first_name, first) in &files {
        for (second_name, second) in &files {
            let name = format!("{first_name}_and_{second_name}");
            match original::join_files(first, second) {
                Err(refusal) => module.holds(&name, &format!("join_refuses {first_name} {second_name} {refusal}")),
                Ok(joined) => {
                    let joined = atom(&known.bytes(&joined));
                    module.holds(&name, &format!("joins {first_name} {second_name} {joined}"));
                }
            }
        }
    }
    module
}

// ---- parts

/// The 17 parameters as lists of numbers.
fn columns(p: &Parts) -> Vec<(&'static str, Vec<u32>)> {
    let wide = |bytes: &[u8]| bytes.iter().map(|&byte| byte as u32).collect::<Vec<_>>();
    let bits = |floats: &[f32]| floats.iter().map(|value| value.to_bits()).collect::<Vec<_>>();
    vec![
        ("model", wide(&p.model_name)),
        ("bone_bytes", wide(&p.bone_name_bytes)),
        ("bone_ends", p.bone_name_ends.clone()),
        ("morph_bytes", wide(&p.morph_name_bytes)),
        ("morph_ends", p.morph_name_ends.clone()),
        ("cameras", wide(&p.camera_frames)),
        ("lights", wide(&p.light_frames)),
        ("shadows", wide(&p.self_shadow_frames)),
        ("properties", wide(&p.property_frames)),
        ("bone_indices", p.bone_name_indices.clone()),
        ("bone_frames", p.bone_frames.clone()),
        ("translations", bits(&p.bone_translations_xyz)),
        ("rotations", bits(&p.bone_rotations_xyzw)),
        ("interpolations", wide(&p.bone_interpolations)),
        ("morph_indices", p.morph_name_indices.clone()),
        ("morph_frames", p.morph_frames.clone()),
        ("weights", bits(&p.morph_weights)),
    ]
}

fn parts_text(parts: &Parts) -> String {
    let sound = columns(&base::sound_parts());
    let texts =
        columns(parts).into_iter().zip(sound).map(
            |((name, column), (_, sound))| {
                if column == sound {
                    name.to_owned()
                } else {
                    atom(&antt::numbers(&column))
                }
            },
        );
    format!("(parts {})", texts.collect::<Vec<_>>().join(" "))
}

fn add_build(module: &mut Module, known: &Known, name: &str, parts: &Parts) {
    let text = parts_text(parts);
    match original::build(parts) {
        Err(refusal) => module.holds(name, &format!("build_refuses {text} {refusal}")),
        Ok(built) => module.holds(name, &format!("builds {text} {}", atom(&known.bytes(&built)))),
    }
}

fn with_faults(faults: &[Fault], random: &mut Random) -> Parts {
    let mut parts = base::sound_parts();
    faults.iter().for_each(|&fault| add_fault(&mut parts, fault, random));
    parts
}

/// The name of a fault or a place, as the proof language writes names.
fn spelled(named: impl std::fmt::Debug) -> String {
    let mut text = String::new();
    for c in format!("{named:?}").chars() {
        if c.is_uppercase() && !text.is_empty() {
            text.push('_');
        }
        text.push(c.to_ascii_lowercase());
    }
    text
}

fn builds(known: &Known) -> Module {
    let mut module =
        Module::new("Built", "Parts built, each fault alone, some with another, names of one pair. The parts below have none.");
    let mut known = known.clone();
    let sound = base::sound_parts();
    for (name, column) in columns(&sound) {
        module.define(name, &antt::numbers(&column));
    }
    let built = original::build(&sound).expect("they have no fault");
    module.define_said("what is built from them", "sound_out", &known.bytes(&built));
    known.add("sound_out", &built);
    let mut random = Random::for_case(SEED, 1 << 32);
    add_build(&mut module, &known, "sound", &sound);
    add_build(&mut module, &known, "no_parts", &Parts::default());
    for i in 0..8 {
        add_build(&mut module, &known, &format!("random_{i}"), &part_sets::sound(0, 1, &mut random));
    }
    for fault in FAULTS {
        add_build(&mut module, &known, &format!("with_{}", spelled(fault)), &with_faults(&[fault], &mut random));
    }
    let seen = &FAULTS[NOT_WHOLE..];
    for (i, &first) in seen.iter().enumerate() {
        let second = seen[(i * 7 + 5) % seen.len()];
        let name = format!("with_{}_and_{}", spelled(first), spelled(second));
        add_build(&mut module, &known, &name, &with_faults(&[first, second], &mut random));
    }
    for place in PLACES {
        for [lead, trail] in base::PAIRS {
            let name = format!("{}_{lead:02x}_{trail:02x}", spelled(place));
            add_build(&mut module, &known, &name, &base::named_parts(place, &[lead, trail]));
        }
    }
    module
}
