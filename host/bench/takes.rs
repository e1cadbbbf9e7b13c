//! Takes to measure with, written without the library.
use vmd::Parts;

/// What a take has, by bytes.
#[derive(Clone, Copy, PartialEq)]
pub enum Kind {
    Bones,
    Mixed,
    Morphs,
    Properties,
    IkStates,
}

impl Kind {
    pub const ALL: [Kind; 5] = [Kind::Bones, Kind::Mixed, Kind::Morphs, Kind::Properties, Kind::IkStates];
    /// Those that shows have.
    pub const USUAL: [Kind; 3] = [Kind::Bones, Kind::Mixed, Kind::Morphs];

    pub fn name(self) -> &'static str {
        match self {
            Kind::Bones => "bones",
            Kind::Mixed => "60% bones, 30% morphs, 10% cameras",
            Kind::Morphs => "morphs",
            Kind::Properties => "property frames",
            Kind::IkStates => "property frames of 2 IK states",
        }
    }

    /// How many bones, morphs, cameras and property frames make up so many bytes, and the IK states of each property frame.
    fn counts(self, size: usize) -> [usize; 5] {
        let size = size - 74;
        match self {
            Kind::Bones => [size / 111, 0, 0, 0, 0],
            Kind::Mixed => [size * 6 / 10 / 111, size * 3 / 10 / 23, size / 10 / 61, 0, 0],
            Kind::Morphs => [0, size / 23, 0, 0, 0],
            Kind::Properties => [0, 0, 0, size / 9, 0], // the most frames for the bytes
            Kind::IkStates => [0, 0, 0, size / 51, 2],
        }
    }
}

/// What the 15 bytes of a name's field hold.
#[derive(Clone, Copy, PartialEq)]
pub enum Names {
    Short,
    Full,
    Padded,
    Garbage,
    /// Pairs of a lead and a trail, whose characters the builder looks up.
    Pairs,
}

impl Names {
    /// Those that copying and saving may tell apart.
    pub const ALL: [Names; 4] = [Names::Short, Names::Full, Names::Padded, Names::Garbage];

    pub fn name(self) -> &'static str {
        match self {
            Names::Short => "2 bytes",
            Names::Full => "15 bytes",
            Names::Padded => "4 to 10 bytes, zeros",
            Names::Garbage => "4 to 10 bytes, a zero, garbage",
            Names::Pairs => "2 to 5 pairs",
        }
    }

    fn len(self, n: usize) -> usize {
        match self {
            Names::Short => 2,
            Names::Full => 15,
            Names::Padded | Names::Garbage => 4 + n % 7,
            Names::Pairs => 2 * (2 + n % 4),
        }
    }

    /// Name `n` of a table.
    pub fn bytes(self, n: usize) -> Vec<u8> {
        let byte = |k| match self {
            Names::Pairs if k % 2 == 0 => 0x83,
            Names::Pairs => 0x40 + ((n >> k) % 63) as u8, // a katakana
            _ => b'A' + ((n >> (2 * k)) % 26) as u8,
        };
        (0..self.len(n)).map(byte).collect()
    }

    /// Its field in a file.
    fn field(self, n: usize) -> [u8; 15] {
        let name = self.bytes(n);
        let mut field = [if self == Names::Garbage { 0xC5 } else { 0 }; 15];
        if name.len() < 15 {
            field[name.len()] = 0;
        }
        field[..name.len()].copy_from_slice(&name);
        field
    }
}

/// In which order a take's names come.
#[derive(Clone, Copy, PartialEq)]
pub enum Order {
    Grouped,
    InTurn,
    Rising,
    Falling,
    Random,
}

impl Order {
    pub fn name(self) -> &'static str {
        match self {
            Order::Grouped => "one after another",
            Order::InTurn => "in turn",
            Order::Rising => "rising",
            Order::Falling => "falling",
            Order::Random => "random",
        }
    }

    /// The index of each record's name.
    fn indices(self, records: usize, names: usize) -> Vec<u32> {
        let mut indices: Vec<u32> = (0..records)
            .map(|i| match self {
                Order::Grouped => i * names / records,
                Order::InTurn | Order::Rising | Order::Random => i % names,
                Order::Falling => names - 1 - i % names,
            } as u32)
            .collect();
        if self == Order::Random {
            Random(2_463_534_242).shuffle(&mut indices);
        }
        indices
    }
}

/// How many names a take of so many records has.
fn table(records: usize) -> usize {
    records.clamp(1, 97)
}

/// Numbers that differ from record to record, and floats that are finite.
struct Random(u32);

impl Random {
    fn next(&mut self) -> u32 {
        self.0 ^= self.0 << 13;
        self.0 ^= self.0 >> 17;
        self.0 ^= self.0 << 5;
        self.0
    }

    fn float(&mut self) -> f32 {
        (self.next() % 20_000) as f32 / 64.0 - 150.0
    }

    fn bytes<const N: usize>(&mut self) -> [u8; N] {
        std::array::from_fn(|_| self.next() as u8)
    }

    fn shuffle<T>(&mut self, values: &mut [T]) {
        (1..values.len()).rev().for_each(|i| values.swap(i, self.next() as usize % (i + 1)));
    }
}

/// Parts that own their columns.
#[derive(Default)]
#[repr(C)]
pub struct Columns {
    pub name_bytes: Vec<u8>,
    pub name_ends: Vec<u32>,
    pub cameras: Vec<u8>,
    pub properties: Vec<u8>,
    pub property_count: usize,
    pub bone_indices: Vec<u32>,
    pub bone_frames: Vec<u32>,
    pub translations: Vec<f32>,
    pub rotations: Vec<f32>,
    pub interpolations: Vec<u8>,
    pub morph_indices: Vec<u32>,
    pub morph_frames: Vec<u32>,
    pub weights: Vec<f32>,
}

/// A take as a file, as two equal halves to be joined, one after the other, and as parts.
#[repr(C)]
pub struct Material {
    pub file: Vec<u8>,
    pub halves: Vec<u8>,
    pub columns: Columns,
}

impl Material {
    pub fn new(kind: Kind, names: Names, size: usize) -> Material {
        let columns = columns(kind.counts(size), names);
        let half = self::columns(kind.counts(size.div_ceil(2)), names);
        Material { file: file(&columns, names), halves: file(&half, names).repeat(2), columns }
    }

    pub fn halves(&self) -> (&[u8], &[u8]) {
        self.halves.split_at(self.halves.len() / 2)
    }

    /// An output that is long enough for every call and every copy.
    pub fn output(&self) -> Vec<u8> {
        let (first, second) = self.halves();
        let written = [
            vmd::export_size(&self.file).unwrap(),
            vmd::join_size(first, second).unwrap(),
            self.parts().size().unwrap(),
            self.file.len() as u64,
            self.halves.len() as u64,
        ];
        vec![1; written.into_iter().max().unwrap() as usize]
    }

    /// The cameras alone.
    #[cfg(feature = "original")]
    pub fn camera_file(&self) -> Vec<u8> {
        file(&Columns { cameras: self.columns.cameras.clone(), ..Default::default() }, Names::Short)
    }

    pub fn parts(&self) -> Parts<'_> {
        let c = &self.columns;
        Parts {
            model_name: b"dancer",
            bone_name_bytes: &c.name_bytes,
            bone_name_ends: &c.name_ends,
            morph_name_bytes: &c.name_bytes,
            morph_name_ends: &c.name_ends,
            camera_frames: &c.cameras,
            property_frames: &c.properties,
            bone_name_indices: &c.bone_indices,
            bone_frames: &c.bone_frames,
            bone_translations_xyz: &c.translations,
            bone_rotations_xyzw: &c.rotations,
            bone_interpolations: &c.interpolations,
            morph_name_indices: &c.morph_indices,
            morph_frames: &c.morph_frames,
            morph_weights: &c.weights,
            ..Default::default()
        }
    }
}

fn columns([bones, morphs, cameras, properties, ik_states]: [usize; 5], names: Names) -> Columns {
    let mut random = Random(2_463_534_242);
    let mut c = Columns { property_count: properties, ..Default::default() };
    let table = table(bones.max(morphs));
    for n in 0..table {
        c.name_bytes.extend(names.bytes(n));
        c.name_ends.push(c.name_bytes.len() as u32);
    }
    for i in 0..bones {
        c.bone_indices.push(random.next() % table as u32);
        c.bone_frames.push(i as u32 / 90);
        c.translations.extend((0..3).map(|_| random.float()));
        c.rotations.extend((0..4).map(|_| random.float()));
        c.interpolations.extend((0..16).flat_map(|_| random.next().to_le_bytes()));
    }
    for i in 0..morphs {
        c.morph_indices.push(random.next() % table as u32);
        c.morph_frames.push(i as u32 / 30);
        c.weights.push(random.float());
    }
    for i in 0..cameras {
        c.cameras.extend((i as u32).to_le_bytes());
        (0..7).for_each(|_| c.cameras.extend(random.float().to_le_bytes()));
        (0..6).for_each(|_| c.cameras.extend(random.next().to_le_bytes()));
        c.cameras.extend(30u32.to_le_bytes());
        c.cameras.push((i % 3) as u8);
    }
    for i in 0..properties {
        c.properties.extend((i as u32).to_le_bytes());
        c.properties.push(1); // visible
        c.properties.extend((ik_states as u32).to_le_bytes());
        for j in 0..ik_states {
            c.properties.extend(names.bytes(j).iter().chain(&[0; 20]).take(20));
            c.properties.push(((i + j) % 2) as u8);
        }
    }
    c
}

/// A take of so many bytes and names.
pub fn with_names(kind: Kind, names: usize, order: Order, size: usize) -> Vec<u8> {
    let mut c = columns(kind.counts(size), Names::Padded);
    c.bone_indices = order.indices(c.bone_frames.len(), names);
    c.morph_indices = order.indices(c.morph_frames.len(), names);
    file_with(&c, &(0..names).map(|n| Names::Padded.field(n)).collect::<Vec<_>>())
}

/// The same with 200 names, each of them spelled in three ways.
pub fn with_remarks(kind: Kind, order: Order, size: usize) -> Vec<u8> {
    let mut c = columns(kind.counts(size), Names::Padded);
    c.bone_indices = order.indices(c.bone_frames.len(), 600);
    c.morph_indices = order.indices(c.morph_frames.len(), 600);
    file_with(&c, &(0..600).map(|n| remark_field(n % 200, n / 200)).collect::<Vec<_>>())
}

/// The field of a name without a remark, or with one of two after a line feed.
fn remark_field(n: usize, remark: usize) -> [u8; 15] {
    let mut field = Names::Padded.field(n);
    let (remark, end) = ([&b""[..], b"\n1", b"\nleft"][remark], Names::Padded.len(n));
    field[end..end + remark.len()].copy_from_slice(remark);
    field
}

/// A take of so many bones or morphs, each with a name of its own. The names' bytes rise with their numbers.
pub fn all_different(kind: Kind, order: Order, records: usize) -> Vec<u8> {
    let counts = if kind == Kind::Bones { [records, 0, 0, 0, 0] } else { [0, records, 0, 0, 0] };
    let mut c = columns(counts, Names::Padded);
    c.bone_indices = order.indices(counts[0], records);
    c.morph_indices = order.indices(counts[1], records);
    file_with(&c, &(0..records).map(different_field).collect::<Vec<_>>())
}

/// The field of a name that no other number has.
fn different_field(n: usize) -> [u8; 15] {
    std::array::from_fn(|k| if k < 8 { b'A' + (n >> (28 - 4 * k)) as u8 % 16 } else { 0 })
}

/// The columns as a file, its names' fields in their own way.
fn file(c: &Columns, names: Names) -> Vec<u8> {
    file_with(c, &(0..c.name_ends.len()).map(|n| names.field(n)).collect::<Vec<_>>())
}

fn file_with(c: &Columns, fields: &[[u8; 15]]) -> Vec<u8> {
    let mut file = b"Vocaloid Motion Data 0002\0\0\0\0\0dancer".to_vec();
    file.resize(50, 0);
    let records = 111 * c.bone_frames.len() + 23 * c.morph_frames.len() + c.cameras.len() + c.properties.len();
    file.reserve_exact(24 + records);
    file.extend((c.bone_frames.len() as u32).to_le_bytes());
    for i in 0..c.bone_frames.len() {
        file.extend(fields[c.bone_indices[i] as usize]);
        file.extend(c.bone_frames[i].to_le_bytes());
        c.translations[3 * i..3 * i + 3].iter().for_each(|value| file.extend(value.to_le_bytes()));
        c.rotations[4 * i..4 * i + 4].iter().for_each(|value| file.extend(value.to_le_bytes()));
        file.extend(&c.interpolations[64 * i..64 * i + 64]);
    }
    file.extend((c.morph_frames.len() as u32).to_le_bytes());
    for i in 0..c.morph_frames.len() {
        file.extend(fields[c.morph_indices[i] as usize]);
        file.extend(c.morph_frames[i].to_le_bytes());
        file.extend(c.weights[i].to_le_bytes());
    }
    file.extend((c.cameras.len() as u32 / 61).to_le_bytes());
    file.extend(&c.cameras);
    file.extend([0; 8]);
    file.extend((c.property_count as u32).to_le_bytes());
    file.extend(&c.properties);
    file
}

// ---- takes to tidy

/// Records of one size.
#[derive(Clone, Copy, PartialEq)]
pub enum Section {
    Bones,
    Morphs,
    Cameras,
    Lights,
    SelfShadows,
    Properties,
    IkStates,
}

impl Section {
    pub fn name(self) -> &'static str {
        match self {
            Section::Bones => "bones",
            Section::Morphs => "morphs",
            Section::Cameras => "cameras",
            Section::Lights => "lights",
            Section::SelfShadows => "self-shadows",
            Section::Properties => Kind::Properties.name(),
            Section::IkStates => Kind::IkStates.name(),
        }
    }

    /// Where it stands in a file.
    fn index(self) -> usize {
        match self {
            Section::Properties | Section::IkStates => 5,
            other => other as usize,
        }
    }

    pub fn has_names(self) -> bool {
        matches!(self, Section::Bones | Section::Morphs)
    }

    /// How many records of it make up so many bytes.
    pub fn records(self, size: usize) -> usize {
        size / [111, 23, 61, 28, 9, 9, 51][self as usize]
    }

    /// A record in canonical form.
    fn record(self, file: &mut Vec<u8>, field: [u8; 15], frame: u32, random: &mut Random) {
        if self.has_names() {
            file.extend(field);
        }
        file.extend(frame.to_le_bytes());
        match self {
            Section::Bones => file.extend(random.bytes::<92>()),
            Section::Morphs => file.extend(random.bytes::<4>()),
            Section::Cameras => file.extend(random.bytes::<56>().iter().chain(&[1])),
            Section::Lights => file.extend(random.bytes::<24>()),
            Section::SelfShadows => file.extend(random.bytes::<5>()),
            Section::Properties => file.extend([1, 0, 0, 0, 0]),
            Section::IkStates => {
                file.extend([1, 2, 0, 0, 0]);
                file.extend(b"left leg\0\0\0\0\0\0\0\0\0\0\0\0\x01right leg\0\0\0\0\0\0\0\0\0\0\0\x01");
            }
        }
    }
}

/// In which order the records of a section come: one name after another, each rising by frame; or by frame, with the names in
/// turn. No two of a name have the same frame.
#[derive(Clone, Copy, PartialEq)]
pub enum Keys {
    Tidy,
    Rising,
    Falling,
    Shuffled,
}

impl Keys {
    pub const ALL: [Keys; 4] = [Keys::Tidy, Keys::Rising, Keys::Falling, Keys::Shuffled];

    pub fn name(self) -> &'static str {
        match self {
            Keys::Tidy => "tidy",
            Keys::Rising => "rising",
            Keys::Falling => "falling",
            Keys::Shuffled => "shuffled",
        }
    }

    /// The number of each record's name, and its frame.
    fn of(self, records: usize, names: usize, random: &mut Random) -> Vec<(usize, u32)> {
        let mut keys: Vec<_> = (0..records).map(|i| (i % names, (i / names) as u32)).collect();
        match self {
            Keys::Tidy => keys.sort(),
            Keys::Rising => {}
            Keys::Falling => keys.reverse(),
            Keys::Shuffled => random.shuffle(&mut keys),
        }
        keys
    }
}

/// The names of bones and morphs: 200, the same each spelled in three ways, or each record's own.
#[derive(Clone, Copy, PartialEq)]
pub enum Naming {
    Few,
    Remarks,
    AllDiffer,
}

impl Naming {
    pub const ALL: [Naming; 3] = [Naming::Few, Naming::Remarks, Naming::AllDiffer];

    pub fn name(self) -> &'static str {
        match self {
            Naming::Few => "200",
            Naming::Remarks => "200, with remarks",
            Naming::AllDiffer => "all differ",
        }
    }

    fn field(self, n: usize, random: &mut Random) -> [u8; 15] {
        match self {
            Naming::Few => Names::Padded.field(n),
            Naming::Remarks => remark_field(n, random.next() as usize % 3),
            Naming::AllDiffer => different_field(n),
        }
    }
}

/// A canonical take of so many records of some sections, in the file's order.
pub fn with_keys(sections: &[(Section, usize)], keys: Keys, naming: Naming) -> Vec<u8> {
    let mut random = Random(2_463_534_242);
    let mut file = b"Vocaloid Motion Data 0002\0\0\0\0\0dancer".to_vec();
    file.resize(50, 0);
    for index in 0..6 {
        let found = sections.iter().find(|(section, _)| section.index() == index);
        file.extend(found.map_or(0, |(_, records)| *records as u32).to_le_bytes());
        let Some(&(section, records)) = found else { continue };
        let names = match section.has_names() {
            true if naming == Naming::AllDiffer => records,
            true => 200,
            false => 1,
        };
        for (name, frame) in keys.of(records, names, &mut random) {
            let field = naming.field(name, &mut random);
            section.record(&mut file, field, frame, &mut random);
        }
    }
    file
}

// ---- takes to cut

/// The frames of a take to cut: the first, and how many there are.
pub const FIRST_FRAME: u32 = 1000;
pub const FRAMES: u32 = 9000;

/// A take whose every section has these frames, rising, and the same with frames at random.
fn to_cut(file: Vec<u8>) -> [Vec<u8>; 2] {
    let mut random = Random(2_463_534_242);
    let rising = with_frames(file.clone(), |i, records| FIRST_FRAME + (i * FRAMES as usize / records) as u32);
    [rising, with_frames(file, |_, _| FIRST_FRAME + random.next() % FRAMES)]
}

/// One of so many bytes.
pub fn kind_to_cut(kind: Kind, size: usize) -> [Vec<u8>; 2] {
    to_cut(Material::new(kind, Names::Padded, size).file)
}

/// One with records of one section.
pub fn section_to_cut(section: Section, size: usize) -> [Vec<u8>; 2] {
    to_cut(with_keys(&[(section, section.records(size))], Keys::Tidy, Naming::Few))
}

/// A file of the newer edition with all six sections, and other frames: each by the record's number in its section and how
/// many records that has.
fn with_frames(mut file: Vec<u8>, mut frame: impl FnMut(usize, usize) -> u32) -> Vec<u8> {
    let number = |file: &[u8], at: usize| u32::from_le_bytes(file[at..at + 4].try_into().unwrap()) as usize;
    let mut at = 50;
    for (section, (size, frame_at)) in [(111, 15), (23, 15), (61, 0), (28, 0), (9, 0), (9, 0)].into_iter().enumerate() {
        let records = number(&file, at);
        at += 4;
        for i in 0..records {
            file[at + frame_at..][..4].copy_from_slice(&frame(i, records).to_le_bytes());
            at += size + if section == 5 { 21 * number(&file, at + 5) } else { 0 };
        }
    }
    assert_eq!(at, file.len());
    file
}
