// The names that are looked up, raw, each with its number among the fields of its kind of object.
use second::fields::{core_names, Place};
use second::rng::Rng;

pub const OBJECTS: [(&str, Place); 3] = [("global", Place::Global), ("capture", Place::Capture), ("annotation", Place::Annotation)];
pub const GROUPS: [(&str, fn(Place) -> Vec<Name>); 3] = [("core", core), ("unknown", unknown), ("escaped", escaped)];
// How many names are looked up in a row.
const CALLS: usize = 4096;

#[derive(Clone)]
pub struct Name {
    pub raw: String,
    pub number: usize,
}

// Short and long ones, of extensions, and as long as core names, which some of them nearly are.
const UNKNOWN: [&str; 12] = [
    "a:b",
    "rfml:label",
    "adsb:icao",
    "core:labels",
    "core:gain_db",
    "antenna:model",
    "signal:detail",
    "core:sample_stop",
    "antenna:polarization",
    "core:freq_upper_edgf",
    "capture_details:acq_scale_factor",
    "service:night_shift_operator_of_the_station",
];
// Those of them that are also looked up with an escape: one as long as core names, and a longer one.
const ALSO_ESCAPED: [usize; 2] = [5, 11];

fn core(place: Place) -> Vec<Name> {
    core_names(place).into_iter().enumerate().map(|(number, raw)| Name { raw, number }).collect()
}

fn unknown(place: Place) -> Vec<Name> {
    let number = core_names(place).len();
    UNKNOWN.iter().map(|raw| Name { raw: raw.to_string(), number }).collect()
}

// Each has one byte as \u00XX, at another place in each.
fn escaped(place: Place) -> Vec<Name> {
    let mut names = core(place);
    names.extend(ALSO_ESCAPED.map(|k| unknown(place)[k].clone()));
    for (k, name) in names.iter_mut().enumerate() {
        let at = k * 5 % name.raw.len();
        let escape = format!("\\u{:04x}", name.raw.as_bytes()[at]);
        name.raw.replace_range(at..=at, &escape);
    }
    names
}

// Names in a shuffled order, the same at every run.
pub fn shuffled<'a>(names: &[&'a Name]) -> Vec<&'a [u8]> {
    let mut rng = Rng::new(1);
    (0..CALLS).map(|_| rng.pick(names).raw.as_bytes()).collect()
}
