// A recording as structs: what a program that knows its fields would parse into. Strings are borrowed where they can be.
use serde::Deserialize;
use std::borrow::Cow;

#[derive(Deserialize)]
#[allow(dead_code)]
pub struct Recording<'a> {
    #[serde(borrow)]
    global: Global<'a>,
    #[serde(borrow)]
    captures: Vec<Capture<'a>>,
    #[serde(borrow)]
    annotations: Vec<Annotation<'a>>,
}

#[derive(Deserialize)]
#[allow(dead_code)]
struct Global<'a> {
    #[serde(rename = "core:datatype", borrow)]
    datatype: Cow<'a, str>,
    #[serde(rename = "core:sample_rate")]
    sample_rate: f64,
    #[serde(rename = "core:version", borrow)]
    version: Cow<'a, str>,
    #[serde(rename = "core:description", borrow)]
    description: Cow<'a, str>,
}

#[derive(Deserialize)]
#[allow(dead_code)]
struct Capture<'a> {
    #[serde(rename = "core:sample_start")]
    sample_start: u64,
    #[serde(rename = "core:frequency")]
    frequency: f64,
    #[serde(rename = "core:datetime", borrow)]
    datetime: Cow<'a, str>,
}

#[derive(Deserialize)]
#[allow(dead_code)]
struct Annotation<'a> {
    #[serde(rename = "core:sample_start")]
    sample_start: u64,
    #[serde(rename = "core:sample_count")]
    sample_count: u64,
    #[serde(rename = "core:label", borrow)]
    label: Cow<'a, str>,
    #[serde(rename = "core:comment", borrow)]
    comment: Cow<'a, str>,
    #[serde(rename = "core:freq_lower_edge")]
    freq_lower_edge: f64,
    #[serde(rename = "core:freq_upper_edge")]
    freq_upper_edge: f64,
}
