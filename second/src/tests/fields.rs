use crate::fields::{datatype_code, datatype_count, datatypes, has_form, is_datetime, known_type, sample_width, uint, Place, Type};

#[test]
fn name_forms() {
    for bad in ["a:b:c", "core", ":a", "a:", "9a:b", "a:9", "a:b-c", "", "a b:c", ":", "é:a", "a:b.", "-a:-b", "a:é"] {
        assert!(!has_form(bad.as_bytes()), "{bad}");
    }
    for good in ["-:a", "_:_", "a-9:b", "a:b", "core:label", "extension-01:x9", "A:Z_0"] {
        assert!(has_form(good.as_bytes()), "{good}");
    }
}

#[test]
fn known_names() {
    assert_eq!(known_type(Place::Annotation, b"core:label"), Some(Type::Text));
    assert_eq!(known_type(Place::Global, b"core:label"), None);
    assert_eq!(known_type(Place::Annotation, b"core:header_bytes"), None);
    assert_eq!(known_type(Place::Annotation, b"core:datetime"), None);
    assert_eq!(known_type(Place::Capture, b"core:datetime"), Some(Type::Text));
    assert_eq!(known_type(Place::Annotation, b"Core:label"), None);
    assert_eq!(known_type(Place::Annotation, b"core:"), None);
    assert_eq!(known_type(Place::Annotation, b"core:latitude"), Some(Type::Any));
    assert_eq!(known_type(Place::Annotation, b"core:geolocation"), None);
}

#[test]
fn uints() {
    for bad in ["-0", "1.0", "1e3", "18446744073709551616", "1000000000000000000000000", "-1", "", "01", "\"1\"", "null"] {
        assert_eq!(uint(bad.as_bytes()), None, "{bad}");
    }
    assert_eq!(uint(b"18446744073709551615"), Some(u64::MAX));
    assert_eq!(uint(b"0"), Some(0));
}

#[test]
fn datatype_list() {
    let names = datatypes();
    assert_eq!((names.len(), datatype_count()), (28, 28));
    let known = [
        ("rf32_le", 0), ("rf32_be", 1), ("ri32_le", 2), ("ri16_le", 4), ("ri16_be", 5), ("ru32_le", 6), ("ru16_be", 9), ("ri8", 10), ("ru8", 11),
        ("cf32_le", 12), ("ci16_le", 16), ("ci8", 22), ("cu8", 23), ("rf64_le", 24), ("rf64_be", 25), ("cf64_le", 26), ("cf64_be", 27),
    ];
    for (name, code) in known {
        assert_eq!(datatype_code(name.as_bytes()), Some(code));
    }
    for bad in ["i16_le", "ri8_le", "RU8", "rf64", "cf64", "rf64_LE", "", "ru8 ", "cf32"] {
        assert_eq!(datatype_code(bad.as_bytes()), None);
    }
    let real = [4, 4, 4, 4, 2, 2, 4, 4, 2, 2, 1, 1];
    let widths: Vec<u128> = real.iter().copied().chain(real.map(|w| 2 * w)).chain([8, 8, 16, 16]).collect();
    assert_eq!(widths.len(), names.len());
    for (code, width) in (0..).zip(widths) {
        assert_eq!(sample_width(code, 3), Some(3 * width));
        assert_eq!(sample_width(code, 1_024), Some(1_024 * width));
    }
    assert_eq!(sample_width(datatype_count(), 1), None);
}

#[test]
fn datetimes() {
    let good = [
        "2016-12-31T23:59:60.5Z", "2021-02-28T23:59:60Z", "0000-02-29T00:00:00Z", "2000-02-29T12:34:56.000Z", "9999-12-31T23:59:59Z",
        "2020-02-29T23:59:60Z", "1970-01-01T00:00:00.0Z", "2021-06-30T23:59:60Z",
    ];
    for text in good {
        assert!(is_datetime(text.as_bytes()), "{text}");
    }
    let bad = [
        "2020-02-28T23:59:60Z", "1900-02-29T00:00:00Z", "2020-01-01T24:00:00Z", "2020-01-01T00:00:00.Z", "2020-01-01t00:00:00Z",
        "2020-01-01T00:00:00z", "2020-01-01T00:00:00+00:00", "", "Z", "2020-01-01T00:60:00Z", "2020-01-01T23:59:61Z",
        "2020-13-01T00:00:00Z", "2020-00-01T00:00:00Z", "2020-01-00T00:00:00Z", "2020-04-31T00:00:00Z", "2020-01-31T22:59:60Z",
        "20200-01-01T00:00:00Z", "2020-01-01T00:00:00", "2020-01-01T00:00:00.5", "2020-01-01 00:00:00Z", "2020-1-1T0:0:0Z",
        "+020-01-01T00:00:00Z", "2020-01-01T00:00:00.5.5Z", "2020-01-01T00:00:00.5aZ", "2020-01-01T00:00:00,5Z", "2020-01-01T00:00:00ZZ",
    ];
    for text in bad {
        assert!(!is_datetime(text.as_bytes()), "{text}");
    }
}
