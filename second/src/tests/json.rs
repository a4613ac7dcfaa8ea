use crate::frames::{checksum, read_frames, write_frames, Case};
use crate::json::{decode_body, is_number, judge};
use crate::json_answers::answer;
use crate::json_cases::{fixed_cases, json_cases, members, nest, ALIKE, UNLIKE};

fn refusal(text: &[u8]) -> u64 {
    judge(text).err().unwrap_or(0)
}

fn line(letter: u8, payload: &[u8]) -> String {
    answer(&Case { letter, payload: payload.to_vec() }).unwrap()
}

#[test]
fn depth_limit() {
    for pattern in 0..5 {
        for core in [&b""[..], b"1"] {
            assert_eq!(refusal(&nest(pattern, 31, core)), 0);
            assert_eq!(refusal(&nest(pattern, 32, core)), 0);
            // P: depth 33 gives 2.
            assert_eq!(refusal(&nest(pattern, 33, core)), 2);
        }
    }
    assert_eq!(refusal(&nest(0, 30_720, b"")), 2);
    assert_eq!(judge(b"5").unwrap().nodes[0].height, 0);
    let empty = judge(b"[]").unwrap();
    assert_eq!(empty.node(empty.root).height, 1);
}

#[test]
fn member_limit() {
    assert_eq!(refusal(&members(256, b"", b"1")), 0);
    assert_eq!(refusal(&members(257, b"", b"1")), 3);
    assert_eq!(refusal(&[b"[[", &members(257, b"", b"1")[..], b"]]"].concat()), 3);
    assert_eq!(refusal(&[b"[", &b"1,".repeat(5000)[..], b"1]"].concat()), 0);
}

#[test]
fn repeated_names() {
    for (x, y) in ALIKE {
        assert_eq!(refusal(format!(r#"{{"{x}":1,"{y}":2}}"#).as_bytes()), 3, "{x} {y}");
        assert_eq!(line(b'e', format!("{x}\n{y}").as_bytes()), "e 1");
    }
    for (x, y) in UNLIKE {
        assert_eq!(refusal(format!(r#"{{"{x}":1,"{y}":2}}"#).as_bytes()), 0, "{x} {y}");
        assert_eq!(line(b'e', format!("{x}\n{y}").as_bytes()), "e 0");
    }
    assert_eq!(refusal(br#"{"a":1,"a":2"#), 2);
    assert_eq!(refusal(br#"[{"a":1,"\u0061":2}]"#), 3);
    assert_eq!(refusal(br#"[{"a":1},{"a":2}]"#), 0);
}

#[test]
fn surrogates() {
    for body in [r"\ude00", r"\ud83d", r"\ud83dx", r"\ud83d\u0041", r"\ud83d\ud83d\ude00"] {
        assert_eq!(decode_body(body.as_bytes()), None);
        assert_eq!(refusal(format!(r#"{{"{body}":1}}"#).as_bytes()), 2);
        assert_eq!(refusal(format!(r#"["{body}"]"#).as_bytes()), 2);
    }
    assert_eq!(decode_body(br"\uD83D\ude00").unwrap(), "😀".as_bytes());
    assert_eq!(decode_body(br"\ud800\udc00\udbff\udfff").unwrap(), "\u{10000}\u{10ffff}".as_bytes());
}

#[test]
fn utf8() {
    let bad: [&[u8]; 6] = [b"\xC0\x80", b"\xE0\x80\x80", b"\xED\xA0\x80", b"\xF4\x90\x80\x80", b"\xF5\x80\x80\x80", b"\xE2\x82"];
    for sequence in bad {
        assert_eq!(refusal(&[b"\"", sequence, b"\""].concat()), 2);
    }
    for good in ["\u{ffff}", "\u{2028}", "\u{7f}"] {
        assert_eq!(refusal(format!("\"{good}\"").as_bytes()), 0);
    }
}

#[test]
fn numbers() {
    for bad in ["01", "-01", "1.", ".5", "+1", "1e", "-", "", "1e+", "1.e1", "--1"] {
        assert!(!is_number(bad.as_bytes()), "{bad}");
        assert_eq!(refusal(bad.as_bytes()), 2, "{bad}");
    }
    for good in ["-0", "1E+5", "0e0", "0", "-0.0e-0", "18446744073709551616", "1e999999"] {
        assert_eq!(refusal(good.as_bytes()), 0, "{good}");
    }
}

#[test]
fn blanks_and_structure() {
    for bad in ["\u{b}1", "1\u{c}", "\u{a0}1", "\u{feff}1", "1\0", "[1,]", "1 2", "", " ", "{\"a\":1,}", "[\"\u{1}\"]", "\"\n\""] {
        assert_eq!(refusal(bad.as_bytes()), 2, "{bad:?}");
    }
    for good in [" \t\r\n1\n", "[ 1 , 2 ]", "{ \"a\" : 1 }"] {
        assert_eq!(refusal(good.as_bytes()), 0, "{good:?}");
    }
}

#[test]
fn answer_lines() {
    assert_eq!(line(b'j', b"[1,1"), "j 2");
    assert_eq!(line(b'j', b"{\"a\":1,\"a\":1}"), "j 3");
    assert_eq!(line(b'j', b" null"), "j 0 null 0 7");
    assert_eq!(line(b'j', b"[1, 23]"), format!("j 0 array 2 {}", checksum([1, 2, 4, 6])));
    assert_eq!(line(b'j', b"{\"\\u0061\" : [ ]}"), format!("j 0 object 1 {}", checksum([2, 6, 12, 15])));
    assert_eq!(line(b's', b""), "s 0 0 7");
    assert_eq!(line(b's', b"a\\n"), format!("s 0 2 {}", checksum([97, 10])));
    assert_eq!(line(b's', b"\""), "s 2");
    assert_eq!(line(b'e', b"a\nb\n"), "e 2");
    assert_eq!(checksum([u64::MAX]), (7 * 31 + u64::MAX as u128) as u64 % (1 << 32));
}

#[test]
fn streams() {
    let cases = json_cases(1, 3000);
    assert_eq!(cases.len(), 3000);
    assert_eq!(cases, json_cases(1, 3000));
    assert_ne!(cases, json_cases(2, 3000));
    let stream = write_frames(&cases);
    assert!(stream.len() < 2_000_000);
    assert_eq!(read_frames(&stream).unwrap(), cases);
    assert_eq!(json_cases(9, 0), fixed_cases());
    assert!(cases.iter().all(|c| c.payload.len() <= 61_440 && answer(c).is_some()));
    assert!(read_frames(b"j 5\nabc").is_err());
    assert!(read_frames(b"J 1\na").is_err());
}
