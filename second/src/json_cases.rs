//! Fixed edge cases about JSON texts, and the whole stream with random ones after.

use crate::frames::Case;
use crate::json_random::random_case;
use crate::rng::filled_up;

/// The fixed cases, then random ones up to `count`.
pub fn json_cases(seed: u64, count: usize) -> Vec<Case> {
    filled_up(fixed_cases(), seed, count, random_case)
}

/// Every fixed case.
pub fn fixed_cases() -> Vec<Case> {
    let mut list = List(Vec::new());
    list.every_byte();
    list.whole_texts();
    list.blanks();
    list.numbers();
    list.broken_structures();
    list.string_bodies();
    list.depths();
    list.depth_oddities();
    list.member_counts();
    list.name_pairs();
    list.repeated_places();
    list.repeated_in_others();
    list.long_names();
    list.repeated_and_broken();
    list.largest_texts();
    list.0
}

/// Joins parts into one text.
pub fn join(parts: &[&[u8]]) -> Vec<u8> {
    parts.concat()
}

/// Scalars and small texts that are JSON, and words that are not.
pub const TEXTS: &[&[u8]] = &[
    b"", b" ", b"\t", b"\n", b"\r", b" \t\r\n ", b"\0", b"null", b"true", b"false", b"0", b"\"\"", b"[]", b"{}",
    b"[ ]", b"{ }", b"[\n]", b"{\r\n}", b"  null  ", b"\ttrue\t", b"\nfalse\n", b"\r0\r", b" \"\" ", b"\n[]\n",
    b"Null", b"NULL", b"True", b"tru", b"truee", b"true1", b"t", b"f", b"n", b"nul", b"nulll", b"fals", b"falsee",
    b"nan", b"NaN", b"Infinity", b"-Infinity", b"undefined", b"tru\\u0065", b"\\u0074rue", b"'a'", b"a", b"`a`",
    b"[true,false,null]", b"[truefalse]", b"[true false]", b"[nullnull]", b"[true,fals]", b"{\"a\":tru}", b"[t]",
    b"{\"a\":true,\"b\":false,\"c\":null}", b"{\"true\":null}", b"{true:1}", b"[1,\"a\",{},[],null]", b"[[],{},[[]]]",
    b"{\"a\":{},\"b\":[]}", b"{\"a\" : 1 , \"b\" : [ 1 , 2 ] }", b"{\"\":\"\"}", b"[\"[\",\"]\",\"{\",\"}\",\",\",\":\"]",
    b"[\"\\\"\"]", b"[\"\\\\\"]", b"[\"\\\\\\\"\"]", b"[\"\\\\\\\\\"]", b"{\"\\\"\":\"\\\"\"}", b"{\"a\\\\\":\"b\"}",
    b"\xEF\xBB\xBF{}", b"\xEF\xBB\xBF", b"{}\xEF\xBB\xBF", b"\"\xEF\xBB\xBF\"", b"\xFE\xFF", b"\xFF\xFE{\0}\0",
    b"//\n1", b"1//", b"/**/1", b"#\n1", b"[1/**/]", b"0x10", b"0b1", b"1_000", b"1n", b"1f", b"[1]\0", b"\0[1]",
];

/// Structures that are broken, with a few good ones among them.
pub const STRUCTURES: &[&[u8]] = &[
    b"[", b"]", b"{", b"}", b"[}", b"{]", b"[[]", b"[]]", b"{{}", b"{}}", b"{}{}", b"[][]", b"[{]}", b"{\"a\":[}",
    b"{\"a\":[1}", b"[{\"a\":1]", b"[1,]", b"[,1]", b"[,]", b"[1,,2]", b"[,,]", b"[1,2,,]", b",", b":", b",1", b"1,",
    b"1,2", b"1 2", b"[1 2]", b"[1\n2]", b"[\"a\" \"b\"]", b"[[][]]", b"[{}{}]", b"[[] []]", b"[1:2]", b"[\"a\":1]",
    b"{,}", b"{\"a\"}", b"{\"a\":}", b"{\"a\":,}", b"{\"a\":1,}", b"{,\"a\":1}", b"{:1}", b"{:}", b"{\"a\" 1}", b"{\"a\",1}",
    b"{\"a\"::1}", b"{\"a\":1:2}", b"{\"a\":\"b\":1}", b"{\"a\":1 \"b\":2}", b"{\"a\":1,,\"b\":2}", b"{\"a\":1;\"b\":2}",
    b"{a:1}", b"{1:1}", b"{'a':1}", b"{null:1}", b"{[]:1}", b"{{}:1}", b"{\"a\"=1}", b"{\"a\":1,\"b\"}", b"{\"a\":1,\"b\":}",
    b"{\"a\":1,\"b\" 2}", b"{\"a\":1,2}", b"{1}", b"{1,2}", b"{\"a\":1,b:2}", b"{\"a\":[1,],\"b\":2}", b"{\"a\":{\"b\":1,}}",
    b"\"", b"\"a", b"a\"", b"\"a\"b\"", b"\"a\"\"b\"", b"\"\\", b"\"\\\"", b"\"a\\\"", b"{\"", b"{\"a", b"{\"a\"", b"{\"a\":",
    b"{\"a\":1", b"{\"a\":1,", b"{\"a\":1,\"", b"{\"a\":\"", b"{\"a\":\"b", b"{\"a\":\"b\"", b"[1", b"[1,", b"[\"", b"[\"a", b"[\"a\"",
    b"[[1,2],[3", b"[[1,2],[3]", b"[t", b"[-", b"[1.", b"[1e", b"{\"a\":{\"b\":[", b"{\"a\":{\"b\":[]", b"{\"a\":{\"b\":[]}",
    b"{\"a\":1}}", b"{\"a\":1}]", b"[1]}", b"{\"a\":1}x", b"{\"a\":1} 1", b"{\"a\":1},", b"[1]2", b"\"a\" 1", b"null null", b"1\n2",
];

/// Numbers, good ones first.
pub const NUMBERS: &[&[u8]] = &[
    b"0", b"-0", b"1", b"-1", b"9", b"10", b"-10", b"1234567890", b"0.0", b"-0.0", b"0.5", b"1.0", b"1.50", b"0.001",
    b"0e0", b"0E0", b"0e00", b"1e3", b"1E+5", b"1e-5", b"1E-05", b"-1.5e+10", b"0.0e-0", b"1e999999", b"-1e-999999",
    b"18446744073709551615", b"18446744073709551616", b"1000000000000000000000000000000000000001", b"100", b"1e01",
    b"00", b"01", b"-01", b"-00", b"007", b"1.", b"-1.", b".5", b"-.5", b"+1", b"+0", b"1e", b"1E", b"1e+", b"1e-", b"-", b"+",
    b"--1", b"-+1", b"1-", b"1+1", b"1-1", b"1.2.3", b"1..2", b"1e2e3", b"1e2.5", b"1e.5", b".e1", b".", b"e", b"e1", b"E5", b"1.e5",
    b"0.e1", b"01.5", b"00.5", b"0x1", b"1a", b"1,5", b"1 5", b"- 1", b"1 .5", b"1. 5", b"1e 5", b"1 e5", b"-e5", b"-.", b"1e++5", b"1e+-5",
    b"0e", b"0.", b"-0.", b"-0e", b"00e1", b"1.0.", b"\xD9\xA1", b"1\xC2\xA0", b"\xEF\xBC\x91", b"1\0", b"1.5f", b"1L", b"$1", b"1%", b"(1)",
];

/// Bytes that stand for blanks elsewhere, JSON's four first.
pub const BLANKS: &[&[u8]] = &[
    b" ", b"\t", b"\n", b"\r", b"\r\n", b" \t\n\r \t", b"\x0B", b"\x0C", b"\0", b"\x08", b"\x1F", b"\x7F", b"\xC2\xA0", b"\xC2\x85",
    b"\xE2\x80\xA8", b"\xE2\x80\x8B", b"\xE3\x80\x80", b"\xEF\xBB\xBF", b"\xA0", b"\xC2", b"\\n", b"\\u0020", b" \x0B ", b"\n\x0C",
];

/// UTF-8 sequences, good ones first.
pub const SEQUENCES: &[&[u8]] = &[
    b"\x7F", b"\xC2\x80", b"\xC3\xA9", b"\xDF\xBF", b"\xE0\xA0\x80", b"\xE2\x80\xA8", b"\xE2\x80\xA9", b"\xED\x9F\xBF",
    b"\xEE\x80\x80", b"\xEF\xBF\xBD", b"\xEF\xBF\xBE", b"\xEF\xBF\xBF", b"\xEF\xBB\xBF", b"\xEF\xB7\x90", b"\xF0\x90\x80\x80",
    b"\xF0\x9F\x98\x80", b"\xF3\xBF\xBF\xBF", b"\xF4\x8F\xBF\xBF", b"\xF1\x80\x80\x80", b"\xE1\x80\x80\xC2\x80",
    b"\x80", b"\xBF", b"\xC0\x80", b"\xC0\xAF", b"\xC1\xBF", b"\xC2", b"\xC2\x7F", b"\xC2\xC0", b"\xC3\x28", b"\xDF", b"\xDF\xC0",
    b"\xC0\xA2", b"\xC1\x9C", b"\xE0\x80\xA2", b"\xF0\x80\x80\xA2",
    b"\xE0\x80\x80", b"\xE0\x9F\xBF", b"\xE0\xA0", b"\xE0", b"\xE2\x80", b"\xE2\x28\xA1", b"\xE2\x82\x28", b"\xE2\x82\xC0",
    b"\xED\xA0\x80", b"\xED\xAF\xBF", b"\xED\xB0\x80", b"\xED\xBF\xBF", b"\xED\xA0\xBD\xED\xB8\x80", b"\xEF\xBF", b"\xEF",
    b"\xF0\x80\x80\x80", b"\xF0\x8F\xBF\xBF", b"\xF0\x90\x80", b"\xF0\x90", b"\xF0", b"\xF0\x28\x8C\xBC", b"\xF0\x90\x28\xBC",
    b"\xF0\x90\x8C\x28", b"\xF4\x90\x80\x80", b"\xF4\xBF\xBF\xBF", b"\xF4\x8F\xBF", b"\xF4", b"\xF5\x80\x80\x80", b"\xF7\xBF\xBF\xBF",
    b"\xF8\x88\x80\x80\x80", b"\xFC\x84\x80\x80\x80\x80", b"\xFE", b"\xFF", b"\xFF\xFF", b"\xC3\xA9\x80", b"\xF0\x9F\x98\x80\x80", b"\xE1\x80\xC2\x80",
];

/// Escapes and broken escapes, good ones first.
pub const ESCAPES: &[&str] = &[
    r#"\""#, r"\\", r"\/", r"\b", r"\f", r"\n", r"\r", r"\t", r"\u0000", r"\u0041", r"\u00e9", r"\u00E9", r"\uABCD", r"\uabcd",
    r"\uAbCd", r"\u007f", r"\u0080", r"\u07ff", r"\u0800", r"\ud7ff", r"\ue000", r"\uffff", r"\uFFFD", r"\ud83d\ude00",
    r"\uD83D\uDE00", r"\ud800\udc00", r"\udbff\udfff", r"\uD800\udfff", r"\ud83d\ude00\ud83d\ude00", r"\\u0041", r"\\\\", r#"\\\""#,
    r"\u0022", r"\u005c", r"\u005Cn", r"\u000a", r"\u001f", r"\u2028", r"\\n\n", r"\u00410", r"\u0041\u0042", r"\/\/",
    r"\a", r"\v", r"\0", r"\x41", r"\'", r"\u", r"\u0", r"\u00", r"\u004", r"\U0041", r"\u004g", r"\ug041", r"\u0g41", r"\u00g1",
    r"\u 041", r"\u+041", r"\u-041", r"\u0x41", r"\u{41}", r"\u00:0", r"\u00@0", r"\u00G0", r"\u00`0", r"\u00/0", r"\N", r"\T", r"\B", r"\ ",
    r"\", r"\\\", r"a\", r"\u004\u0041", r"\u00\u0041", r"\uu0041", r"\u12é4", r"\é",
    r"\ud83d", r"\ude00", r"\ude00\ud83d", r"\ud83dx", r"\ud83d\u0041", r"\ud83d\ud83d\ude00", r"\ud83d\ud83d", r"\ude00\ude00",
    r"\ud83d\ude00\ude00", r"\ud83d\ude00\ud83d", r"\ud800", r"\udbff", r"\udc00", r"\udfff", r"\uD800", r"\uDFFF", r"\ud83d\n",
    r"\ud83d \ude00", r"\ud83d\\ude00", r"\ud83d\", r"\ud83d\u", r"\ud83d\ude0", r"\ud83dude00", r"\ud83d\\", r#"\ud83d\""#, r"\ud83d/ude00",
    r"\ud800\ud800\udc00\udc00", r"\ud83d😀", r"😀\ude00", r"\ud83d\ue000", r"\ud83d\udbff", r"\udbff\ue000", r"\ud7ff\udc00", r"\ue000\udc00", r"\ud83d\uDe0g",
];

/// Two spellings of one name.
pub const ALIKE: &[(&str, &str)] = &[
    ("", ""), ("a", "a"), ("a", r"\u0061"), ("A", r"\u0041"), ("/", r"\/"), ("/", r"\u002f"), (r"\/", r"\u002F"), ("é", r"\u00e9"),
    (r"\u00E9", r"\u00e9"), ("😀", r"\ud83d\ude00"), (r"\uD83D\uDE00", r"\ud83d\ude00"), (r"\n", r"\u000a"), (r"\t", r"\u0009"),
    (r"\b", r"\u0008"), (r"\f", r"\u000c"), (r"\r", r"\u000D"), (r#"\""#, r"\u0022"), (r"\\", r"\u005c"), (r"\u0000", r"\u0000"),
    (r"a\u0000", r"\u0061\u0000"), ("core:label", r"core:\u006cabel"), ("core:sample_start", r"\u0063ore\u003asample\u005fstart"),
    ("\u{ffff}", r"\uffff"), ("\u{2028}", r"\u2028"), ("\u{7f}", r"\u007F"), ("\u{80}", r"\u0080"), ("\u{7ff}", r"\u07ff"),
    ("\u{800}", r"\u0800"), ("\u{d7ff}", r"\ud7ff"), ("\u{e000}", r"\uE000"), ("\u{10000}", r"\ud800\udc00"),
    ("\u{10ffff}", r"\uDBFF\uDFFF"), (r"x\u0020y", "x y"), (r"\\n", r"\u005cn"), (r"\\u0061", r"\u005cu0061"), (r"\u00000", r"\u0000\u0030"),
];

/// Two names that differ after decoding.
pub const UNLIKE: &[(&str, &str)] = &[
    ("a", "b"), ("a", "A"), ("a", r"a\u0000"), ("a", "a "), ("a", " a"), ("a", "aa"), ("", r"\u0000"), ("", " "), ("é", r"e\u0301"),
    (r"\\n", r"\n"), (r"\\u0061", "a"), ("/", r"\\/"), ("é", "è"), (r"\u00e9", r"\u00e8"), ("😀", "😁"), (r"\ud83d\ude00", r"\ud83d\ude01"),
    ("n", r"\n"), ("u0061", r"\u0061"), ("ab", "ba"), ("K", "\u{212a}"), ("k", r"\u212a"), ("\u{10000}", "\u{f000}"), (r"\u0000\u0001", r"\u0001\u0000"),
    ("global", "Global"), ("core:label", "core:Label"), (r"\u00c3\u00a9", "é"), ("abc", "ab"), ("abc", "abd"), ("abc", "xbc"), (r"\u0061", r"\u0062"),
    (r"\u0000", r"\u0000\u0000"), ("\u{7f}", r"\b"), (r"\r", r"\n"), (r"\u4100", "A"), (r"\u0100", r"\u0000"), (r"\u0161", "a"), ("name", "nbme"),
];

/// The growing list of cases.
struct List(Vec<Case>);

impl List {
    fn add(&mut self, letter: u8, parts: &[&[u8]]) {
        self.0.push(Case { letter, payload: join(parts) });
    }

    fn text(&mut self, parts: &[&[u8]]) {
        self.add(b'j', parts);
    }

    fn body(&mut self, parts: &[&[u8]]) {
        self.add(b's', parts);
    }

    fn pair(&mut self, x: &[u8], y: &[u8]) {
        self.add(b'e', &[x, b"\n", y]);
    }

    /// Every byte raw in a string; up to 0x80 also between tokens and after a
    /// backslash.
    fn every_byte(&mut self) {
        for byte in 0..=255u8 {
            self.body(&[b"a", &[byte], b"b"]);
            if byte <= 0x80 {
                self.text(&[b"[1", &[byte], b",2]"]);
                self.body(&[b"\\", &[byte]]);
            }
        }
    }

    fn whole_texts(&mut self) {
        for text in TEXTS {
            self.text(&[text]);
        }
    }

    fn blanks(&mut self) {
        for blank in BLANKS {
            self.text(&[blank]);
            self.text(&[blank, b"{\"a\":1}"]);
            self.text(&[b"{\"a\":1}", blank]);
            self.text(&[b"{", blank, b"\"a\"", blank, b":", blank, b"[", blank, b"1", blank, b"]", blank, b"}"]);
            self.text(&[b"[\"x", blank, b"y\"]"]);
        }
    }

    fn numbers(&mut self) {
        for number in NUMBERS {
            self.text(&[number]);
            self.text(&[b"{\"a\":", number, b",\"b\": ", number, b" }\n"]);
        }
    }

    fn broken_structures(&mut self) {
        for (i, part) in STRUCTURES.iter().enumerate() {
            self.text(&[part]);
            if i % 2 == 0 {
                self.text(&[b"[null,", part, b"]"]);
            } else {
                self.text(&[b"{\"k\": ", part, b" ,\"l\":1}"]);
            }
        }
    }

    /// UTF-8 sequences and escapes in bodies, values, names and outside.
    fn string_bodies(&mut self) {
        for sequence in SEQUENCES {
            self.string_places(sequence);
            self.text(&[b"[1,", sequence, b"2]"]);
        }
        for escape in ESCAPES {
            self.string_places(escape.as_bytes());
        }
        for body in [&b""[..], b"\"", b"a\"b", b"\n", b"a\tb", b"\x1F", b"\0", b"''", b"</a>", b"plain text"] {
            self.string_places(body);
        }
    }

    fn string_places(&mut self, body: &[u8]) {
        self.body(&[body]);
        match self.0.len() % 4 {
            0 => self.text(&[b"\"", body, b"\""]),
            1 => self.text(&[b"{\"", body, b"\":0,\"b\":1}"]),
            2 => self.text(&[b"[0,{\"k\":[\"a", body, b"b\"]}]"]),
            _ => self.text(&[b"{\"a", body, b"b\":{\"c\":\"", body, b"\"}}"]),
        }
    }

    /// Depths 31, 32 and 33 of each pattern, and as an ignored part.
    fn depths(&mut self) {
        for depth in 31..=33 {
            for pattern in 0..5 {
                for core in [&b""[..], b"1", b"\"[\""] {
                    self.text(&[&nest(pattern, depth, core)]);
                }
                self.text(&[b"{\"global\":1,\"x\":", &nest(pattern, depth - 1, b""), b",\"y\":[]}"]);
                self.text(&[b" [0, ", &nest(pattern, depth - 1, b"0"), b" ,[1]] "]);
                let inner = nest(pattern, depth - 3, b"");
                self.text(&[b"{\"global\":{\"core:geolocation\":{\"type\":", &inner, b"}}}"]);
                self.text(&[b"[[[]],[[1],", &inner[..], b"],{\"a\":[", &inner[..], b"]}]"]);
            }
        }
    }

    /// Depths that are broken, far too deep, side by side, or only look deep.
    fn depth_oddities(&mut self) {
        for depth in [34, 64, 100, 256, 257, 1000] {
            self.text(&[&nest(0, depth, b"")]);
            self.text(&[&nest(2, depth, b"1")]);
        }
        for depth in [32, 33] {
            self.text(&[&b"[".repeat(depth)]);
            self.text(&[&b"[".repeat(depth), &b"]".repeat(depth - 1)]);
            self.text(&[&b"[".repeat(depth), &b"]".repeat(depth + 1)]);
            self.text(&[&b"[".repeat(depth), &b"}".repeat(depth)]);
            self.text(&[&nest(0, depth, b"{\"a\":1,\"a\":2}")]);
            self.text(&[&nest(1, depth - 1, b"{\"a\":1,\"a\":2}")]);
            self.text(&[&nest(1, depth, b"\"\\ud800\"")]);
            self.text(&[b"[\"", &b"[".repeat(depth), b"\"]"]);
            self.text(&[b"{\"", &b"{".repeat(depth), b"\":\"\\\"", &b"[".repeat(depth), b"\"}"]);
            self.text(&[b"[", &b"[],".repeat(depth), b"{}]"]);
            self.text(&[b"[", &b"[[]],".repeat(depth * 4), b"{}]"]);
            let deep = nest(3, depth - 1, b"");
            self.text(&[b"[", &deep, b",", &deep, b",", &deep, b"]"]);
            self.text(&[b"{\"a\":", &deep, b",\"b\":", &deep, b",\"a\":0}"]);
        }
    }

    /// 255, 256 and 257 members, at the top and inside.
    fn member_counts(&mut self) {
        for count in [255, 256, 257] {
            let object = members(count, b"m", b"0");
            self.text(&[&object]);
            self.text(&[b"[1,", &object, b"]"]);
            self.text(&[b"{\"global\":{\"core:geolocation\":", &object, b"}}"]);
            self.text(&[b"[", &object[..object.len() - 1], b",\"m0\":1}]"]);
            self.text(&[b"[[[", &object, b"]]"]);
            self.text(&[&object[..object.len() - 1], b",}"]);
            self.text(&[b"[", &b"0,".repeat(count - 1), b"0]"]);
        }
        for count in [512, 513, 600] {
            self.text(&[&members(count, b"", b"[]")]);
        }
        let halves = [members(200, b"a", b"1"), members(200, b"a", b"1")];
        self.text(&[b"[", &halves[0], b",", &halves[1], b"]"]);
        self.text(&[b"{\"x\":", &halves[0], b",\"y\":", &halves[1], b"}"]);
        self.text(&[b"[", &b"{},".repeat(300), b"{}]"]);
        self.text(&[b"[", &b"{\"a\":1},".repeat(300), b"{\"a\":1,\"a\":1}]"]);
    }

    /// Pairs of names that are alike and unlike, as pairs and as members.
    fn name_pairs(&mut self) {
        for (x, y) in ALIKE.iter().chain(UNLIKE) {
            let (x, y) = (x.as_bytes(), y.as_bytes());
            self.pair(x, y);
            self.pair(&[y, b"tail"].concat(), &[x, b"tail"].concat());
            self.text(&[b"{\"", x, b"\":1,\"", y, b"\":2}"]);
            self.text(&[b"[0,{\"p\":{},\"", y, b"\":[1],\"q\":null,\"", x, b"\":{\"", x, b"\":1}}]"]);
        }
        for (x, y) in [("a", r"\ud800"), (r"\", r"\"), ("\"", "a"), (r"\x", "b"), ("a\tb", "a"), (r"\udc00", r"\udc00")] {
            self.pair(x.as_bytes(), y.as_bytes());
            self.pair(y.as_bytes(), x.as_bytes());
        }
        self.pair(b"a", b"a\nb");
        self.pair(b"", b"\n");
        self.pair(b"\xC3", b"\xC3\xA9");
        self.pair(b"\xED\xA0\x80", b"\xED\xA0\x80");
        self.pair(b"\\ud83d\\ude00", b"\xED\xA0\xBD\xED\xB8\x80");
    }

    /// A repeated name at each of several places among other members.
    fn repeated_places(&mut self) {
        for count in [2usize, 3, 5, 20, 200] {
            let places = [(0, 1), (0, count - 1), (count / 2, count - 1), (count - 2, count - 1)];
            for (i, j) in places {
                let object = with_repeat(count, i, j);
                self.text(&[&object]);
                if count <= 20 {
                    self.text(&[b"{\"a\":[{\"b\":", &object, b"},2],\"c\":1}"]);
                    self.text(&[b"[1,[2,{\"a\":1},", &object, b"]]"]);
                    self.text(&[b"{\"x\":{\"k0\":{}},\"y\":", &object[..object.len() - 1], b"]}"]);
                }
            }
        }
    }

    /// The same name in different objects, or as a value.
    fn repeated_in_others(&mut self) {
        let texts: [&str; 16] = [
            r#"{"a":{"a":{"a":1}},"b":{"a":1}}"#, r#"[{"a":1},{"a":2}]"#, r#"{"a":[{"a":1},{"a":1}]}"#,
            r#"{"a":{"b":1},"b":2}"#, r#"{"a":{"b":1},"a":2}"#, r#"{"b":{"a":1,"c":{}},"a":2,"c":3}"#,
            r#"{"a":"a"}"#, r#"["a","a"]"#, r#"{"a":"b","b":"a"}"#, r#"{"a":{"x":1,"x":2}}"#, r#"[[[{"x":1,"x":2}]]]"#,
            r#"[{"a":1,"\u0061":2}]"#, r#"{"a":1,"b":{"c":[{"d":{"e":1,"f":2,"e":3}}]}}"#, r#"{"a":{},"b":{},"a":{}}"#,
            r#"{"name":"n","version":"v","optional":true,"name":"n"}"#, r#"{"a":1,"b":2,"c":3,"d":4,"c":5}"#,
        ];
        for text in texts {
            self.text(&[text.as_bytes()]);
            self.text(&[b"{\"z\":[", text.as_bytes(), b"],\"a\":0}"]);
        }
    }

    /// Long names with common beginnings.
    fn long_names(&mut self) {
        for size in [255usize, 256, 300, 1000, 3000] {
            let name = long_name(size);
            let escaped: Vec<u8> = name.iter().flat_map(|b| format!("\\u{b:04x}").into_bytes()).collect();
            let mut last = name.clone();
            last[size - 1] = b'!';
            let mut first = name.clone();
            first[0] = b'!';
            let short = &name[..size - 1];
            let mut ends = vec![&name[..], &last, &first, short];
            if size <= 1000 {
                ends.push(&escaped);
            }
            for other in ends {
                self.text(&[b"{\"", &name, b"\":1,\"", other, b"\":2}"]);
                if size == 300 || size == 256 {
                    self.pair(&name, other);
                    self.text(&[b"[{\"", other, b"\":{\"", &name, b"\":0},\"k\":1,\"", &name, b"\":2}]"]);
                }
            }
        }
    }

    /// Texts that are both repeated and broken: 2 wins.
    fn repeated_and_broken(&mut self) {
        for head in [&b"{\"a\":1,\"a\":"[..], b"{\"\\u0061\":[],\"a\":", b"[{\"x\":1,\"x\":2},{\"b\":"] {
            let tails: [&[u8]; 16] = [
                b"2", b"2}}", b"2}]]", b"2} x", b"2},]", b"01}", b"\"\xFF\"}", b"\"\\ud800\"}", b"2,}", b"\"\n\"}", b"tru}", b"}",
                b"\"\\q\"}", b"2}\x0B", b"2}]", b"2}",
            ];
            for tail in tails {
                self.text(&[head, tail]);
            }
            self.text(&[head, &nest(0, 33, b""), b"}"]);
            self.text(&[head, &nest(0, 31, b""), b"}"]);
        }
        let many = members(257, b"m", b"1");
        self.text(&[&many[..many.len() - 1]]);
        self.text(&[&many, b"1"]);
        self.text(&[b"[", &many, b",01]"]);
    }

    /// A few texts of 61,440 bytes.
    fn largest_texts(&mut self) {
        let size = 61_440;
        let mut ones = b"[1".to_vec();
        ones.extend(b",1".repeat((size - 4) / 2));
        ones.extend_from_slice(b" ]");
        self.text(&[&ones]);
        self.text(&[b"\"", &b"a".repeat(size - 3), b"\x01"]);
        self.text(&[&nest(0, size / 2, b"")]);
        let long = long_name(30_000);
        self.text(&[b"{\"", &long, b"\":1,\"", &long[..29_999], b"!\":2}", &b" ".repeat(size - 60_011)]);
        let zeros = 8_700;
        self.text(&[b"{\"", &b"\\u0030".repeat(zeros), b"\":1,\"", &b"0".repeat(zeros), b"\":2}"]);
        self.text(&[&b"\n".repeat(size - 2), b"\"", b"\""]);
    }
}

/// Containers in each other, of a pattern, with `core` in the innermost array
/// or, after a name, in the innermost object.
pub fn nest(pattern: usize, depth: usize, core: &[u8]) -> Vec<u8> {
    let is_object = |level: usize| match pattern {
        0 => false,
        1 => true,
        2 => level % 2 == 1,
        3 => level.is_multiple_of(2),
        _ => level * 7 % 5 < 2,
    };
    let mut text = Vec::new();
    for level in 0..depth {
        text.push(if is_object(level) { b'{' } else { b'[' });
        let innermost = level + 1 == depth;
        if is_object(level) && !(innermost && core.is_empty()) {
            text.extend_from_slice(b"\"k\":");
        }
    }
    text.extend_from_slice(core);
    for level in (0..depth).rev() {
        text.push(if is_object(level) { b'}' } else { b']' });
    }
    text
}

/// An object of `count` members with different names.
pub fn members(count: usize, prefix: &[u8], value: &[u8]) -> Vec<u8> {
    let list: Vec<Vec<u8>> = (0..count)
        .map(|i| [b"\"", prefix, i.to_string().as_bytes(), b"\":", value].concat())
        .collect();
    join(&[b"{", &list.join(&b','), b"}"])
}

/// An object of `count` members whose names at `i` and `j` are the same.
fn with_repeat(count: usize, i: usize, j: usize) -> Vec<u8> {
    let list: Vec<String> = (0..count)
        .map(|k| if k == j { format!("\"k{i}\":{{}}") } else { format!("\"k{k}\":[{k}]") })
        .collect();
    format!("{{{}}}", list.join(",")).into_bytes()
}

/// A name of `size` bytes.
fn long_name(size: usize) -> Vec<u8> {
    (0..size).map(|i| b'a' + (i * i % 26) as u8).collect()
}
