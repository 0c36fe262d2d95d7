//! The corners of document 01 that the Rust settles and those of document 02's W8, asked of the oracle; the index against the unlimited scan;
//! and in what the Rust is built otherwise than it is given.

use oracle::answers::{self, Session};
use oracle::generate;
use oracle::protocol::{hex, Answer, Request};

fn ask(session: &mut Session, line: &str) -> Answer {
    Request::read(line).and_then(|r| r.answer(session)).unwrap()
}

fn part(text: &str, pair: &[usize]) -> String {
    text[pair[0]..pair[0] + pair[1]].to_string()
}

// The look-up at `at`: `no 5`, or the close and each item as prefix|key|locator|value|suffix|code|marks.
fn look_up(text: &str, at: usize) -> String {
    let mut session = Session::default();
    ask(&mut session, &format!("text {}", hex(text.as_bytes())));
    let n = ask(&mut session, &format!("lookup {at}")).numbers;
    assert_eq!(n, ask(&mut session, &format!("scan {at}")).numbers);
    if n[0] != 0 {
        return format!("no {}", n[0]);
    }
    let mut out = format!("{}", n[1]);
    for item in n[4..].chunks(16) {
        out.push(' ');
        for pair in item[..10].chunks(2) {
            out.push_str(&part(text, pair));
            out.push('|');
        }
        out.push_str(&format!("{}|{}", item[10], item[11]));
    }
    out
}

fn locator(text: &str) -> String {
    let n = ask(&mut Session::default(), &format!("locator {}", hex(text.as_bytes()))).numbers;
    format!("{}|{}|{}", n[1], part(text, &n[2..4]), part(text, &n[4..6]))
}

#[test]
fn groups() {
    let cases = [
        ("[@a]", "3 |a||||0|0"),
        ("[@a;]", "no 5"),
        ("[;@a]", "no 5"),
        ("[@a][b]", "no 5"),
        ("[@a](", "no 5"),
        ("[\\@a]", "no 5"),
        ("[+@a]", "4 |a||||0|0"),
        ("[+-@a]", "5 |a||||0|1"),
        ("[x -@a, p. 3]", "12 x|a|p. 3|3||9|1"),
        ("[@a,3]", "5 |a|3|3||9|0"),
        ("[@a,x]", "5 |a|x||x|0|0"),
        ("[@a,]", "4 |a||||0|0"),
        ("[+ @a]", "5 |a||||0|0"),
        ("[ +@a]", "5 +|a||||0|0"),
        ("[++@a]", "5 +|a||||0|0"),
        ("[@a;+@b]", "7 |a||||0|0 +|b||||0|0"),
        ("[+@a;+@b]", "8 |a||||0|0 +|b||||0|0"),
        ("[+]", "no 5"),
        ("[+b]", "no 5"),
        ("[+;@a]", "no 5"),
        ("[+@a;b]", "no 5"),
        ("[@b,\\;@a]", "8 |b|\\||\\|0|0 |a||||0|0"),
        ("[\\;@a]", "no 5"),
        ("[@a, [x;@b, y]]", "14 |a|[x||[x|0|0 |b|y]||y]|0|0"),
        ("[@a @b]", "6 @a|b||||0|0"),
        ("[@a, @b]", "7 |a|@b||@b|0|0"),
        ("[@@a]", "4 @|a||||0|0"),
        ("[\\\\@b]", "5 \\\\|b||||0|0"),
        ("[--@a]", "5 -|a||||0|1"),
        ("[\\-@a]", "5 \\-|a||||0|0"),
        ("[- @a]", "5 -|a||||0|0"),
        ("[\u{2003}x\u{a0}@a\u{85}]", "11 x|a||||0|0"),
        ("[\u{200b}@a]", "6 \u{200b}|a||||0|0"),
        ("[@a\u{1c}]", "no 5"),
        ("a", "no 3"),
        ("", "no 3"),
    ];
    for (text, answer) in cases {
        assert_eq!(look_up(text, 0), answer, "{text}");
    }
    assert_eq!(look_up("\\[@a]", 1), "no 4");
    assert_eq!(look_up("][@a]", 1), "4 |a||||0|0");
    assert_eq!(look_up("[@b,[@a]]", 4), "7 |a||||0|0");
}

// Document 02, W8: marks cannot end a key. What is left off stands between the key and the `,` or the end, and the next `@` is tried.
#[test]
fn marks_at_the_end_of_a_key() {
    let none = [
        "[@a.]", "[@ant.]", "[@ant., p. 3]", "[@a. ]", "[@a.,]", "[@a/]", "[@a.-]", "[@a..]", "[@a., p. 3]", "[@a_.]", "[@_.]", "[@.]",
        "[@-]", "[@a.;@b]", "[@b;@a.]",
    ];
    for text in none {
        assert_eq!(look_up(text, 0), "no 5", "{text}");
    }
    let cases = [
        ("[@a.,@b]", "7 @a.,|b||||0|0"),
        ("[@a., p. 3 @b,x]", "15 @a., p. 3|b|x||x|0|0"),
        ("[@a-@b]", "6 @a|b||||0|1"),
        ("[@a. @b]", "7 @a.|b||||0|0"),
        ("[@_]", "3 |_||||0|0"),
        ("[@__]", "4 |__||||0|0"),
        ("[@a_]", "4 |a_||||0|0"),
        ("[@a._]", "5 |a._||||0|0"),
        ("[@a..b]", "6 |a..b||||0|0"),
        ("[@x:1]", "5 |x:1||||0|0"),
    ];
    for (text, answer) in cases {
        assert_eq!(look_up(text, 0), answer, "{text}");
    }
    // no group, so no definition line; and no item has the key of an entry with the id `a.`
    assert_eq!(annotate("[@a.]: x\n[@a]", 0, b""), "1  []");
    assert_eq!(annotate("[@a.] [@a]", 0, b"\x01\x00\x06\x00\x05\x00\x01\x02\x00a."), "1  []");
}

// The copy of citations.rs that is built differs from the given file in the last line of `parse_key` and in the two lines added after its
// end, and in nothing else.
#[test]
fn one_line_is_altered() {
    let given = std::fs::read_to_string(env!("CARVE_CITATIONS")).unwrap();
    let built = include_str!(concat!(env!("OUT_DIR"), "/carve/citations.rs"));
    let (given, built): (Vec<&str>, Vec<&str>) = (given.lines().collect(), built.lines().collect());
    let altered: Vec<usize> = (0..given.len()).filter(|&i| given[i] != built[i]).collect();
    assert_eq!(altered.len(), 1);
    assert_eq!(given[altered[0]], "    Some((&text[start..end], end))");
    assert!(built[altered[0]].contains("trim_end_matches(|c: char| !c.is_ascii_alphanumeric() && c != '_')"));
    let added: Vec<&str> = built[given.len()..].iter().copied().filter(|line| !line.is_empty()).collect();
    assert!(added.len() == 2 && added[0].starts_with("#[path = ") && added[1] == "pub mod probe;", "{added:?}");
}

#[test]
fn builds() {
    let x = |n: usize| "x".repeat(n);
    let cases = [
        (format!("[{}", x(63)), [5, 0]),
        (format!("[{}", x(64)), [5, 1]),
        (format!("[x]{}", x(100)), [5, 0]),
        (format!("[@a,{}]", x(58)), [0, 0]),
        (format!("[@a,{}]", x(59)), [0, 0]),
        (format!("[@a,{}]", x(60)), [0, 1]),
    ];
    for (text, [number, note]) in cases {
        let mut session = Session::default();
        ask(&mut session, &format!("text {}", hex(text.as_bytes())));
        let n = ask(&mut session, "lookup 0").numbers;
        assert_eq!([n[0], n[3]], [number, note], "{text}");
    }
    let index = |text: &str| {
        let mut session = Session::default();
        ask(&mut session, &format!("text {}", hex(text.as_bytes())));
        ask(&mut session, "index").numbers
    };
    assert_eq!(index("[@a]("), [0, 3, 0, 0, 0, 0]);
    assert_eq!(index("][@a]"), [0, 0, 4, 0, 0, 0]);
    assert_eq!(index("[@a;]"), [0; 6]);
}

#[test]
fn locators() {
    let cases = [
        ("p.", "9||"),
        ("p. see", "9||see"),
        ("3,s", "9|3|s"),
        ("p. , 3", "9|, 3|"),
        ("3.", "9|3|"),
        ("p. 3\t4", "9|3|4"),
        ("p. 3\u{a0}4", "9|3|\u{a0}4"),
        (" x ", "0||x "),
        ("\n", "0||\n"),
        ("\u{a0}3", "0||\u{a0}3"),
        ("p.\n3", "0||p.\n3"),
        ("p.\u{a0}3", "0||p.\u{a0}3"),
        ("¶¶s", "2||¶s"),
        ("§§§3", "3||§3"),
        ("§§3", "3|3|"),
        ("chapterIV", "0||chapterIV"),
        ("PP. 3-5, see", "9|3-5|see"),
        ("p. 12 cited", "9|12 ci|ted"), // the Rust's; document 02 (W2) has 12 and cited
        ("vol 3", "0||vol 3"),
        ("", "0||"),
    ];
    for (text, answer) in cases {
        assert_eq!(locator(text), answer, "{text}");
    }
}

// Where document 02's rule of a value (W2) parts from the Rust's: exactly where the Rust cuts a run of ASCII letters.
#[test]
fn rules_part() {
    let cases = [
        ("p. 12 cited", true),
        ("3ca", true),
        ("p. cited", true),
        ("p. 12cited", true),
        ("p. XIVth", true),
        ("p. 12 x.cited", true),
        ("p. 12 mild days", true),
        ("p. 12 mild", false),
        ("p. 12 see", false),
        ("p. 12-see", false),
        ("p. 12 c\u{e9}", false),
        ("3 d'or", false),
        ("12c3ted", false),
        ("p. 3\tiv", false),
        ("3 ci", false),
        ("chapterIV", false),
    ];
    for (text, parts) in cases {
        let n = answers::locator(text.as_bytes());
        assert_eq!(answers::rules_part(text.as_bytes(), [n[2], n[3]], [n[4], n[5]]), parts, "{text}");
    }
}

// Standings, numbers, labels and reference order of an annotation.
fn annotate(text: &str, mode: usize, pool: &[u8]) -> String {
    let mut session = Session::default();
    ask(&mut session, &format!("text {}", hex(text.as_bytes())));
    let answer = ask(&mut session, &format!("annotate {mode} {}", hex(pool)));
    let n = &answer.numbers;
    let labels = answer.bytes.as_deref().map(|b| std::str::from_utf8(b).unwrap()).unwrap();
    let (groups, rest) = n[6..].split_at(5 * n[1]);
    let (items, references) = rest.split_at(16 * n[2]);
    let standings: Vec<String> = groups.chunks(5).map(|g| g[4].to_string()).collect();
    let numbered = items.chunks(16).filter(|i| i[12] > 0);
    let items: Vec<String> = numbered.map(|i| format!("{}.{}.{}", i[12], i[13], part(labels, &i[14..]))).collect();
    format!("{} {} {:?}", standings.concat(), items.join(","), references)
}

#[test]
fn annotations() {
    let cases = [
        ("See [@a, p. 12; -@b].\n[@a]: Ant.\n[@b]: Bee.\n", "200 1.0.1,2.0.2 [1, 2]"),
        ("[@a]: {author=B [@c]}\n[@a]", "002 1.0.1 [1]"),
        ("[@a]: {author=B [c]}\n[@a]", "02 1.0.B [1]"),
        ("[@a]: {author=B\n}\n[@a]", "02 1.0.1 [1]"),
        ("[@a]: {author=B [c\n]}\n[@a]", "02 1.0.1 [1]"),
        ("[@a]: {author=B\r year=2}\u{2028}[@z]\n[@a]", "002 1.0.B 2 [1]"),
        ("[@a, x\ny] [@a\n]: z\n[@a]: q", "220 1.0.1,1.0.1 [1]"),
        ("[@a]: {author=A x year=1}\n[@a]", "02 1.0.A [1]"),
        ("[@a]: {=x author=A}\n[@a]", "02 1.0.A [1]"),
        ("[@a]: {author=a=b}\n[@a]", "02 1.0.a=b [1]"),
        ("[@a]: {author=\"Le Guin\" year=3}\n[@a]", "02 1.0.Le [1]"),
        ("[@a]: {author=\"'x'\"}\n[@a]", "02 1.0.x [1]"),
        ("[@a]: {author='\"x\"'}\n[@a]", "02 1.0.\"x\" [1]"),
        ("[@a]: {author=A\\} year=2}\n[@a]", "02 1.0.A\\ [1]"),
        ("[@a]: {year=5 year=6}\n[@a;-@a]", "02 1.0.5,1.0.5 [1]"),
        ("[@a]: {year=}\n[@a;-@a]", "02 1.0.1,1.0. [1]"),
        ("[@a]: {author=A}\n[@a]: x\n[@a]", "002 1.0.1 [1]"),
        ("[@b] [@a] [@c]\n[@a]: {author=}\n[@b]: x\n[@c]: {author=ba}", "222000 1.0.1,2.0.2,3.0.ba [2, 1, 3]"),
    ];
    for (text, answer) in cases {
        let mode = usize::from(!text.starts_with("See"));
        assert_eq!(annotate(text, mode, b""), answer, "{text}");
    }
    for text in ["[@a]: ", "[+@a]: x", "[@a,]: x", "[ @a ]: x"] {
        assert_eq!(annotate(text, 0, b""), "0  []", "{text}");
    }
    let none =
        ["[@a]:", "[@a]:\tx", "[@a]:\u{a0}x", "[@a]:\nx", "[@a] : x", " [@a]: x", "[-@a]: x", "[x @a]: x", "[@a,x]: x", "[@a;@a]: x"];
    for text in none {
        assert_eq!(annotate(text, 0, b""), "1  []", "{text}");
    }
    // `00 00` is a pool of none: uses count
    assert_eq!(annotate("[@a]: x\n[@a] [@a]", 0, &[0, 0]), "022 1.1.1,1.2.1 [1]");
}

#[test]
fn sources() {
    let ask = |line: &str| ask(&mut Session::default(), line);
    for (pool, number) in [("-", 8), ("0000", 8), ("00", 7), ("000000", 7), ("0100", 7)] {
        assert_eq!(ask(&format!("source {pool} 0")).numbers, [number, 0], "{pool}");
    }
    // id `x`; a name of family `Ant` and an empty given name; year -44
    let year = hex(&(-44i64).to_le_bytes());
    let entry = format!("01010078020000030300416e74040000060800{year}");
    let pool = format!("01000600{:02x}00{entry}", entry.len() / 2);
    assert_eq!(ask(&format!("source {pool} 0")).bytes.unwrap(), b"Ant,  (-44).");
    assert_eq!(ask(&format!("source {pool} 1")).numbers, [8, 0]);
}

// What the kept index answers is what the unlimited scan answers, in every order of calls.
#[test]
fn index_and_scan() {
    for (kind, count) in [("lookup", 20_000), ("annotate", 20_000), ("many", 500)] {
        let mut session = Session::default();
        let mut kept = Vec::new();
        generate::requests(1, count, kind, &mut |request| {
            let answer = request.answer(&mut session).unwrap();
            match request {
                Request::LookUp(_) | Request::Annotate(..) => kept = answer.numbers,
                Request::Scan(_) | Request::Plain(..) => assert_eq!(kept, answer.numbers),
                _ => {}
            }
        });
    }
}

// Every text of up to six of these bytes: an index entry stands just where the unlimited scan finds a group. (A `[` after the
// close, which the index does not look at, is left out.)
#[test]
fn index_entries() {
    const BYTES: &[u8] = b"[]@a;, \\";
    let mut session = Session::default();
    for length in 0..=6 {
        for number in 0..BYTES.len().pow(length) {
            let text: Vec<u8> = (0..length).map(|i| BYTES[number / BYTES.len().pow(i) % BYTES.len()]).collect();
            session.set_text(&text);
            for (at, close) in session.index().into_iter().enumerate() {
                let found = session.look_up(at, true);
                assert!(close == found.close || found.number == 5 && text[close + 1] == b'[', "{text:?} {at}");
            }
        }
    }
}

#[test]
fn white_space() {
    let white: Vec<u32> = (0..=0x10FFFF).filter(|&c| char::from_u32(c).is_some_and(char::is_whitespace)).collect();
    assert_eq!(white, generate::WHITE);
}
