//! Texts of single values: plain ones, odd ones and random changes of both.

use mkperth_core::Date;

use crate::duration::{self, Duration};
use crate::leaf::Kind;
use crate::number;
use crate::rng::Rng;

/// Unicode White_Space, and at the end three characters that look like it and are not.
const BLANKS: [&str; 28] = [
    "\t", "\n", "\u{b}", "\u{c}", "\r", " ", "\u{85}", "\u{a0}", "\u{1680}", "\u{2000}", "\u{2001}", "\u{2002}", "\u{2003}", "\u{2004}", "\u{2005}",
    "\u{2006}", "\u{2007}", "\u{2008}", "\u{2009}", "\u{200a}", "\u{2028}", "\u{2029}", "\u{202f}", "\u{205f}", "\u{3000}", "\u{200b}", "\u{feff}",
    "\u{180e}",
];

const DATES: &[&str] = &[
    "1970-01-01", "1969-12-31", "2024-02-29", "2023-02-29", "2000-02-29", "1900-02-29", "2026-01-05T08:00:00", "2026-3-5T08:00", "2026-1-2",
    "2026-1-2T", "2026-01-05-7", "2026-01-05Z", "+2026-+1-+5", "+2026-+01-+05", "+2026-01-5", "9999-12-31", "9999-12-31T23:59:59", "10000-01-01",
    "10000-1-1", "99999-1-1", "0000-01-01", "0000-02-29", "0-1-1", "0-3-1", "-1-01-01", "-2026-01-05", "--1", "--", "-", "", "2026", "2026-01",
    "2026-01-", "2026--05", "-01-05", "2026-00-05", "2026-13-05", "2026-12-00", "2026-12-32", "2026-04-31", "2026-02-30", "2026/01/05",
    " 2026-01-05", "2026-01-05 ", "  2026-1-2  ", "2026-1-2\u{a0}", "2026-01-05\u{e9}", "2026-1-05\u{e9}", "2026-01-0\u{e9}", "2026-1-5\u{3000}x",
    "2026-1-50\u{e9}", "2026-1-5 \u{e9}", "2026 -01-05", "2026- 1-05", "2026-1- 5", "2026-1-5\tx", "20260105", "2026-1-5-", "2026-01-+5",
    "2026-1-++5", "+-1-1-1", "2026-001-1", "02026-1-1", "000002026-1-1", "2026-1-001", "9999-2-29", "9996-2-29", "4294967297-1-1", "2147483647-1",
    "1-1-1", "1-01-01", "01-01-01", "0001-01-01", "2026-01-05T", "2026-01-05T24:00", "NA", "\u{0661}-1-1", "2026-1-\u{0665}", "2026\u{2010}01-05",
    "2100-02-28", "2100-02-29", "1600-02-29", "1582-10-10", "8888-08-08", "2026-09-31", "2026-06-31", "2026-11-31", "\u{3000}2026-1-5",
    "\u{3000}2026-01-05", "1970-01-02", "2038-01-19", "0400-02-29", "0100-02-29", "9999-12-32", "+9999-12-31", "+999-12-31", "2026-01-5\u{a0}",
    "2026-01-5\u{a0}\u{a0}\t", "2026-1-5\u{3000}", "2026-01-5\u{3000}", "2026-01-5\u{a0}x", "2026-1-5\u{1f600}", "2026-1-5 \u{3000}",
    "\u{3000}\u{3000}\u{3000}\u{3000}2026-01-05", "\u{3000}\u{3000}\u{3000}\u{3000}2026-01-05T08:00", "\u{3000}\u{3000}\u{3000}2026-01-05",
    "\u{a0}\u{a0}\u{a0}\u{a0}\u{a0}2026-01-05",
];

const TIMES: &[&str] = &[
    "08:00:00", "00:00", "00:00:00", "24:00", "24:00:00", "24:01", "24:00:59", "23:59", "23:59:59", "23:60", "25:00", "8", "08", "24", "25", "", ":",
    "::", ":30", "8:", "8::", "8:5", "8:05", "08:30:99", "08:30:", "08:30:xx:yy", "8:30 ", " 8:30", "8 :30", "8: 30", "+8:+30", "+8", "-8:00",
    "-0:00", "8:-0", "8:-1", "1093:00", "1092:15", "1092:16", "65535:00", "65535:59", "65536:00", "0:65535", "0:65536", "24:59", "12:59", "12:60",
    "008:00", "0000000008:00", "8:0000000030", "8.5", "8h", "17:00", "1440", "0:0", "0", "00", "\u{0668}:00", "08:00\u{a0}", "\u{2003}08:00\u{85}",
    "8:00\u{200b}", "noon", "08\u{ff1a}00", "12:00:00.5", "1e1:00", "0x8:00", "24:0", "+24:+0", "++8:00", "+:00", "+", "8:+", "00:01", "00:59",
    "01:00",
];

const DURATIONS: &[&str] = &[
    "P", "PT", "PT0S", "PT30S", "PT29S", "PT29.9S", "PT30.0S", "PT89S", "PT90S", "PT1H2H", "PT1M2M", "PT1S2S", "PT1H2M3H", "PT16666666H40M",
    "PT16666666H41M", "PT16666666H40M29S", "PT16666666H40M30S", "PT16666666.6H", "P694444D", "P694444DT10H40M", "P694444DT10H41M", "P694445D",
    "PT1000000000M", "PT1000000001M", "PT1000000000.4M", "PT60000000000S", "PT60000000001S", "P1DT1H", "P1D", "P1DT", "P1DT0H", "P1.5D", "P.5D",
    "P5.D", "P0.5DT.5H", "P1Y", "P1M", "P1W", "P1Y2M3D", "PT5", "PT5X", "PT1H5", "P5", "P5T1H", "P1DT1", "PTH", "PTM", "PTS", "PDT1H", "PD",
    "PT8H0M0S", "PT8H30M0S", "P2DT4H0M0S", " PT8H ", "\u{3000}PT8H\u{a0}", "PT 8H", "PT8 H", "PT8H ", "P T8H", "pt8h", "PT8h", "Pt8H", "-PT8H",
    "+PT8H", "PT-8H", "PT+8H", "PT-0H", "PT-0.0H", "PT-0.1H", "P-1D", "P-0D", "P+1D", "PTinfH", "PTnanH", "PTNaNH", "PTINFH", "PTinfinityH",
    "P1infD", "PInfD", "PTT", "PT1HT", "PT1HT1M", "PTT1H", "P1TD", "P1DT1D", "P1D1D", "P1D2DT", "PT1.5H", "PT1,5H", "PT1e2H", "PT1E2M", "PT1e-2H",
    "PT1eH", "PT1e+2M", "PT.H", "PT1.H", "PT.5H", "PT1H30", "PT1H30M.5", "PT1H30M0.5S", "PT0.5M", "PT0.4999M", "PT1.5M", "PT2.5M",
    "PT0.49999999999999M", "PT1234567890123456H", "PT123456789012345H", "PT0000001234567890123456H", "PT000000123456789012345H",
    "PT1234567890123456", "P1234567890123456", "P1234567890123456D", "P1234567890123456DTx", "PTxH1234567890123456H", "PT1XH1234567890123456H",
    "PT-1H1234567890123456H", "PT-1234567890123456H", "PTinfH1234567890123456H", "PT1H1234567890123456", "PT1H1234567890123456M",
    "PT1234567890123456H5", "PT1234567890123456Hx", "PT1e23H", "PT1e22H", "PT1e-22H", "PT1e-23H", "PT0e99H", "PT1e400H", "PT1e-400H",
    "PT0e99999999999999999999H", "PT1e99999999999999999999H", "PT0.0000000000000000000001H", "PT0.00000000000000000000001H", "PT1H2M3S", "PT3S2M1H",
    "PT1S1M1H1S", "", " ", "T", "PP", "PPT1H", "P1DT2H3M4S5", "P1DT2H3M4S", "PT1H\u{e9}", "PT\u{e9}H", "PT1\u{a0}H", "P\u{a0}T1H", "PT0.1H",
    "PT0.7S", "PT59.9S", "PT99999999H", "PT0.3H0.7M", "PT100000H", "P1D T1H", "PT1H P", "PTHM", "PT1HM", "P0D", "P00D", "P00DT00H00M00S", "PT1_0H",
    "PT0x1H", "PT60S", "PT59S", "PT120S", "PT0.1M", "PT1.5S", "P0.0001D", "P0.1D", "PT0.1H54M", "PT0.1M54S", "PT0.7M18S", "PT0.35H", "PT2.05H",
    "PT8.3H", "PT4.15H", "P37.45D", "PT0.01H0.3M6S", "PT1M1e-20S", "PT1M1e-14S", "PT999999999M1e-6S", "PT999999999M1e-5S", "PT999999999.5M",
    "PT1000000000M1e-6S", "PT1000000000M1e-5S", "PT-0S", "P-0DT-0H-0M-0S", "PT30S60S", "PT60S30S", "PT0.5M1M", "PT6e1S", "PT3e1S", "PT1e-22S",
    "P0.5DT0.5H0.5M0.5S", "\u{a0}PT30S\n",
];

const NUMBERS: &[&str] = &[
    "0", "-0", "+0", "0.0", "-0.0", "1", "+7", "-1", ".5", "5.", "-.5", "+.5", "-5.", ".", "", "+", "-", "e", "e5", ".e5", "1e", "1e+", "1e-",
    "1e+5", "1e3", "1E-2", "1E+2", "1e05", "1e0000000000000000000003", "1.e3", ".5e1", "5.e-1", "1_0", "0x10", "1,5", "1 ", " 1", "1\u{a0}", "++1",
    "--1", "+-1", "1-", "1.2.3", "1e2e3", "1e2.0", "1e 2", "inf", "-inf", "+inf", "Inf", "INF", "infinity", "-Infinity", "INFINITY", "nan", "NaN",
    "-nan", "+NAN", "in", "infi", "nano", "infinit", "infinityx", "1inf", "123456789012345", "1234567890123456", "999999999999999",
    "9999999999999999", "000123456789012345", "0001234567890123456", "0.00000123456789012345", "1.23456789012345", "1.234567890123456",
    "100000000000000", "1000000000000000", "10000000000000000", "1.00000000000000", "1.000000000000000", "0.100000000000000", "0.1000000000000000",
    "1e22", "1e23", "1e-22", "1e-23", "12e21", "1.2e23", "1.2e24", "0.1e23", "0.1e24", "1.5e-21", "1.5e-22", "123456789012345e22",
    "123456789012345e23", "123456789012345e-22", "123456789012345e-23", "0e23", "0e-23", "0e400", "0.0e99999", "-0e-99999", "00000000000000000000",
    "0.00000000000000000000000", "-00000000000000000.0000000000000000e77", "1e400", "1e-400", "-1e400", "1.7976931348623157e308", "4.9e-324",
    "2.2250738585072014e-308", "0.1", "0.2", "0.3", "0.7", "1.1", "2.675", "1.005", "3.3", "99.995", "100.005", "9007199254740993",
    "900719925474099", "480", "480.5", "1440", "1440.4", "1440.5", "0.5", "1.5", "2.5", "0.49999999999999", "0.99999999999999", "8.33333333333333",
    "0.333333333333333", "0.3333333333333333", "1e13", "9999999999999.99", "10000000000000", "-9999999999999.99", "1e6", "1000000.1", "1e15", "1e-1",
    "\u{0661}", "1\u{200b}", "1f", "1.0f64", "0b1", "1d", "12345.678", "-12345.678", "1.e", ".1e", "1.e+", "0.e0", ".0", "0.", "-.0", "+0.", "00.00",
    "01", "-01.50",
];

/// Ends of each width and odd forms of whole numbers.
const WHOLES: &[&str] = &[
    "0", "-0", "+0", "1", "-1", "+1", "+-1", "-+1", "++1", "--1", "", "+", "-", " 1", "1 ", "1\u{a0}", "00", "007", "-007", "+007", "1.0", "1e3",
    "1_000", "0x10", "\u{0661}", "\u{ff11}", "a", "1a", "a1", "32767", "32768", "65534", "65535", "65536", "+65535", "065535", "2147483646",
    "2147483647", "2147483648", "-2147483647", "-2147483648", "-2147483649", "4294967294", "4294967295", "4294967296", "+4294967295",
    "9223372036854775806", "9223372036854775807", "9223372036854775808", "-9223372036854775807", "-9223372036854775808", "-9223372036854775809",
    "18446744073709551614", "18446744073709551615", "18446744073709551616", "+18446744073709551615", "-18446744073709551615", "99999999999999999999",
    "-99999999999999999999", "100000000000000000000000000000000000000000", "000000000000000000000000000000000000000000001",
    "-000000000000000000000000000000000000000000001", "0000000000000000000000000000018446744073709551615", "9", "10", "99", "100", "100000000000",
    "-100000000000", "1,000", "\u{2212}1", "1-", "1+",
];

const TRIMS: &[&str] = &[
    "", " ", "a", " a", "a ", " a ", "a b", " a b ", "\t\n\u{b}\u{c}\r a", "a\u{1c}", "\u{1c}a\u{1f}", "a\u{0}", "\u{0} a", "\u{85}a\u{85}",
    "\u{a0}a\u{a0}", "\u{1680}a", "a\u{1680}", "\u{180e}a\u{180e}", "\u{200b}a\u{200b}", " \u{200b} ", "\u{feff}a", "\u{2028}a\u{2029}",
    "\u{202f}a\u{205f}", "\u{2060}a", "\u{3000}\u{3000}", "\u{3000}a\u{3000}b\u{3000}", "\u{3001}a\u{3001}",
    "\u{2000}\u{2001}\u{2002}a\u{2008}\u{2009}\u{200a}", "\u{1fff}a", "a\u{200c}", "\u{e9}", " \u{e9} ", "\u{e0}\u{a0}", "\u{20ac}\u{2003}",
    "\u{1f600} ", " \u{1f600}", "\u{84} a \u{86}", "\u{9f}a\u{a1}", "\u{c2}a", "\u{0}\u{85}", "\u{2800}a\u{2800}", "\u{1681}a\u{167f}",
    "\u{2027}a\u{202a}", "\u{205e}a\u{2060}", "\u{2fff}a\u{3001}",
];

const UTF8: &[&[u8]] = &[
    b"", b"a", b"\x00", b"\x7f", b"\x80", b"\xbf", b"\xc0", b"\xc0\x80", b"\xc1\xbf", b"\xc2", b"\xc2\x80", b"\xc2\x7f", b"\xc2\xbf", b"\xc2\xc0",
    b"\xdf\xbf", b"\xdf", b"\xe0\x80\x80", b"\xe0\x9f\xbf", b"\xe0\xa0\x80", b"\xe0\xa0", b"\xe0", b"\xe1\x80\x80", b"\xe1\x80", b"\xe1\x80\x7f",
    b"\xec\xbf\xbf", b"\xed\x9f\xbf", b"\xed\xa0\x80", b"\xed\xbf\xbf", b"\xed\x80\x80", b"\xee\x80\x80", b"\xef\xbf\xbf", b"\xef\xbb\xbf",
    b"\xef\xbf\xbe", b"\xf0\x80\x80\x80", b"\xf0\x8f\xbf\xbf", b"\xf0\x90\x80\x80", b"\xf0\x90\x80", b"\xf0\x90", b"\xf0", b"\xf3\xbf\xbf\xbf",
    b"\xf4\x8f\xbf\xbf", b"\xf4\x90\x80\x80", b"\xf4\x80\x80\x80", b"\xf5\x80\x80\x80", b"\xf7\xbf\xbf\xbf", b"\xf8\x88\x80\x80\x80", b"\xfe",
    b"\xff", b"a\xc3\xa9", b"\xc3\xa9\xc3", b"\xc3\xa9a\x80", b"ab\xe2\x82\xacz", b"ab\xe2\x82z", b"\xe2\x28\xa1", b"\xf0\x28\x8c\xbc",
    b"\xf0\x90\x28\xbc", b"\xf0\x9f\x98\x80", b"\xf0\x9f\x98\x80\x80", b"\xc2\x80\xe0\xa0\x80\xf0\x90\x80\x80\x7f",
];

/// The fixed texts of a kind, the limits among them.
pub fn fixed_texts(kind: Kind) -> Vec<Vec<u8>> {
    let plain = |texts: &[&str]| texts.iter().map(|t| t.as_bytes().to_vec()).collect::<Vec<_>>();
    match kind {
        Kind::Date => plain(DATES),
        Kind::Time => plain(TIMES),
        Kind::Duration => plain(DURATIONS).into_iter().chain(long_durations()).collect(),
        Kind::Number => plain(NUMBERS).into_iter().chain(long_numbers()).collect(),
        Kind::Trim => plain(TRIMS).into_iter().chain(BLANKS.iter().map(|b| format!("{b}x{b}").into_bytes())).collect(),
        Kind::Utf8 => UTF8.iter().map(|t| t.to_vec()).collect(),
        _ => plain(WHOLES),
    }
}

/// Exponents and digits of a thousand places.
fn long_numbers() -> Vec<Vec<u8>> {
    let (nines, zeros) = ("9".repeat(1000), "0".repeat(1000));
    [
        format!("1e{nines}"),
        format!("1e-{nines}"),
        format!("0e{nines}"),
        format!("0.{zeros}e-{nines}"),
        format!("1e{zeros}3"),
        format!("1e-{zeros}3"),
        format!("{zeros}12.5"),
        format!("0.{zeros}1e1001"),
        format!("0.{zeros}1e1024"),
        format!("0.{zeros}1e979"),
        format!("0.{zeros}1"),
        format!("1{zeros}e-1000"),
        format!("1.{zeros}"),
        format!("{nines}"),
        format!("-{zeros}"),
    ]
    .map(String::into_bytes)
    .to_vec()
}

fn long_durations() -> Vec<Vec<u8>> {
    long_numbers().into_iter().map(|n| [b"PT".as_slice(), &n, b"H"].concat()).collect()
}

/// A random text of that kind.
pub fn leaf_text(kind: Kind, rng: &mut Rng) -> Vec<u8> {
    match kind {
        Kind::Utf8 => utf8_bytes(rng),
        Kind::Trim => trim_text(rng).into_bytes(),
        Kind::Date => changed(rng, date, "0123456789-+T \u{e9}\u{a0}").into_bytes(),
        Kind::Time => changed(rng, time, "0123456789:+- \u{a0}").into_bytes(),
        Kind::Duration => changed(rng, |rng| duration(rng, true), "0123456789PTDHMS.eE+- ").into_bytes(),
        Kind::Number => changed(rng, |rng| decimal(rng, true), "0123456789.eE+- ").into_bytes(),
        _ => changed(rng, whole, "0123456789+- a").into_bytes(),
    }
}

/// Mostly the text as made, else with one or more random changes.
fn changed(rng: &mut Rng, make: impl Fn(&mut Rng) -> String, alphabet: &str) -> String {
    let mut text: Vec<char> = make(rng).chars().collect();
    let letters: Vec<char> = alphabet.chars().collect();
    while rng.one_in(3) {
        let (at, letter) = (rng.below(text.len() + 1), letters[rng.below(letters.len())]);
        match rng.below(3) {
            0 => text.insert(at, letter),
            1 if at < text.len() => text[at] = letter,
            _ if at < text.len() => drop(text.remove(at)),
            _ => {}
        }
    }
    text.into_iter().collect()
}

pub fn blanks(rng: &mut Rng) -> String {
    let mut text = String::new();
    while rng.one_in(2) {
        text.push_str(rng.pick(&BLANKS));
    }
    text
}

fn trim_text(rng: &mut Rng) -> String {
    let middle = rng.pick(&["", "a", "a b", "\u{e9}", "\u{20ac}", "\u{1f600}", "\u{e2}\u{80}", "x\u{a0}y"]);
    format!("{}{}{}{middle}{}{}", blanks(rng), blanks(rng), blanks(rng), blanks(rng), blanks(rng))
}

fn utf8_bytes(rng: &mut Rng) -> Vec<u8> {
    const EDGES: &[u8] = &[
        0, 0x61, 0x7f, 0x80, 0x8f, 0x90, 0x9f, 0xa0, 0xbf, 0xc0, 0xc1, 0xc2, 0xdf, 0xe0, 0xe1, 0xec, 0xed, 0xee, 0xef, 0xf0, 0xf1, 0xf3, 0xf4, 0xf5,
        0xff,
    ];
    let mut bytes = Vec::new();
    for _ in 0..rng.below(6) {
        match rng.below(3) {
            0 => bytes.push(EDGES[rng.below(EDGES.len())]),
            1 => bytes.extend_from_slice(UTF8[rng.below(UTF8.len())]),
            _ => bytes.extend_from_slice(char::from_u32(rng.next() as u32 >> 11).unwrap_or('\u{10ffff}').to_string().as_bytes()),
        }
    }
    bytes
}

/// The text of a field of a yes: half of them are one, one in six of these as `true`; the others look like one at most.
pub fn yes(rng: &mut Rng) -> String {
    let text = match rng.below(12) {
        0 => "true",
        1..=5 => "1",
        _ => rng.pick(&["0", "0", "0", "0", "false", "TRUE", "True", "truer", "tru", "yes", "01", "+1", "1 1", "11"]),
    };
    if rng.one_in(20) { format!("{}{text}{}", blanks(rng), blanks(rng)) } else { text.into() }
}

/// A date's text; most are read.
pub fn date(rng: &mut Rng) -> String {
    if rng.one_in(12) {
        return rng.pick(DATES).into();
    }
    let days = match rng.below(4) {
        0 => rng.range(-719_528, 2_932_896),
        1 => rng.range(2_890_000, 2_932_896),
        _ => rng.range(20_400, 21_200),
    };
    dated(rng, days as i32)
}

/// A date in one of the ways to write it.
pub fn dated(rng: &mut Rng, days: i32) -> String {
    let Some(date) = Date::from_days(days) else { return "none".into() };
    let (y, m, d) = date.ymd();
    match rng.below(12) {
        0 => format!("{y}-{m}-{d}"),
        1 => format!("{date}"),
        2 => format!("+{y}-{m}-{d}"),
        3 => format!("{date}\u{e9}"),
        _ => format!("{date}T{}", rng.pick(&["00:00:00", "08:00:00", "17:00:00", "23:59:00"])),
    }
}

/// A time's text; most are read.
pub fn time(rng: &mut Rng) -> String {
    let (h, m) = (rng.range(0, 25), rng.range(0, 61));
    match rng.below(10) {
        0 => rng.pick(TIMES).into(),
        1 => format!("{h}"),
        2 => format!("{h}:{m}"),
        3..=6 => format!("{:02}:00:00", rng.range(0, 24)),
        _ => format!("{h:02}:{m:02}:00"),
    }
}

/// A number's text that is short, or any where `long` allows it.
pub fn decimal(rng: &mut Rng, long: bool) -> String {
    loop {
        let text = any_decimal(rng);
        if long || !number::is_long(&text) {
            return text;
        }
    }
}

fn any_decimal(rng: &mut Rng) -> String {
    if rng.one_in(10) {
        return rng.pick(NUMBERS).into();
    }
    let sign = rng.pick(&["", "", "", "", "", "-", "+"]);
    let whole = digits(rng, 6);
    let text = match rng.below(4) {
        0 => format!("{sign}{whole}"),
        1 => format!("{sign}{whole}.{}", digits(rng, 3)),
        2 => format!("{sign}{whole}.{}", digits(rng, 12)),
        _ => format!("{sign}{}", digits(rng, 18)),
    };
    if rng.one_in(5) { format!("{text}{}{}", rng.pick(&["e", "E", "e-", "e+"]), rng.range(0, 30)) } else { text }
}

/// One to `most` digits.
fn digits(rng: &mut Rng, most: usize) -> String {
    let count = 1 + rng.below(most);
    (0..count).map(|_| if rng.one_in(4) { '0' } else { (b'0' + rng.below(10) as u8) as char }).collect()
}

/// A duration's text without a piece that is too long, or any where `long` allows it.
pub fn duration(rng: &mut Rng, long: bool) -> String {
    loop {
        let text = any_duration(rng, long);
        if long || duration::duration(&text) != Duration::Long {
            return text;
        }
    }
}

fn any_duration(rng: &mut Rng, long: bool) -> String {
    if rng.one_in(12) {
        return rng.pick(DURATIONS).into();
    }
    match rng.below(5) {
        0 | 1 => return format!("PT{}H{}M0S", rng.range(0, 400), rng.pick(&["0", "0", "30", "15", "59", "61"])),
        2 => return parts(rng),
        _ => (),
    }
    let mut text = String::from("P");
    if rng.one_in(3) {
        text.push_str(&format!("{}D", decimal(rng, long)));
    }
    text.push('T');
    for unit in ["H", "M", "S", "H"] {
        if rng.one_in(2) {
            text.push_str(&format!("{}{unit}", decimal(rng, long)));
        }
    }
    text
}

/// Figures whose sum is at times whole and at times not, some of them only in f64.
const DAYS: &[&str] = &["1", "0.5", "0.1", "0.0001", "0.01", "1e-4", "-0", "694444", "0.00069444444444", "1.00001"];
const HOURS: &[&str] = &["8", "0.1", "0.01", "0.5", "0.05", "1e-2", "-0", "2.7", "0.3333333333333", "2.05", "8.3", "16666666"];
const MINUTES: &[&str] = &["54", "0.1", "0.5", "1.5", "0.9", "0.7", "1e-1", "5e-1", "-0", "40", "59.4", "0.3", "999999999.5", "2e-22"];
const SECONDS: &[&str] =
    &["29", "30", "59", "60", "90", "0", "-0", "1.5", "6", "18", "36", "54", "0.6", "1e-20", "0.000001", "3e1", "600e-1", "119.99"];

/// A duration of such figures, in any order and with units repeated at times.
fn parts(rng: &mut Rng) -> String {
    let mut text = String::from("P");
    if rng.one_in(4) {
        text.push_str(&format!("{}D", rng.pick(DAYS)));
    }
    text.push('T');
    for _ in 0..1 + rng.below(3) {
        let (figures, unit) = [(HOURS, 'H'), (MINUTES, 'M'), (SECONDS, 'S')][rng.below(3)];
        text.push_str(&format!("{}{unit}", rng.pick(figures)));
    }
    text
}

/// A whole number's text around the ends of every width.
pub fn whole(rng: &mut Rng) -> String {
    let near = |end: i128, rng: &mut Rng| (end + i128::from(rng.range(-3, 3))).to_string();
    match rng.below(8) {
        0 => rng.pick(WHOLES).into(),
        1 => near(0, rng),
        2 => near(i128::from(i64::MAX), rng),
        3 => near(i128::from(i64::MIN), rng),
        4 => near(i128::from(u64::MAX), rng),
        5 => near(1i128 << rng.pick(&[&16, &31, &32]), rng),
        6 => near(-(1i128 << 31), rng),
        _ => format!("{}{}", rng.pick(&["", "", "-", "+"]), digits(rng, 21)),
    }
}
