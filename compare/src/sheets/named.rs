//! Sheets by name, each with the error that it must get, stated without a reader: the edges of the description, every
//! bound with its neighbours, and faults of several kinds in one line and in two. For each stop there is one with what
//! it prints.

use crate::sheets::reader::{
    COORDINATE, DISTANCE, LIMIT, MALFORMED, MOST_BYTES, NO_SUCH_POINT, OUT_OF_RANGE, POINTS, REACH,
    RULES, Range,
};

pub struct Named {
    pub name: String,
    pub text: Vec<u8>,
    /// None where it is accepted.
    pub error: Option<u64>,
    /// What is printed, where that is known.
    pub prints: Option<&'static str>,
}

/// An accepted sheet with a line of every kind; the edges are changes of it.
const BASE: &str =
    "points=2\nat=0,0\nat=30,40\nlimit=3\nreach=10\nrules=3\nspan=0,1,60\nlevel=0,1\nplumb=1,0\n";

fn named(name: impl Into<String>, text: impl Into<Vec<u8>>, error: Option<u64>) -> Named {
    Named {
        name: name.into(),
        text: text.into(),
        error,
        prints: None,
    }
}

/// The base with one text in place of another that it has once.
fn with(old: &str, new: &str) -> String {
    assert!(BASE.matches(old).count() == 1, "{old} is in the base once");
    BASE.replace(old, new)
}

/// The example of the description first, then a sheet for every other stop; each with what it prints.
#[rustfmt::skip]
const PRINTS: [(&str, &str, &str); 6] = [
    (
        "the example",
        "points=1\nat=3,4\nlimit=0\nreach=1\nrules=0\n",
        "stop=budget\niterations=0\nturned=0\nat=4008000000000000,4010000000000000\n",
    ),
    (
        "budget",
        "points=2\nat=0,1\nat=0,0\nlimit=1\nreach=1\nrules=1\nlevel=0,1\n",
        "stop=budget\niterations=1\nturned=0\nat=0000000000000000,3FE0000000000005\n\
         at=0000000000000000,3FDFFFFFFFFFFFFE\n",
    ),
    (
        "damped",
        "points=3\nat=0,0\nat=1900000,0\nat=0,9000000\nlimit=10\nreach=1\nrules=3\nlevel=0,2\nplumb=0,1\n\
         span=0,2,1\n",
        "stop=damped\niterations=1\nturned=518\nat=3FD19A555BBDF885,3FE4D8728E537DAA\n\
         at=413CFDDFB996AA91,0000000000000000\nat=0000000000000000,41612A87EB278D72\n",
    ),
    (
        "flat",
        "points=2\nat=1,0\nat=0,0\nlimit=8\nreach=1\nrules=1\nspan=0,1,7\n",
        "stop=flat\niterations=7\nturned=0\nat=400FFFFFFFFFFFFE,0000000000000000\n\
         at=C008000000000001,0000000000000000\n",
    ),
    (
        "nochange",
        "points=2\nat=0,1\nat=0,0\nlimit=5\nreach=1\nrules=1\nlevel=0,1\n",
        "stop=nochange\niterations=3\nturned=1\nat=0000000000000000,3FE0000000000002\n\
         at=0000000000000000,3FE0000000000001\n",
    ),
    (
        "undecided",
        "points=2\nat=3,0\nat=-2,0\nlimit=5\nreach=9\nrules=1\nplumb=1,0\n",
        "stop=undecided\niterations=3\nturned=1\nat=3FE0000000000010,0000000000000000\n\
         at=3FE0000000000008,0000000000000000\n",
    ),
];

fn stops() -> Vec<Named> {
    let stop = |&(name, text, prints): &(&str, &str, &'static str)| Named {
        prints: Some(prints),
        ..named(name, text, ACCEPTED)
    };
    PRINTS.iter().map(stop).collect()
}

/// The base with zeros before its last number, as long as wanted.
fn of_length(bytes: usize) -> String {
    let zeros = "0".repeat(bytes - BASE.len());
    with("plumb=1,0", &format!("plumb=1,{zeros}0"))
}

/// Old, new and the error, by what is shown.
type Edge = (&'static str, &'static str, &'static str, Option<u64>);

const ACCEPTED: Option<u64> = None;
const SEVEN: Option<u64> = Some(MALFORMED);
const EIGHT: Option<u64> = Some(OUT_OF_RANGE);
const NINE: Option<u64> = Some(NO_SUCH_POINT);

#[rustfmt::skip]
const EDGES: [Edge; 66] = [
    ("form before range in a line", "at=0,0", "at=99999999,x", SEVEN),
    ("form before points in a line", "level=0,1", "level=1,1,", SEVEN),
    ("range before points in a line", "span=0,1,60", "span=1,1,0", EIGHT),
    ("range before a point not there", "span=0,1,60", "span=0,9,10000001", EIGHT),
    ("form before range and points", "span=0,1,60", "span=1,1,0,", SEVEN),
    ("a key before a range", "limit=3", "limits=999", SEVEN),
    ("two numbers for one, out of range", "reach=10", "reach=0,0", SEVEN),
    ("minus zero", "at=0,0", "at=-0,-000", ACCEPTED),
    ("plus zero", "at=0,0", "at=+0,+00", ACCEPTED),
    ("minus zero as a point", "level=0,1", "level=-0,1", ACCEPTED),
    ("minus zero as a limit", "limit=3", "limit=-0", ACCEPTED),
    ("minus zero points", "points=2", "points=-0", EIGHT),
    ("minus zero reach", "reach=10", "reach=-0", EIGHT),
    ("no points", "points=2", "points=0", EIGHT),
    ("a point below zero", "level=0,1", "level=-1,1", NINE),
    ("a point too large", "level=0,1", "level=0,2", NINE),
    ("the second point below zero", "plumb=1,0", "plumb=1,-1", NINE),
    ("a point far too large", "level=0,1", "level=0,99999999999999999999999999", NINE),
    ("a point that wraps to 1", "level=0,1", "level=0,18446744073709551617", NINE),
    ("a point that wraps to 1 in 32 digits", "level=0,1", "level=0,4294967297", NINE),
    ("a point as one byte wraps", "level=0,1", "level=0,257", NINE),
    ("equal points", "level=0,1", "level=1,1", NINE),
    ("equal points spelled otherwise", "level=0,1", "level=+01,1", NINE),
    ("zero and minus zero", "level=0,1", "level=0,-0", NINE),
    ("equal points not there", "level=0,1", "level=7,7", NINE),
    ("equal ends of a span", "span=0,1,60", "span=0,0,60", NINE),
    ("a span to no point", "span=0,1,60", "span=0,2,60", NINE),
    ("the ends exchanged", "level=0,1", "level=1,0", ACCEPTED),
    ("the same rule twice", "plumb=1,0", "level=0,1", ACCEPTED),
    ("a carriage return", "limit=3\n", "limit=3\r\n", SEVEN),
    ("a carriage return alone", "limit=3\n", "limit=3\r", SEVEN),
    ("a blank before", "limit=3", " limit=3", SEVEN),
    ("a blank behind", "limit=3", "limit=3 ", SEVEN),
    ("a blank behind the sign", "limit=3", "limit= 3", SEVEN),
    ("a blank before the sign", "limit=3", "limit =3", SEVEN),
    ("a blank behind a comma", "at=0,0", "at=0, 0", SEVEN),
    ("a tab", "at=0,0", "at=0,\t0", SEVEN),
    ("a zero byte", "limit=3", "limit=3\0", SEVEN),
    ("a zero byte in a key", "limit=3", "lim\0it=3", SEVEN),
    ("a plus alone", "limit=3", "limit=+", SEVEN),
    ("a minus alone", "limit=3", "limit=-", SEVEN),
    ("two signs", "at=0,0", "at=--1,0", SEVEN),
    ("plus and minus", "at=0,0", "at=+-1,0", SEVEN),
    ("a sign behind", "at=0,0", "at=1-,0", SEVEN),
    ("no digits", "limit=3", "limit=", SEVEN),
    ("no equals sign", "limit=3", "limit3", SEVEN),
    ("two equals signs", "limit=3", "limit==3", SEVEN),
    ("an empty line", "limit=3\n", "\nlimit=3\n", SEVEN),
    ("an upper-case key", "limit=3", "LIMIT=3", SEVEN),
    ("an upper-case letter", "span=0", "Span=0", SEVEN),
    ("a key cut", "level=0,1", "leve=0,1", SEVEN),
    ("no key", "limit=3", "=3", SEVEN),
    ("a fraction", "limit=3", "limit=3.0", SEVEN),
    ("a level with a distance", "level=0,1", "level=0,1,5", SEVEN),
    ("a span without", "span=0,1,60", "span=0,1", SEVEN),
    ("a comma too many", "at=0,0", "at=0,0,", SEVEN),
    ("a comma too few", "at=0,0", "at=00", SEVEN),
    ("an unknown rule", "level=0,1", "tilt=0,1", SEVEN),
    ("a count too low for the points", "points=2", "points=1", SEVEN),
    ("a count too high for the points", "points=2", "points=3", SEVEN),
    ("a count too low for the rules", "rules=3", "rules=2", SEVEN),
    ("a count too high for the rules", "rules=3", "rules=4", SEVEN),
    ("a line exchanged", "limit=3\nreach=10\n", "reach=10\nlimit=3\n", SEVEN),
    ("a line missing", "limit=3\n", "", SEVEN),
    ("a line doubled", "limit=3\n", "limit=3\nlimit=3\n", SEVEN),
    ("the last line feed missing", "plumb=1,0\n", "plumb=1,0", SEVEN),
];

fn edges() -> Vec<Named> {
    let long = |digit: &str| digit.repeat(700);
    let edge = |&(name, old, new, error): &Edge| named(name, with(old, new), error);
    let mut all: Vec<Named> = EDGES.iter().map(edge).collect();
    all.extend([
        named("the base", BASE, ACCEPTED),
        // Seven rows over eight variables, one of them all but dependent: a division is refused.
        named(
            "an arithmetic refusal",
            "points=4\nat=0,0\nat=900000,1\nat=0,1000\nat=1,0\nlimit=1\nreach=1\nrules=7\nlevel=1,2\nplumb=1,3\n\
             span=3,1,1\nplumb=1,0\nspan=2,3,1\nplumb=0,2\nlevel=0,1\n",
            Some(6),
        ),
        named("no bytes", "", SEVEN),
        named("a line feed", "\n", SEVEN),
        named("a zero byte alone", "\0", SEVEN),
        named("an unended range fault", "points=9", SEVEN),
        named("an ended range fault", "points=9\n", EIGHT),
        named("a range fault and nothing else", "points=0\n\0\0", EIGHT),
        named(
            "an unended last fault",
            with("plumb=1,0\n", "plumb=1,1"),
            SEVEN,
        ),
        named("a surplus rule", format!("{BASE}level=0,1\n"), SEVEN),
        named("a surplus byte", format!("{BASE} "), SEVEN),
        named("a surplus line feed", format!("{BASE}\n"), SEVEN),
        named("a surplus zero byte", format!("{BASE}\0"), SEVEN),
        named(
            "points before a surplus line",
            with("plumb=1,0\n", "plumb=1,1\nx"),
            NINE,
        ),
        named(
            "a range before a surplus line",
            with("plumb=1,0\n", "span=1,0,0\nx"),
            EIGHT,
        ),
        named("4095 bytes", of_length(MOST_BYTES - 1), ACCEPTED),
        named("4096 bytes", of_length(MOST_BYTES), ACCEPTED),
        named("4097 bytes", of_length(MOST_BYTES + 1), SEVEN),
        named("100000 bytes", of_length(100_000), SEVEN),
        named(
            "4097 bytes before a range fault",
            of_length(MOST_BYTES + 1).replace("points=2", "points=9"),
            SEVEN,
        ),
        named(
            "4096 bytes with a range fault",
            of_length(MOST_BYTES).replace("points=2", "points=9"),
            EIGHT,
        ),
        named("4096 bytes of zeros", "0".repeat(MOST_BYTES), SEVEN),
        named(
            "many zeros",
            with("limit=3", &format!("limit={}3", long("0"))),
            ACCEPTED,
        ),
        named(
            "minus many zeros",
            with("limit=3", &format!("limit=-{}", long("0"))),
            ACCEPTED,
        ),
        named(
            "many digits",
            with("limit=3", &format!("limit={}", long("9"))),
            EIGHT,
        ),
        named(
            "minus many digits",
            with("at=0,0", &format!("at=0,-{}", long("1"))),
            EIGHT,
        ),
        named(
            "many digits of a point",
            with("level=0,1", &format!("level={},1", long("9"))),
            NINE,
        ),
        named(
            "many zeros of a point",
            with("level=0,1", &format!("level={},1", long("0"))),
            ACCEPTED,
        ),
        named(
            "many digits and then a letter",
            with("limit=3", &format!("limit={}x", long("9"))),
            SEVEN,
        ),
    ]);
    all
}

/// A number with its neighbours about a bound, spelled in several ways.
fn neighbours(bound: &str) -> Vec<(i64, Vec<String>)> {
    let bound: i64 = bound.parse().expect("a bound is a number");
    let spelled = |v: i64| {
        let (size, sign) = (v.unsigned_abs(), if v < 0 { "-" } else { "" });
        let mut all = vec![
            format!("{sign}{size}"),
            format!("{sign}0{size}"),
            format!("{sign}{}{size}", "0".repeat(400)),
        ];
        if v >= 0 {
            all.extend([format!("+{size}"), format!("+00{size}")]);
        }
        if v == 0 {
            all.extend(["-0".to_string(), "-000".to_string()]);
        }
        (v, all)
    };
    (bound - 2..=bound + 2).map(spelled).collect()
}

/// A text for a number at one of its places, and how it is written there.
type Place = (&'static str, Range, fn(i64, &str) -> String);

/// So many points and no rule.
fn with_points(v: i64, spelled: &str) -> String {
    let at = "at=1,2\n".repeat(v.clamp(0, 6) as usize);
    format!("points={spelled}\n{at}limit=1\nreach=5\nrules=0\n")
}

fn with_rules(v: i64, spelled: &str) -> String {
    let rules = "level=0,1\n".repeat(v.clamp(0, 12) as usize);
    format!("points=2\nat=0,0\nat=30,40\nlimit=1\nreach=10\nrules={spelled}\n{rules}")
}

#[rustfmt::skip]
const PLACES: [Place; 9] = [
    ("points", POINTS, with_points),
    ("rules", RULES, with_rules),
    ("x", COORDINATE, |_, v| with("at=0,0", &format!("at={v},0"))),
    ("y", COORDINATE, |_, v| with("at=0,0", &format!("at=0,{v}"))),
    ("the last x", COORDINATE, |_, v| with("at=30,40", &format!("at={v},40"))),
    ("the last y", COORDINATE, |_, v| with("at=30,40", &format!("at=30,{v}"))),
    ("limit", LIMIT, |_, v| with("limit=3", &format!("limit={v}"))),
    ("reach", REACH, |_, v| with("reach=10", &format!("reach={v}"))),
    ("distance", DISTANCE, |_, v| with("span=0,1,60", &format!("span=0,1,{v}"))),
];

/// Every bound and its neighbours, for every number that has a range.
fn bounds() -> Vec<Named> {
    let mut all = Vec::new();
    for (name, range, text) in PLACES {
        let [least, most] = range.map(|bound| bound.parse::<i64>().expect("a number"));
        for (v, spellings) in range.into_iter().flat_map(neighbours) {
            let error = (v < least || v > most).then_some(OUT_OF_RANGE);
            for spelled in spellings {
                let short = &spelled[..spelled.len().min(12)];
                all.push(named(
                    format!("{name} {v} as {short}"),
                    text(v, &spelled),
                    error,
                ));
            }
        }
    }
    all
}

/// The points of a rule, for every count of points: those that are there are 0 to the count less one.
fn points() -> Vec<Named> {
    let mut all = Vec::new();
    for count in 1..=6 {
        for i in -2..=8 {
            for j in -2..=8 {
                for rule in [
                    format!("level={i},{j}"),
                    format!("plumb={i},{j}"),
                    format!("span={i},{j},7"),
                ] {
                    let at: String = (0..count)
                        .map(|k| format!("at={},{}\n", 5 * k, k * k))
                        .collect();
                    let text = format!("points={count}\n{at}limit=1\nreach=3\nrules=1\n{rule}\n");
                    let is_there = |k: i64| (0..count).contains(&k);
                    let error = (i == j || !is_there(i) || !is_there(j)).then_some(NO_SUCH_POINT);
                    all.push(named(format!("{rule} of {count} points"), text, error));
                }
            }
        }
    }
    all
}

/// Lines of the base, and what a fault of each kind makes of them.
#[rustfmt::skip]
const FAULTS: [(&str, &[(&str, u64)]); 9] = [
    ("points=2", &[("points=2,", MALFORMED), ("points=7", OUT_OF_RANGE), ("points=-2", OUT_OF_RANGE)]),
    ("at=0,0", &[("at=0,", MALFORMED), ("at=0,10000001", OUT_OF_RANGE), ("at=-10000001,x", MALFORMED)]),
    ("at=30,40", &[("at=30", MALFORMED), ("at=-10000001,40", OUT_OF_RANGE)]),
    ("limit=3", &[("limit3", MALFORMED), ("limit=201", OUT_OF_RANGE), ("limit=-1", OUT_OF_RANGE)]),
    ("reach=10", &[("reach=1O", MALFORMED), ("reach=0", OUT_OF_RANGE), ("reach=-5", OUT_OF_RANGE)]),
    ("rules=3", &[("Rules=3", MALFORMED), ("rules=13", OUT_OF_RANGE), ("rules=-1", OUT_OF_RANGE)]),
    ("span=0,1,60", &[("span=0,0,+", MALFORMED), ("span=1,1,0", OUT_OF_RANGE), ("span=0,-1,60", NO_SUCH_POINT)]),
    ("level=0,1", &[("level=0,0,", MALFORMED), ("level=0,2", NO_SUCH_POINT)]),
    ("plumb=1,0", &[("plumb=1,1 ", MALFORMED), ("plumb=1,1", NO_SUCH_POINT)]),
];

/// A fault in each of two lines: the earlier counts.
fn pairs() -> Vec<Named> {
    let mut all = Vec::new();
    for (first, (old, faults)) in FAULTS.iter().enumerate() {
        for (fault, error) in *faults {
            all.push(named(*fault, with(old, fault), Some(*error)));
            for (other_old, other_faults) in &FAULTS[first + 1..] {
                for (other, _) in *other_faults {
                    let text = with(old, fault).replace(other_old, other);
                    all.push(named(format!("{fault} before {other}"), text, Some(*error)));
                }
            }
        }
    }
    all
}

pub fn all() -> Vec<Named> {
    [stops(), edges(), bounds(), points(), pairs()]
        .into_iter()
        .flatten()
        .collect()
}
