//! Sheets by the archive: the paper's example, each error with the order of errors, the one spelling, and what a call
//! leaves.

use yadzvego::AREA;
use yadzvego::geop_error::GeopError::{self, WrongLength};
use yadzvego::sheets::{MOST_BYTES, SLOT, settle, settle_text, spell, spell_text};

const ONE_POINT: &str = "points=1\nat=3,4\nlimit=0\nreach=1\nrules=0\n";
const ONE_POINT_PRINTED: &str =
    "stop=budget\niterations=0\nturned=0\nat=4008000000000000,4010000000000000\n";

/// Two points and one rule, whose line is given with its line feed.
fn ruled(rule: &str) -> String {
    format!("points=2\nat=0,0\nat=5,0\nlimit=0\nreach=1\nrules=1\n{rule}")
}

fn assert_error(text: &str, number: usize) {
    assert_eq!(settle(text), format!("error={number}\n"), "{text:?}");
    assert_eq!(
        spell(text).map_err(GeopError::number),
        Err(number),
        "{text:?}"
    );
}

fn assert_accepted(text: &str) {
    assert!(settle(text).starts_with("stop="), "{text:?}");
    assert!(spell(text).is_ok(), "{text:?}");
}

#[test]
fn the_papers_example() {
    assert_eq!(settle(ONE_POINT), ONE_POINT_PRINTED);
    let spelled =
        "points=+01\nat=003,+4\nlimit=-0\nreach=0000000000000000000000000000001\nrules=00\n";
    assert_eq!(settle(spelled), ONE_POINT_PRINTED);
}

#[test]
fn lines_at_fault() {
    let texts = [
        "",
        "\n",
        "points=1",
        "Points=1\n",
        "points= 1\n",
        "points=\n",
        "points=-\n",
        "points=--1\n",
        "points=1\r\n",
        "points=1,2\n",
        "at=3,4\n",
        "points=1\nat=3\n",
        "points=1\nat=3,4,5\n",
        "points=1\nat=3,\n",
        "points=1\n\nat=3,4\n",
        "points=1\nat=3,4\nreach=1\nlimit=0\nrules=0\n",
    ];
    for text in texts {
        assert_error(text, 7);
    }
    for end in 0..ONE_POINT.len() {
        assert_error(&ONE_POINT[..end], 7);
    }
    for surplus in ["\n", "x", "\0", "rules=0\n"] {
        assert_error(&(ONE_POINT.to_owned() + surplus), 7);
    }
    for rule in [
        "span=0,1\n",
        "level=0,1,5\n",
        "plumb=0\n",
        "bend=0,1\n",
        "level=0,1",
    ] {
        assert_error(&ruled(rule), 7);
    }
}

#[test]
fn numbers_outside_their_range() {
    let texts = [
        "points=0\n",
        "points=7\n",
        "points=-1\n",
        "points=18446744073709551617\n",
        "points=1\nat=10000001,0\n",
        "points=1\nat=0,-10000001\n",
        "points=1\nat=3,4\nlimit=201\n",
        "points=1\nat=3,4\nlimit=-1\n",
        "points=1\nat=3,4\nlimit=0\nreach=0\n",
        "points=1\nat=3,4\nlimit=0\nreach=10000001\n",
        "points=1\nat=3,4\nlimit=0\nreach=1\nrules=13\n",
    ];
    for text in texts {
        assert_error(text, 8);
    }
    for rule in ["span=0,1,0\n", "span=0,1,-1\n", "span=0,1,10000001\n"] {
        assert_error(&ruled(rule), 8);
    }
    assert_accepted("points=1\nat=10000000,-10000000\nlimit=200\nreach=10000000\nrules=0\n");
    assert_accepted(&ruled("span=0,1,10000000\n"));
}

#[test]
fn rules_without_two_points() {
    let rules = [
        "span=1,1,5\n",
        "level=0,0\n",
        "plumb=0,2\n",
        "plumb=-1,0\n",
        "level=18446744073709551616,0\n",
    ];
    for rule in rules {
        assert_error(&ruled(rule), 9);
    }
    assert_accepted(&ruled("level=-0,01\n"));
}

/// The length of a text, then the first line at fault; within a line its form, then ranges, then points.
#[test]
fn the_order_of_errors() {
    let long = |length: usize| format!("points=9\n{}", "x".repeat(length - 9));
    assert_error(&long(MOST_BYTES), 8);
    assert_error(&long(MOST_BYTES + 1), 7);
    let spelled = |length: usize| ONE_POINT.replace("=1", &format!("={:0>1$}", 1, length));
    let zeros = (MOST_BYTES - ONE_POINT.len()) / 2 + 1;
    let text = spelled(zeros);
    assert_eq!(
        settle(text.replace(
            "at=3",
            &format!("at={:0>1$}", 3, 1 + MOST_BYTES - text.len())
        )),
        ONE_POINT_PRINTED
    );
    assert_error(
        &text.replace(
            "at=3",
            &format!("at={:0>1$}", 3, 2 + MOST_BYTES - text.len()),
        ),
        7,
    );

    assert_error("points=9\nat=x\n", 8);
    assert_error("points=1\nat=x\nlimit=300\n", 7);
    assert_error("points=9", 7);
    assert_error("points=1\nat=99999999,x\n", 7);
    assert_error(&ruled("span=1,1,x\n"), 7);
    assert_error(&ruled("span=1,1,0\n"), 8);
    assert_error(&ruled("span=1,1,5\nx"), 9);
    assert_error(&ruled("span=0,1,5\nspan=1,1,5\n"), 7);
}

#[test]
fn what_a_call_leaves() {
    let mut area = vec![-1.0; AREA];
    let mut slot = [1; SLOT];
    assert_eq!(
        settle_text(ONE_POINT.as_bytes(), &mut area, &mut slot),
        Ok(())
    );
    assert!(area.iter().all(|x| x.to_bits() == 0));
    let (printed, rest) = slot.split_at(ONE_POINT_PRINTED.len());
    assert_eq!(printed, ONE_POINT_PRINTED.as_bytes());
    assert!(rest.iter().all(|&byte| byte == 0));

    for (numbers, bytes) in [
        (0, SLOT),
        (AREA - 1, SLOT),
        (AREA + 1, SLOT),
        (AREA, 0),
        (AREA, SLOT - 1),
        (AREA, SLOT + 1),
    ] {
        let (mut area, mut slot) = (vec![-1.0; numbers], vec![1; bytes]);
        for text in [ONE_POINT, ""] {
            assert_eq!(
                settle_text(text.as_bytes(), &mut area, &mut slot),
                Err(WrongLength)
            );
        }
        assert_eq!((area, slot), (vec![-1.0; numbers], vec![1; bytes]));
    }
}

#[test]
fn the_one_spelling() {
    let rule = |rule: &str| spell(ruled(rule)).expect("it is a sheet");
    for spelled in [
        "span=0,1,50\n",
        "span=-0,1,50\n",
        "span=+0,+1,+50\n",
        "span=000,01,0000000000000000000000050\n",
    ] {
        assert_eq!(rule(spelled), ruled("span=0,1,50\n"));
    }
    assert_ne!(rule("level=0,1\n"), rule("level=1,0\n"));
    assert_ne!(rule("level=0,1\n"), rule("plumb=0,1\n"));
    let spelled = "points=+01\nat=-00,-0010\nlimit=+0\nreach=007\nrules=-0\n";
    let spelling = "points=1\nat=0,-10\nlimit=0\nreach=7\nrules=0\n";
    assert_eq!(spell(spelled).as_deref(), Ok(spelling));
    assert_eq!(settle(spelled), settle(spelling));
    let far = "points=1\nat=-10000000,10000000\nlimit=200\nreach=10000000\nrules=0\n";
    assert_eq!(spell(far).as_deref(), Ok(far));
}

#[test]
fn what_a_spelling_leaves() {
    let mut out = [1; MOST_BYTES];
    let length = spell_text(ONE_POINT.as_bytes(), &mut out).expect("it is a sheet");
    let (spelling, rest) = out.split_at(length);
    assert_eq!(spelling, ONE_POINT.as_bytes());
    assert!(rest.iter().all(|&byte| byte == 0));

    for bytes in [0, MOST_BYTES - 1, MOST_BYTES + 1] {
        let mut out = vec![1; bytes];
        for text in [ONE_POINT, ""] {
            assert_eq!(spell_text(text.as_bytes(), &mut out), Err(WrongLength));
        }
        assert_eq!(out, vec![1; bytes]);
    }
    let mut out = [1; MOST_BYTES];
    for (text, error) in [
        ("points=1\n", GeopError::Malformed),
        ("points=0\n", GeopError::OutOfRange),
        (&ruled("level=1,1\n"), GeopError::NoSuchPoint),
    ] {
        assert_eq!(spell_text(text.as_bytes(), &mut out), Err(error));
    }
    assert_eq!(out, [1; MOST_BYTES]);
}
