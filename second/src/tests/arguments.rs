//! What the program says to its arguments.

use crate::{run, Trouble, HELP};

/// What is written, or the message of a wrong use.
fn said(arguments: &[&str]) -> Result<Vec<u8>, String> {
    let mut out = Vec::new();
    match run(arguments, &mut out) {
        Ok(()) => Ok(out),
        Err(Trouble::Usage(message)) => Err(message),
        Err(Trouble::Message(message)) => panic!("not a wrong use: {message}"),
    }
}

#[test]
fn help_names_every_verb() {
    assert_eq!(said(&["help"]), Ok(HELP.as_bytes().to_vec()));
    for verb in ["make", "answer", "pick", "bundle", "stress", "program", "faults", "more-faults", "help"] {
        assert!(HELP.contains(&format!("second {verb}")), "{verb}");
    }
}

#[test]
fn wrong_uses() {
    assert_eq!(said(&[]), Err("a verb is missing".into()));
    assert_eq!(said(&["dance"]), Err("no verb is called 'dance'".into()));
    assert_eq!(said(&["make", "1"]), Err("make takes SEED and COUNT".into()));
    assert_eq!(said(&["answer", "1"]), Err("answer takes nothing behind it".into()));
    assert_eq!(said(&["pick"]), Err("pick takes K".into()));
    assert_eq!(said(&["stress"]), Err("stress takes SEED".into()));
    assert_eq!(said(&["pick", "0"]), Err("K is counted from 1".into()));
    for wrong in ["x", "-1", "+1", "", "1.5", "18446744073709551616"] {
        let message = said(&["make", wrong, "1"]).expect_err("a wrong seed");
        assert!(message.starts_with("SEED must be a whole number"), "{message}");
    }
    assert!(said(&["bundle", "1", "4682"]).expect_err("too many").starts_with("COUNT must be at most 4681"));
}

#[test]
fn faults_are_for_answers_and_the_program() {
    assert!(said(&["--fault", "none", "answer"])
        .expect_err("no such fault")
        .starts_with("no fault is called 'none'"));
    let message = "--fault takes a fault's name and then `answer` or `program`".to_owned();
    assert_eq!(said(&["--fault"]), Err(message.clone()));
    assert_eq!(said(&["--fault", "leaves-up", "make", "1", "1"]), Err(message));
}

#[test]
fn a_longer_run_begins_with_the_shorter() {
    let (short, long) =
        (said(&["make", "4", "5"]).expect("requests"), said(&["make", "4", "9"]).expect("requests"));
    assert!(long.len() > short.len() && long.starts_with(&short));
    assert_eq!(said(&["make", "4", "0"]), Ok(Vec::new()));
}

#[test]
fn the_list_of_faults() {
    let listed = String::from_utf8(said(&["faults"]).expect("a list")).expect("plain text");
    let expected = [
        "leaves-up",
        "kept-assumptions",
        "one-known-all-known",
        "labels-only",
        "rows-for-trees",
        "drawn-order",
    ];
    assert_eq!(listed.lines().collect::<Vec<_>>(), expected);
    let more = String::from_utf8(said(&["more-faults"]).expect("a list")).expect("plain text");
    let expected = [
        "labels-of-31-bits",
        "place-of-the-row-for-the-input",
        "row-count-placed-at-the-rows",
        "every-loop-refused",
        "loops-before-the-catalogue",
        "operations-of-5-bits",
        "nothing-reached-through-holds",
        "wires-skipped-once",
        "wires-kept",
        "short-wires-after-wire-loops",
        "wires-by-the-setting",
        "wires-in-stores-taken",
        "dropped-by-the-first-input-only",
        "dropped-one-step-only",
        "numbered-by-boxes",
        "cleared-counts-rows",
        "wires-counted-as-merged",
        "freed-rows-left",
        "scale-toward-minus-infinity",
        "mean-toward-minus-infinity",
        "wrapped-for-clamped",
        "difference-turned",
        "holds-begin-with-their-input",
        "constants-without-sign",
        "chosen-at-zero",
        "trace-before-loops",
        "entries-past-the-ticks-cleared",
        "trace-channel-by-channel",
        "whole-store-judged-for-a-run",
        "retired-from-one-early",
        "retired-after-astray",
        "retired-only-where-stored",
        "store-numbers-taken",
        "named-rows-only",
        "whole-store-appended",
        "appended-as-met",
        "appended-merged",
        "store-rows-first",
        "wires-skipped-in-the-result",
        "full-result-refused",
        "long-result-by-the-whole-store",
        "long-result-before-wires",
        "short-buffer-before-long-result",
        "room-for-the-sheet-only",
        "bytes-past-the-result-cleared",
    ];
    assert_eq!(more.lines().collect::<Vec<_>>(), expected);
}
