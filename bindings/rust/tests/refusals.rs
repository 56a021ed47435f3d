//! Numbers and texts of the refusals, and slices of length 0, whose pointers point nowhere.

use std::error::Error;

use kolfsein::{attach, build, look_up, read, read_standard, rule, rule_standard};
use kolfsein::{JointRequest, Reason, Refusal, Request, Subjects};

const REASONS: [Reason; 19] = [
    Reason::Length,
    Reason::Version,
    Reason::NodeCount,
    Reason::Kind,
    Reason::Span,
    Reason::Level,
    Reason::Range,
    Reason::Card,
    Reason::Value,
    Reason::ListTooShort,
    Reason::Room,
    Reason::Diagram,
    Reason::Subjects,
    Reason::MixedGroup,
    Reason::RuleInOnlyOne,
    Reason::RuleAsRoot,
    Reason::BaseIsRule,
    Reason::HeadersDiffer,
    Reason::TooLarge,
];

/// Each known reason, after its number, and a number that none has.
fn numbered() -> impl Iterator<Item = (u8, Reason)> {
    (1..).zip(REASONS).chain([(200, Reason::Unknown(200))])
}

#[test]
fn numbers_and_texts() {
    for (number, reason) in numbered() {
        assert_eq!(reason.number(), number);
        let refusal: Box<dyn Error> = Box::new(Refusal { reason, place: 2 });
        let place = match number {
            4..=8 | 14 | 15 => " at node 2",
            9 => " at field 2",
            200 => " at 2",
            _ => "",
        };
        assert_eq!(
            refusal.to_string(),
            format!("refusal {number}{place}: {reason}")
        );
    }
}

/// C's texts: those of `kolfsein_text` in the header, in the order of their numbers, and the one of an unknown number.
fn texts_in_c() -> (Vec<&'static str>, &'static str) {
    let header = include_str!("../../../include/kolfsein.h");
    let (_, function) = header.split_once("*kolfsein_text(").expect("the function");
    let (function, _) = function.split_once("\n}\n").expect("the function's end");
    let mut texts: Vec<_> = function.split('"').skip(1).step_by(2).collect();
    let unknown = texts.pop().expect("a text");
    (texts, unknown)
}

#[test]
fn texts_as_in_c() {
    let (texts, unknown) = texts_in_c();
    assert_eq!(texts.len(), 1 + REASONS.len());
    for (number, reason) in numbered() {
        let text = texts.get(usize::from(number)).unwrap_or(&unknown);
        assert_eq!(reason.to_string(), *text, "{number}");
    }
}

#[test]
fn empty_slices() {
    let request = Request::new(0, 0, 0);
    let joint = JointRequest::new(Subjects::from_bits(1), 0, 0);
    let refused = |reason| Refusal { reason, place: 0 };
    let one_rule = [0, 17, 1, 0, 0, 0, 0, 1, 4, 0, 1, 0, 10, 0, 0, 0, 0, 0, 0];
    let too_short = refused(Reason::ListTooShort);
    assert_eq!(read(&[]), Err(refused(Reason::Length)));
    assert_eq!(rule(&[], joint, &mut []), Err(refused(Reason::Length)));
    assert_eq!(rule(&one_rule, joint, &mut []), Err(too_short));
    let no_table = Err(refused(Reason::Length));
    let as_root = Err(refused(Reason::RuleAsRoot));
    assert_eq!(read_standard(&[]), Err(refused(Reason::Length)));
    assert_eq!(rule_standard(&[], joint, &mut []), no_table);
    assert_eq!(rule_standard(&one_rule, joint, &mut []), as_root);
    assert_eq!(build(&[], &mut []), Err(refused(Reason::Length)));
    assert_eq!(build(&one_rule, &mut []), Err(refused(Reason::Room)));
    assert_eq!(
        look_up(&[], request, &mut []),
        Err(refused(Reason::Diagram))
    );
    let mut diagram = [0; 21];
    assert_eq!(build(&one_rule, &mut diagram), Ok(21));
    assert_eq!(look_up(&diagram, request, &mut []), Err(too_short));
    let one_group = [0, 17, 1, 0, 0, 0, 0, 1, 3, 0, 1, 0, 0, 0, 0, 0, 0, 0, 0];
    for (base, expansion, reason) in [
        (&[][..], &[][..], Reason::Length),
        (&[], &one_rule, Reason::Length),
        (&one_group, &[], Reason::Length),
        (&one_rule, &one_rule, Reason::BaseIsRule),
        (&one_group, &one_rule, Reason::Room),
    ] {
        assert_eq!(attach(base, expansion, &mut []), Err(refused(reason)));
    }
}
