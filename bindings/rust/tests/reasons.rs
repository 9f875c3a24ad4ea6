//! Reasons and their numbers, places and what they name.
use station::{Place, Reason, Refusal};

/// In the order of their numbers.
const REASONS: [Reason; 15] = [
    Reason::Book,
    Reason::Order,
    Reason::NoCommonLevel,
    Reason::Tail,
    Reason::TooMany,
    Reason::Name,
    Reason::Expression,
    Reason::Node,
    Reason::LoosePart,
    Reason::OutOfReach,
    Reason::Flow,
    Reason::Reader,
    Reason::Values,
    Reason::Limit,
    Reason::List,
];

#[test]
fn every_number_comes_back() {
    for (number, reason) in (1..).zip(REASONS) {
        assert_eq!(reason.number(), number);
        assert_eq!(Reason::from_number(number), reason);
    }
    for number in [0, 16, 255, u32::MAX] {
        let reason = Reason::from_number(number);
        assert_eq!(reason, Reason::Unknown(number));
        assert_eq!(reason.number(), number);
        assert_eq!(reason.name(), "unknown");
    }
}

fn at(reason: Reason, place: u32) -> Place {
    Refusal { reason, place }.at()
}

#[test]
fn places() {
    assert_eq!(at(Reason::Tail, 0), Place::Whole);
    assert_eq!(at(Reason::Order, 3), Place::Level(3));
    assert_eq!(at(Reason::NoCommonLevel, 18), Place::Pair(1, 2));
    assert_eq!(at(Reason::Name, 4), Place::Name(4));
    assert_eq!(at(Reason::Expression, 5), Place::Expression(5));
    assert_eq!(at(Reason::Node, 6), Place::Node(6));
    assert_eq!(at(Reason::LoosePart, 255), Place::Expression(255));
    assert_eq!(at(Reason::LoosePart, 256), Place::Node(0));
    assert_eq!(at(Reason::OutOfReach, 258), Place::Node(2));
    assert_eq!(at(Reason::Flow, 7), Place::Node(7));
    assert_eq!(at(Reason::Values, 8), Place::Value(8));
    assert_eq!(at(Reason::List, 9), Place::ListPair(9));
    assert_eq!(at(Reason::Unknown(99), u32::MAX), Place::Whole);
}

#[test]
fn a_refusal_is_an_error_that_names_its_place() {
    let text = |number, place| {
        let reason = Reason::from_number(number);
        let error: Box<dyn std::error::Error> = Box::new(Refusal { reason, place });
        error.to_string()
    };
    assert_eq!(text(4, 0), "refused 4 0: tail");
    assert_eq!(text(3, 18), "refused 3 18: no common level, levels 1 and 2");
    assert_eq!(text(10, 258), "refused 10 258: out of reach, node 2");
    assert_eq!(text(13, 0), "refused 13 0: values, the length or value 0");
    assert_eq!(text(15, 2), "refused 15 2: list, pair 2");
}
