use super::*;
use crate::cases::agreement::TRACES;
use crate::cases::bottle::Bottle;
use crate::cases::generator::Generator;
use crate::cases::offers::scattered_list;
use crate::cases::sample_numbers::{others, ORDERED};
use crate::numbers::{BULK, CHLORIDE, LEAST_PH, ORGANIC_CARBON, POTASSIUM, TOTAL_NITROGEN};

/// A bottle with too little total nitrogen, so that it is never consistent.
fn doubtful() -> Bottle {
    Bottle::doubtful()
}

fn bottles_agree(first: &Bottle, second: &Bottle) -> bool {
    match (Record::read(first.words()), Record::read(second.words())) {
        (Ok(first), Ok(second)) => agree(&first, &second) && agree(&second, &first),
        _ => panic!("a bottle of this test is refused"),
    }
}

fn follow(offers: &[Bottle]) -> (Vec<Result<(), Refusal>>, State, usize) {
    let mut docket = PlainDocket::new();
    let answers = offers
        .iter()
        .map(|bottle| docket.offer(bottle.words()))
        .collect();
    (answers, docket.state(), docket.count())
}

#[test]
fn agreement_reaches_to_a_tenth_of_the_larger() {
    let bottle = doubtful().amount(CHLORIDE, 1_000);
    assert!(bottles_agree(&bottle, &bottle.amount(CHLORIDE, 900)));
    assert!(!bottles_agree(&bottle, &bottle.amount(CHLORIDE, 899)));
    let conductivity = bottle.conductivity(100);
    assert!(bottles_agree(&conductivity, &bottle.conductivity(90)));
    assert!(!bottles_agree(&conductivity, &bottle.conductivity(89)));
    assert!(bottles_agree(&bottle.ph(500), &bottle.ph(510)));
    assert!(!bottles_agree(&bottle.ph(500), &bottle.ph(511)));
}

#[test]
fn traces_agree_by_tenths_of_a_microgram() {
    for (first, second, agree) in TRACES {
        let [one, other] = [first, second].map(|amount| doubtful().amount(POTASSIUM, amount));
        assert_eq!(bottles_agree(&one, &other), agree, "{first} and {second}");
    }
}

#[test]
fn missing_agrees_only_with_missing() {
    let missing = doubtful().missing(CHLORIDE);
    assert!(bottles_agree(&missing, &missing));
    assert!(!bottles_agree(&missing, &doubtful().amount(CHLORIDE, 0)));
}

#[test]
fn nitrogen_and_carbon_are_not_compared() {
    let other = doubtful()
        .missing(TOTAL_NITROGEN)
        .amount(ORGANIC_CARBON, 90_000);
    assert!(bottles_agree(&doubtful(), &other));
}

#[test]
fn a_docket_takes_at_most_three() {
    let moving = [doubtful().ph(500), doubtful().ph(520), doubtful().ph(540)];
    assert_eq!(follow(&moving), (vec![Ok(()); 3], State::Unsettled, 3));
    let fourth = [moving.to_vec(), vec![doubtful()]].concat();
    let (answers, state, count) = follow(&fourth);
    assert_eq!(answers[3], Err(11));
    assert_eq!((state, count), (State::Unsettled, 3));
}

#[test]
fn the_third_is_compared_with_the_second_alone() {
    let (first, second) = (doubtful().ph(500), doubtful().ph(520));
    let back = [first.clone(), second.clone(), first.clone()];
    assert_eq!(follow(&back).1, State::Unsettled);
    let settled = [first, second.clone(), second];
    assert_eq!(follow(&settled).1, State::Confirmed);
}

#[test]
fn a_refused_offer_changes_nothing() {
    let offers = [
        doubtful(),
        doubtful().number(8),
        doubtful().kind(BULK),
        doubtful().ph(LEAST_PH - 1),
        doubtful(),
        doubtful().number(8),
        doubtful().ph(LEAST_PH - 1),
    ];
    let (answers, state, count) = follow(&offers);
    let expected = [Ok(()), Err(12), Err(12), Err(4), Ok(()), Err(11), Err(4)];
    assert_eq!(answers, expected);
    assert_eq!((state, count), (State::Confirmed, 2));
}

#[test]
fn a_sample_is_known_by_its_whole_number() {
    let bottle = doubtful().parts((5, 9));
    let offers = [(5, 9), (6, 9), (5, 10), (9, 5), (0, 9), (5, 9)];
    let (answers, state, count) = follow(&offers.map(|parts| bottle.parts(parts)));
    let expected = [Ok(()), Err(12), Err(12), Err(12), Err(12), Ok(())];
    assert_eq!(answers, expected);
    assert_eq!((state, count), (State::Confirmed, 2));
}

#[test]
fn another_number_is_refused_by_any_open_docket() {
    for parts in ORDERED {
        let bottle = doubtful().parts(parts);
        let mut held = [0; RECORD_WORDS];
        held.copy_from_slice(bottle.words());
        for other in others(parts).map(|other| bottle.parts(other)) {
            // Words that make no number are refused before they are compared.
            let expected = Record::read(other.words()).err().unwrap_or(12);
            for count in [1, 2] {
                let answer = offer(State::Open, count, &held, other.words());
                assert_eq!(answer, Err(expected));
                assert!(offer(State::Open, count, &held, bottle.words()).is_ok());
            }
        }
    }
}

#[test]
fn dockets_that_no_offers_produce() {
    let bottle = doubtful();
    let mut held = [0; RECORD_WORDS];
    assert_eq!(offer(State::Open, 3, &held, bottle.words()), Err(11));
    assert_eq!(offer(State::Open, 1, &held, bottle.words()), Err(11));
    assert_eq!(offer(State::Open, 1, &held, &[]), Err(1));
    assert!(offer(State::Open, 0, &held, bottle.words()).is_ok());
    for state in [State::Consistent, State::Confirmed, State::Unsettled] {
        assert_eq!(offer(state, 0, &held, bottle.words()), Err(11));
    }
    held.copy_from_slice(Bottle::printed().words());
    let other = Bottle::printed().number(8);
    assert_eq!(offer(State::Open, 2, &held, other.words()), Err(12));
    let consistent = offer(State::Open, 2, &held, Bottle::printed().words());
    assert_eq!(consistent, Ok((State::Consistent, 3, held)));
}

#[test]
fn the_docket_handed_on_is_the_plain_docket() {
    let mut generator = Generator::new(5);
    for list in 0..400 {
        let mut plain = PlainDocket::new();
        let mut docket: Docket = (State::Open, 0, [list; RECORD_WORDS]);
        for slice in scattered_list(&mut generator) {
            let answer = offer(docket.0, docket.1, &docket.2, &slice);
            assert_eq!(answer.map(|_| ()), plain.offer(&slice));
            docket = answer.unwrap_or(docket);
            assert_eq!(docket.0, plain.state());
            assert_eq!(docket.1 as usize, plain.count());
            if let Some(last) = plain.last() {
                assert_eq!(&docket.2, last);
            }
        }
    }
}
