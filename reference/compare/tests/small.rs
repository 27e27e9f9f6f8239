use compare::calls::each::Each;
use compare::calls::tally::{Answer, Call, Tally};
use compare::check::check_text;
use compare::random::Random;
use compare::run::run;
use compare::{calls, captures};
use independent::LEVEL;

#[test]
fn no_difference_in_a_small_run() {
    let counts = run(1, 4_000).unwrap_or_else(|difference| panic!("{difference}"));
    assert_eq!(counts.missing(), Vec::<String>::new());
}

#[test]
fn the_captures_are_as_described() {
    captures::facts().unwrap();
}

#[test]
fn what_is_known_of_a_text_is_held() {
    for (text, characters) in [(&b"AB"[..], 2), (b"A\xc3\xa5", 2), (b"A\xff", 1)] {
        let good = check_text(&mut Random::new(1), text, Some(Ok(characters)));
        assert_eq!(good.is_ok(), text != b"A\xff");
        let place = check_text(&mut Random::new(1), text, Some(Err(characters)));
        assert_eq!(place.is_ok(), text == b"A\xff");
    }
}

#[test]
fn what_was_never_met_is_named() {
    let mut counts = run(1, 1).unwrap_or_else(|difference| panic!("{difference}"));
    for (_, numbers) in &mut counts.kinds {
        numbers.remove(&18);
        numbers.remove(&22);
    }
    counts.texts[0].texts = 0;
    let missing = counts.missing();
    assert!(missing.contains(&"no generated packet was answered 18".to_string()));
    assert!(missing.contains(&"no generated packet was answered 22".to_string()));
    assert!(missing
        .iter()
        .any(|what| what.starts_with("no text of kind")));
    let header = "no packet of kind: behind the last block header: 18";
    assert!(missing.contains(&header.to_string()));
    counts.kinds[0].1.clear();
    let what = format!("no packet of kind: {}", counts.kinds[0].0);
    assert!(counts.missing().contains(&what));
}

#[test]
fn no_difference_in_few_calls() {
    let tally = calls::run(1, 3_000).unwrap_or_else(|difference| panic!("{difference}"));
    assert_eq!(tally.missing(), Vec::<String>::new());
    assert!(Call::ALL.iter().all(|call| tally.calls(*call) >= 3_000));
}

#[test]
fn answers_never_given_are_named() {
    let mut tally = Tally::default();
    tally.add(Call::Clock, Answer::Done("sent"));
    tally.meet("a blue moon", false);
    let missing = tally.missing();
    assert!(missing.contains(&"sender clock was never answered quiet".to_string()));
    assert!(missing.contains(&"sender offer was never answered 4".to_string()));
    assert!(missing.contains(&"receiver step was never answered 22".to_string()));
    assert!(missing.contains(&"holding step was never answered held-again".to_string()));
    assert!(missing.contains(&"holding wait was never answered 27".to_string()));
    assert!(!missing.contains(&"sender clock was never answered sent".to_string()));
    assert!(missing.contains(&"never met: a blue moon".to_string()));
}

#[test]
fn levels_never_met_are_named() {
    let mut counts = run(1, 1).unwrap_or_else(|difference| panic!("{difference}"));
    counts.older.clear();
    let mut tally = Tally::default();
    for level in 0..LEVEL {
        tally.each(Each::Opened, level);
        counts.older.insert(level, 1);
    }
    tally.each(Each::Opened, LEVEL + 1);
    let missing = [counts.missing(), tally.missing()].concat();
    let named = |what: String| missing.contains(&what);
    assert!(named(format!(
        "no generated packet was read with {LEVEL} older blocks"
    )));
    assert!(!named(
        "no generated packet was read with 0 older blocks".to_string()
    ));
    assert!(named(format!("never met: senders opened at level {LEVEL}")));
    assert!(!named("never met: senders opened at level 0".to_string()));
    let lost = "packets of lines taken, behind lost ones";
    assert!(named(format!("never met: {lost} {}", LEVEL + 2)));
    assert!(!named(format!("never met: {lost} {}", LEVEL + 3)));
}

#[test]
fn values_of_flags_never_met_are_named() {
    let mut tally = Tally::default();
    for value in 0..=255 {
        tally.flag(Call::Step, "has_source", Answer::Done("late"), value);
        if value != 77 {
            tally.flag(Call::Offer, "sent", Answer::Refused(7), value);
        }
    }
    let missing = tally.missing().join("\n");
    assert!(!missing.contains("receiver step, late: has_source"));
    assert!(missing.contains("receiver step, late: has_kept was never [0, 1, 2, "));
    assert!(missing.contains("receiver step, forward: has_source was never [0, 1, 2, "));
    assert!(missing.contains("receiver step, jump: has_source was never [1, 2, "));
    assert!(missing.contains("receiver step, break: has_kept was never [1, 2, "));
    assert!(missing.contains("sender offer, refused: sent was never [77]"));
    assert!(missing.contains("holding step, late: has_held was never [0]"));
    assert!(missing.contains("holding step, late-keep-held: has_held was never [1, 2, "));
    assert!(missing.contains("holding step, held-again: has_kept was never [1, 2, "));
    assert!(missing.contains("holding wait, held: has_source was never [0, 1, 2, "));
    assert!(missing.contains("holding wait, refused: has_held was never [0, 1, 2, "));
}
