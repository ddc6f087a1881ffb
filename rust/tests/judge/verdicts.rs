//! The judge itself, by calls in memory and by texts.
use kfifo::judge::{
    Answer, Call, Fault, Least, NamedCall, Op, Part, Style, TRIES, Verdict, draw, judge,
    judge_text, least,
};
use std::fs;
use std::path::Path;

#[test]
fn the_faults_of_the_gallery_have_the_headlines_of_its_table() {
    let folder = Path::new(env!("CARGO_MANIFEST_DIR")).join("../c/tests/checker/gallery");
    let table = fs::read_to_string(folder.join("headlines.csv")).expect("the table can be read");
    let rows = table.lines().skip(1).map(|line| line.splitn(3, ','));
    let mut count = 0;
    for row in rows {
        let row = row.collect::<Vec<_>>();
        let [log, evidence, headline] = row[..] else {
            panic!("a row has three fields: {row:?}")
        };
        let text = fs::read(folder.join(log)).expect("the log can be read");
        let Ok(Verdict::NoOrder { reason, .. }) = judge_text(&text, 1, TRIES) else {
            panic!("{log} has an order")
        };
        assert_eq!(
            (reason.evidence.to_string(), reason.headline.as_str()),
            (evidence.to_string(), headline)
        );
        count += 1;
    }
    assert!(count >= 2, "the table has {count} rows");
}

fn call(thread: u32, op: Op, item: u64, first: u64, answer: Answer) -> Call {
    Call {
        thread,
        op,
        item,
        first,
        last: first + 5,
        answer,
    }
}

#[test]
fn the_judge_names_calls_by_their_first_times() {
    let calls = [
        call(1, Op::Get, 1, 40, Answer::Got),
        call(1, Op::Get, 2, 30, Answer::Got),
        call(0, Op::Put, 2, 20, Answer::Done),
        call(0, Op::Put, 1, 10, Answer::Done),
    ];
    let Ok(Verdict::NoOrder {
        text,
        counts,
        reason,
    }) = judge(&calls, 1, TRIES)
    else {
        panic!("item 2 overtook item 1");
    };
    assert!(
        text.contains("call 2 got item 2, while 1 older item was there: calls 0"),
        "{text}"
    );
    assert!(
        text.contains("call 2, line 3: thread 1 got 2 from 30 to 35"),
        "{text}"
    );
    assert_eq!((counts.calls, counts.left), (4, 0));
    assert_eq!((reason.evidence, reason.evidence_name), (4, "too young"));
    assert_eq!(
        reason.headline,
        "item 2 came out, and item 1, which went in before, had not"
    );
    assert_eq!(reason.least, Some((2, Some(2))));
    let named = |number, line, place: usize| NamedCall {
        number,
        line,
        call: calls[place],
    };
    assert_eq!(reason.named, [named(2, 3, 1), named(0, 5, 3)]);
    assert!(matches!(judge(&calls, 2, TRIES), Ok(Verdict::Legal { .. })));
    assert_eq!(
        least(&calls, TRIES),
        Ok(Least::Between {
            at_least: 2,
            at_most: Some(2)
        })
    );
    assert!(draw(&calls, 1, Part::Evidence, Style::Svg).is_ok_and(|svg| svg.contains("<svg")));
}

#[test]
fn a_log_that_is_none_has_a_fault() {
    let calls = [
        call(0, Op::Put, 1, 10, Answer::Done),
        call(0, Op::Put, 2, 12, Answer::Done),
    ];
    let Err(Fault::Log { number, place, .. }) = judge(&calls, 1, TRIES) else {
        panic!("the calls of thread 0 overlap");
    };
    assert_eq!((number, place), (8, 3));
    assert_eq!(judge(&calls[..1], 0, TRIES), Err(Fault::BadCall));
    assert!(least(&calls, TRIES).is_err() && draw(&calls, 1, Part::All, Style::Text).is_err());
}
