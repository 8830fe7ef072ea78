//! Changes of the order (document 02, L6): what they test, and what they leave.

use oracle::call::Call;
use oracle::console::answers;
use oracle::score::run;

/// The answers of the console to these lines, without those to blocks.
fn answered(lines: &str) -> Vec<String> {
    let printed = answers(lines.replace("; ", "\n").as_bytes());
    printed.lines().filter(|line| !line.starts_with("block")).map(str::to_string).collect()
}

/// "A change now tests 1 before 2", and 3 with the order that it names; 6 last.
#[test]
fn tests_run_in_the_order_listed() {
    let tested = [
        ("0 2 7000", 1),
        ("4 2 16384", 1),
        ("4294967295 2 7000", 1),
        ("4 0 0", 1),
        ("3 0 7000", 2),
        ("1 2049 4096", 2),
        ("1 2 7000", 3),
        ("3 2 7000", 3),
        ("2 2 4096", 3),
        ("2 2 12288", 3),
    ];
    for waiting in ["", "announce 2 2 7000; ", "ask 1 2 4096; "] {
        let within = [("1 2 4096", 6), ("2 2 8192", 6), ("3 2 12288", 6)];
        let tested = tested.into_iter().chain(within.into_iter().filter(|_| !waiting.is_empty()));
        for ((numbers, refusal), name) in
            tested.flat_map(|test| ["announce", "instant", "ask"].map(|name| (test, name)))
        {
            let start = format!("open 2 3 7000 65535 2; {waiting}state");
            let answers = answered(&format!("{start}; {name} {numbers}; state"));
            let [.., before, answer, after] = &answers[..] else { panic!("{answers:?}") };
            let count = if name == "instant" { " 0" } else { "" };
            assert_eq!(*answer, format!("{name} {refusal}{count}"), "{waiting}{name} {numbers}");
            assert_eq!(before, after, "{waiting}{name} {numbers}");
        }
    }
}

/// "the one in force and the one waiting may differ"; "The line and last output carry over". With G 0 the
/// line has the inputs, and with d 12,288 order 3 only delays: y is v3, and v1 is what was taken last.
#[test]
fn each_state_has_the_length_of_its_own_order() {
    let lines = "open 1 1 6144 0 2; block 4 1000 0 0 0; announce 3 1 12288; state; block 2 8 9; state; \
                 line 3; block 3 0 0 0; ask 1 1 6144; block 1 4; state; block 1 5; state; commit; state";
    let expected = [
        "open 0",
        "announce 0",
        "state 1 1 6144 0 2 192 39 0 0 1 3 1 12288 0 0 0 0 0 0 0",
        "state 3 1 12288 0 2 6 8 0 0 0 0 0 0 0 0 0 0 0 0 0",
        "line 9 8 0",
        "ask 0",
        "state 3 1 12288 0 2 9 0 0 0 2 1 1 6144 1 0 0 0 0 0 0",
        "state 3 1 12288 0 2 0 4 0 0 2 1 1 6144 2 4 0 0 0 0 0",
        "commit 0",
        "state 1 1 6144 0 2 0 4 0 0 0 0 0 0 0 0 0 0 0 0 0",
    ];
    assert_eq!(answered(lines), expected);
}

/// From order 3 to 1 and back: with Na 0 every change is from rest, whatever was in the states before it.
#[test]
fn nothing_is_left_of_the_old_state() {
    let rest = |state: &str| state.split(' ').skip(7).take(3).all(|v| v == "0");
    for names in [["announce"; 2], ["instant"; 2], ["announce", "instant"], ["ask", "ask"]] {
        let change = |name: &str, to: &str| match name {
            "ask" => format!("ask {to}; commit"),
            name => format!("{name} {to}"),
        };
        let lines = format!(
            "open 3 2 14000 65535 0; block 9 1000 2000 -3000 4000 0 0 0 0 0; state; {}; state; \
             block 3 0 0 0; state; {}; state; line 9",
            change(names[0], "1 1 6000"),
            change(names[1], "3 2 14000")
        );
        let states: Vec<String> =
            answered(&lines).into_iter().filter(|line| line.starts_with("state")).collect();
        let [old, down, sounding, back] = &states[..] else { panic!("{states:?}") };
        assert!(!rest(old) && rest(down) && !rest(sounding) && rest(back), "{states:?}");
        assert!(
            down.starts_with("state 1 1 6000 65535 0 ") && back.starts_with("state 3 2 14000 ")
        );
        assert!(sounding.split(' ').skip(8).take(2).all(|v| v == "0"), "{sounding}");
        let last = |state: &str| state.split(' ').nth(6).map(str::to_string);
        assert_eq!((last(old), last(sounding)), (last(down), last(back)));
    }
}

/// "Score changes keep the order in force."
#[test]
fn scores_keep_the_order() {
    for (order, d) in [(1, 4_096_u16), (2, 8_192), (3, 12_288)] {
        let [low, high] = d.to_le_bytes();
        let header = [order, 2, 3, 0, low, high, 0xFF, 0xFF];
        let records = [0x02, 5, 0, 0x01, 9, 0, 0x84, low, high];
        let played = run(&[&header[..], &records[..]].concat(), &mut [0; 9]);
        assert_eq!(played.answer, Ok(()));
        let named = played.list.iter().filter_map(|call| match call {
            Call::Announced { to } | Call::Instant { to } => Some(to.order),
            _ => None,
        });
        assert_eq!(named.collect::<Vec<_>>(), [u32::from(order); 2]);
    }
    let wrong = [1, 2, 3, 0, 0, 16, 0xFF, 0xFF, 0x04, 0, 48];
    assert_eq!(run(&wrong, &mut []).answer.map_err(|refusal| refusal as u32), Err(3));
}
