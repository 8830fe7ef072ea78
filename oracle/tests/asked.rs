//! Asking, committing and withdrawing (document 02, L3).

use oracle::console::answers;

/// The answers of the console to these lines, without those to blocks.
fn answered(lines: &str) -> Vec<String> {
    let printed = answers(lines.replace("; ", "\n").as_bytes());
    printed.lines().filter(|line| !line.starts_with("block")).map(str::to_string).collect()
}

/// The eliminator, A1 −13,107, takes 0, 0, 1000, 0, 0, 0: its state is 0, 0, 1000, 199, 39, 7.
#[test]
fn an_ask_waits_past_the_advance() {
    let lines = "open 1 3 4096 65535 2; ask 1 2 6144; commit; block 1 1000; commit; state; \
                 block 5 0 0 0 0 0; state; commit; state; commit; withdraw";
    let expected = [
        "open 0",
        "ask 0",
        "commit 20",
        "commit 20",
        "state 1 3 4096 65535 2 0 0 0 0 2 1 2 6144 1 0 0 0 0 0 0",
        "state 1 3 4096 65535 2 0 0 0 0 2 1 2 6144 2 7 0 0 0 0 0",
        "commit 0",
        "state 1 2 6144 65535 2 0 7 0 0 0 0 0 0 0 0 0 0 0 0 0",
        "commit 21",
        "withdraw 21",
    ];
    assert_eq!(answered(lines), expected);
}

#[test]
fn an_ask_waits_with_an_advance_of_0() {
    let lines = "open 1 3 4096 65535 0; block 1 1000; ask 1 2 6144; state; commit; state";
    let expected = [
        "open 0",
        "ask 0",
        "state 1 3 4096 65535 0 0 0 0 0 2 1 2 6144 0 0 0 0 0 0 0",
        "commit 0",
        "state 1 2 6144 65535 0 0 0 0 0 0 0 0 0 0 0 0 0 0 0 0",
    ];
    assert_eq!(answered(lines), expected);
}

/// "Asking tests what a change tests"; "A change that was asked for counts as waiting."
#[test]
fn tests_run_in_the_order_listed() {
    let lines = "open 1 3 4096 65535 2; ask 0 0 2048; ask 4 1 2049; ask 1 0 2048; ask 1 2049 4096; \
                 ask 1 1 2048; ask 1 1 2049; ask 4 0 2048; ask 1 0 2048; ask 1 1 6145; ask 1 1 2049; \
                 announce 1 1 2049; instant 1 1 2049; withdraw; ask 1 1 2049";
    let numbers = ["0", "1", "1", "2", "2", "3", "0", "1", "2", "3", "6", "6", "6 0", "0", "0"];
    assert_eq!(answered(lines).len(), numbers.len());
    for (answer, number) in answered(lines).iter().zip(numbers) {
        assert!(answer.ends_with(&format!(" {number}")), "{answer}: {number}");
    }
}

/// "to commit and withdraw it counts as nothing asked": 21 and not 20.
#[test]
fn an_announced_change_is_nothing_asked() {
    let lines =
        "open 1 3 4096 65535 2; announce 1 2 6144; commit; withdraw; block 1 0; commit; state; \
                 block 1 0; commit; state";
    let expected = [
        "open 0",
        "announce 0",
        "commit 21",
        "withdraw 21",
        "commit 21",
        "state 1 3 4096 65535 2 0 0 0 0 1 1 2 6144 1 0 0 0 0 0 0",
        "commit 21",
        "state 1 2 6144 65535 2 0 0 0 0 0 0 0 0 0 0 0 0 0 0 0",
    ];
    assert_eq!(answered(lines), expected);
}

/// "An announced change acts as an ask that commits itself": when the eliminator has taken Na.
#[test]
fn a_commit_on_the_sample_is_an_announced_change() {
    let tunings = ["2 8 6200", "3 8 14000", "1 8 3000"];
    for (advance, new) in
        [0, 1, 2, 24, 64].into_iter().flat_map(|advance| tunings.map(|tuning| (advance, tuning)))
    {
        let zeros = " 0".repeat(advance);
        let opening = format!("open 2 9 7000 65535 {advance}");
        let start = format!("{opening}; pluck 99 200 5; block 90{}", " 0".repeat(90));
        let end = format!("state; line 200; block 30{}; state", " 0".repeat(30));
        let announced = format!("{start}; announce {new}; block {advance}{zeros}; {end}");
        let asked = format!("{start}; ask {new}; block {advance}{zeros}; commit; {end}");
        let shown = |lines: &str| {
            let all = answers(lines.replace("; ", "\n").as_bytes());
            let of_call = |line: &&str| !line.starts_with("a") && !line.starts_with("commit");
            all.lines().filter(of_call).map(str::to_string).collect::<Vec<_>>()
        };
        assert_eq!(shown(&announced), shown(&asked), "to {new}, Na {advance}");
        assert!(shown(&asked)[5].starts_with("line"));
    }
}
