//! A withdrawn ask (document 02, L3) leaves the voice as if it had not been asked.

use oracle::call::Call;
use oracle::cases::texts::text;
use oracle::command::{commands, Command};
use oracle::refusal::number;
use oracle::voice::Voice;

/// The calls of a console text on its last voice, with what Open returned.
fn last_list(text: &[u8]) -> (Voice, Vec<Call>) {
    let mut list = (Voice::open(0, 0, 0, 0, 0).0, Vec::new());
    for (_, command) in commands(text) {
        match command {
            Some(Command::Open { order, length, delay, loss, advance }) => {
                list = (Voice::open(order, length, delay, loss, advance).0, Vec::new());
            }
            Some(Command::Call(call)) => list.1.push(call),
            _ => {}
        }
    }
    list
}

/// The numbers and the samples that the calls give, and the voice that is left, as text.
fn given(opened: &Voice, list: &[Call]) -> (Vec<(u32, Vec<i32>)>, String) {
    let mut voice = opened.clone();
    let made = list.iter().map(|call| call.make(&mut voice));
    let given = made.map(|made| (number(&made.answer), made.output)).collect();
    (given, format!("{voice:?}"))
}

/// The places of an accepted ask and its withdrawal with no change, ask or commit between them.
fn withdrawn(list: &[Call], numbers: &[u32]) -> Option<(usize, usize)> {
    let accepted = |at: &usize| numbers[*at] == 0;
    let changes = |call: &Call| {
        matches!(
            call,
            Call::Announced { .. } | Call::Instant { .. } | Call::Asked { .. } | Call::Commit
        )
    };
    let asks =
        (0..list.len()).filter(|at| matches!(list[*at], Call::Asked { .. })).filter(accepted);
    asks.filter_map(|ask| {
        let is_withdrawal = |at: &usize| matches!(list[*at], Call::Withdraw);
        let end = (ask + 1..list.len()).filter(is_withdrawal).find(accepted)?;
        (!list[ask + 1..end].iter().any(changes)).then_some((ask, end))
    })
    .next()
}

/// "withdrawing drops it": without the ask and its withdrawal all else is given as with them.
#[test]
fn a_withdrawn_ask_leaves_nothing() {
    let mut found = 0;
    for index in 0..2_400 {
        let (opened, mut list) = last_list(&text(11, index));
        let (mut all, voice) = given(&opened, &list);
        let numbers: Vec<u32> = all.iter().map(|(number, _)| *number).collect();
        if let Some((ask, end)) = withdrawn(&list, &numbers) {
            for place in [end, ask] {
                list.remove(place);
                all.remove(place);
            }
            assert_eq!(given(&opened, &list), (all, voice), "text {index}");
            found += 1;
        }
    }
    assert!(found > 100, "{found}");
}
