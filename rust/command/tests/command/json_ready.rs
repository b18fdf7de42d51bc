//! `ready FILE CHOICES`, to be read and with `--json`.

use crate::common::{example, pilzdamo_fed, placed, without_seats, Folder};
use crate::json::{object, Value};
use crate::json_answers::{assert_refusal, bytes};
use crate::json_runs::numbers;

/// After each start of each list: the pair that the crate answers, by the names that the
/// threads have in the run.
#[test]
fn ready() {
    let folder = Folder::new("json ready");
    let (mut met, mut refused) = (0, 0);
    for (name, list) in [
        ("transfer", "transfer.choices"),
        ("desks", "desks.choices"),
        ("seats/asked", "seats/one-by-one.choices"),
    ] {
        let choices = numbers(&example(list)).expect("numbers");
        for end in ["clinic", "txt"] {
            let placed = without_seats(placed(&format!("{name}.{end}")));
            let file = folder.file(&format!("file.{end}"), placed);
            for count in 0..=choices.len() {
                let list: Vec<String> = choices[..count].iter().map(u16::to_string).collect();
                let list = list.join(" ");
                let answer = pilzdamo_fed(&["ready", &file, "-", "--json"], list.as_bytes());
                let told = object(&answer);
                let due = pilzdamo::ready(&bytes(&file), &choices[..count]);
                assert_refusal(&told["refusal"], due.verdict());
                refused += usize::from(!due.verdict().is_clean());
                let ran = pilzdamo_fed(&["run", &file, "-", "--json"], list.as_bytes());
                met += assert_ready(&told, due.pair(), &object(&ran), &file, &list);
            }
        }
    }
    assert!(met > 10 && refused > 10, "{met} {refused}");
}

/// Whether two threads can meet, as it is said both ways.
fn assert_ready(
    told: &Value,
    pair: Option<(u16, u16)>,
    ran: &Value,
    file: &str,
    list: &str,
) -> usize {
    let plain = pilzdamo_fed(&["ready", file, "-"], list.as_bytes());
    let Some((sender, receiver)) = pair else {
        assert!(told["ready"].is_null());
        let due = match told["refusal"].is_null() {
            true => ("none can meet", 0, "no two threads can meet\n"),
            false => ("refused", 1, ""),
        };
        assert_eq!((told["answer"].text(), plain.status, plain.text()), due);
        return 0;
    };
    assert_eq!(told["answer"].text(), "can meet");
    let [one, other] = [("sender", sender), ("receiver", receiver)].map(|(key, number)| {
        let told = &told["ready"][key];
        assert_eq!(told["number"].word(), number);
        let thread = &ran["threads"][usize::from(number) - 1];
        assert_eq!(told["name"], thread["name"]);
        match told["name"].some() {
            Some(name) => format!("{} (thread {number})", name.text()),
            None => format!("thread {number}"),
        }
    });
    assert_eq!((plain.status, plain.err.as_str()), (0, ""));
    assert_eq!(plain.text(), format!("{one} can send to {other}\n"));
    1
}
