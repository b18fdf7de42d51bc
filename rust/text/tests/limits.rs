//! Seats and opening hours in a text and in names.

use text::{canonical, pack, stripped, unpack_named, Lent};

const DESK: &str = "\
clinic 2
kind note
role clerk: send note; 1 seat
role head: juniors clerk; 32 seats; open Mon-Fri 07:00-15:00, Sat 08:00-12:00
role night: open Sun-Thu 22:00-06:00
role open: receive note
role seats
user one: clerk, head
channel notes: note, owner one
";

fn packed(text: &str) -> text::Packed {
    pack(text).unwrap_or_else(|flaws| panic!("{flaws:?}"))
}

/// What can't be understood of a role's line in a text.
fn flaw(parts: &str) -> String {
    let text = format!("clinic 2\nkind open\nkind seat\nrole a: {parts}\n");
    let flaws = pack(&text).expect_err(parts);
    format!("{}: {}", flaws[0].at.column, flaws[0].what)
}

#[test]
fn they_are_of_the_text_and_not_of_the_bytes() {
    let desk = packed(DESK);
    assert_eq!(desk.names.seats(), [1, 32, 0, 0, 0]);
    let rows: Vec<[u16; 3]> = desk.names.hours().into_iter().map(|(_, row)| row).collect();
    assert_eq!(rows.len(), 5 + 1 + 2 * 5);
    assert_eq!(rows[..2], [[2, 420, 900], [2, 1_860, 2_340]]);
    assert_eq!(
        rows[5..8],
        [[2, 7_680, 7_920], [3, 9_960, 10_080], [3, 0, 360]]
    );
    let bare = DESK.replace("; 1 seat", "").replace("; 32 seats", "");
    let bare = bare.replace("; open Mon-Fri 07:00-15:00, Sat 08:00-12:00", "");
    let bare = packed(&bare.replace(": open Sun-Thu 22:00-06:00", ""));
    assert_eq!(bare.bytes(), desk.bytes());
    assert_eq!(
        (bare.names.seats(), bare.names.hours()),
        (vec![0; 5], vec![])
    );
}

/// Packed and unpacked with its names, which are kept in a file of their own, a text is the
/// same.
#[test]
fn packed_and_unpacked() {
    let desk = packed(DESK);
    assert_eq!(canonical(&desk).as_deref(), Some(DESK));
    assert_eq!(stripped(DESK, &desk), DESK);
    let kept = Lent::of(&desk).text();
    let limits = "\
roles clerk, head, night, open, seats
role clerk: 1 seat
role head: 32 seats; open Mon-Fri 07:00-15:00, Sat 08:00-12:00
role night: open Sun-Thu 22:00-06:00
users one
";
    assert!(kept.contains(limits), "{kept}");
    let lent = Lent::read(&kept).expect("names");
    assert_eq!(lent, Lent::of(&desk));
    let names = &lent.names;
    assert_eq!(unpack_named(&desk.bytes(), names).as_deref(), Some(DESK));
    // A role's line may stand above that with its name.
    let turned = kept.replace("roles clerk, head, night, open, seats\n", "")
        + "roles clerk, head, night, open, seats\n";
    assert_eq!(Lent::read(&turned).expect("names"), lent);
}

#[test]
fn other_ways_to_write_them() {
    let desk = "clinic 1\nkind open\nrole a:open  mon 7:00-8:00,TUE-tue 0:00-24:00 ;2 seat; send open # x\n";
    let due =
        "clinic 1\nkind open\nrole a: send open; 2 seats; open Mon 07:00-08:00, Tue 00:00-24:00\n";
    assert_eq!(canonical(&packed(desk)).as_deref(), Some(due));
}

#[test]
fn wrong_lines() {
    let parts = "expected 'send', 'receive', 'juniors', 'open' or a number of seats";
    let seats = "a role has 1 to 32 seats, or no limit if they are left out, not";
    let days = "isn't one of the days Mon, Tue, Wed, Thu, Fri, Sat, Sun";
    let times = "isn't a stretch such as 07:00-15:00";
    for (text, due) in [
        ("seats", format!("9: {parts}, not 'seats'")),
        ("one seat", format!("9: {parts}, not 'one'")),
        ("0 seats", format!("9: {seats} '0'")),
        ("33 seats", format!("9: {seats} '33'")),
        ("1x seat", format!("9: {seats} '1x'")),
        ("99999999999 seats", format!("9: {seats} '99999999999'")),
        ("1 chair", "11: expected 'seats', not 'chair'".to_string()),
        (
            "1 seat, 2 seats",
            "15: expected ';' or the end of the line, not ','".to_string(),
        ),
        ("1 seat; 1 seat", "17: 'seats' is there twice".to_string()),
        (
            "open Mon 07:00-08:00; open Tue 07:00-08:00",
            "31: 'open' is there twice".to_string(),
        ),
        (
            "open",
            "13: expected a day or days, such as Mon-Fri, but the line ends".to_string(),
        ),
        (
            "open Mon",
            "17: expected a stretch of the day, such as 07:00-15:00, but the line ends".to_string(),
        ),
        ("open Mo 07:00-08:00", format!("14: 'Mo' {days}")),
        ("open Mon 7-8", format!("18: '7-8' {times}")),
        ("open Mon 07:00 -08:00", format!("18: '07:00' {times}")),
        (
            "open Mon 07:00-08:00,",
            "30: expected a day or days, such as Mon-Fri, but the line ends".to_string(),
        ),
        (
            "open Mon 07:00-08:00 Tue 07:00-08:00",
            "30: expected ',' or ';' or the end of the line, not 'Tue'".to_string(),
        ),
        (
            "send open, seat; 1 seat;",
            format!("33: {parts}, but the line ends"),
        ),
    ] {
        assert_eq!(flaw(text), due, "{text}");
    }
}

#[test]
fn wrong_names() {
    for (line, due) in [
        ("role b: 1 seat", "6: there is no role 'b' (roles: a)"),
        ("role a 1 seat", "8: expected ':', not '1'"),
        (
            "role a: send x",
            "9: expected 'open' or a number of seats, not 'send'",
        ),
        (
            "role a: 1 seat; 2 seats",
            "17: 'seats' of this role is there twice",
        ),
        (
            "role a: 1 seat x",
            "16: expected ';' or the end of the line, not 'x'",
        ),
        (
            "role a: 1 seat\nrole a: 2 seats",
            "9: 'seats' of this role is there twice",
        ),
        (
            "rolls a",
            "1: expected 'sum', 'kinds', 'roles', 'role', 'users', 'channels' or 'session', not 'rolls'",
        ),
    ] {
        let flaws = Lent::read(&format!("names\nroles a\n{line}\n")).expect_err(line);
        let told = format!("{}: {}", flaws[0].at.column, flaws[0].what);
        assert_eq!(told, due, "{line}");
    }
}
