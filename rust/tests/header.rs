//! The numbers of the refusals and of the orders are those of the header for C.

use spelunzone::{Order, Refusal, answer};

const HEADER: &str = include_str!("../../include/spelunzone.h");

// `OutOfRange` as `SZ_OUT_OF_RANGE`.
fn name_in_c(name: &str) -> String {
    let split =
        |letter: char| if letter.is_uppercase() { format!("_{letter}") } else { letter.to_uppercase().to_string() };
    format!("SZ{}", name.chars().map(split).collect::<String>())
}

fn number_in_c(name: &str) -> u64 {
    let is = format!("{name} = ");
    let after = HEADER.split(&is).nth(1).unwrap_or_else(|| panic!("{name} is not in the header"));
    let digits: String = after.chars().take_while(char::is_ascii_digit).collect();
    digits.parse().unwrap()
}

#[test]
fn refusals() {
    for (refusal, number) in Refusal::ALL.into_iter().zip(1..) {
        assert_eq!(number_in_c(&name_in_c(&format!("{refusal:?}"))), number);
        assert_eq!(refusal.number(), number);
        assert_eq!(answer(number, 0), Some(Err(refusal)));
        assert!(refusal.to_string().ends_with(&format!("({number})")));
    }
    assert_eq!(answer(0, 9), Some(Ok(9)));
    assert_eq!(answer(12, 0), None);
    assert_eq!((Refusal::of(0), Refusal::of(12)), (None, None));
}

#[test]
fn orders() {
    let orders = [
        (Order::Insert { at: 7, mark: true }, "SZ_INSERT", 7, 1),
        (Order::Remove { at: 7 }, "SZ_REMOVE", 7, 0),
        (Order::Access { at: 7 }, "SZ_ACCESS", 7, 0),
        (Order::Rank { end: 7, mark: false }, "SZ_RANK", 7, 0),
        (Order::Select { k: 7, mark: true }, "SZ_SELECT", 7, 1),
        (Order::LongestQuiet, "SZ_QUIET", 0, 0),
    ];
    for (order, name, second, third) in orders {
        assert_eq!(order.words(), [number_in_c(name), second, third]);
    }
}
