//! The tables of context steps.

use crate::json_reader::Json;
use crate::support::*;

/// A line of the text: lg and the next lg at each w.
fn numbers(line: &str) -> Vec<u32> {
    line.split_whitespace().map(|word| word.parse().unwrap()).collect()
}

#[test]
fn all_entries_are_those_of_the_independent_decoder() {
    let ran = avsplus(&["tables"]);
    assert_eq!((ran.status, ran.complaint.as_str()), (0, ""));
    let mut lines = ran.text().lines();
    assert_eq!(lines.next(), Some("  lg   w 3   w 4   w 5"));
    for lg in 0..1024 {
        let expected: Vec<u32> = (3..=5).filter_map(|w| independent::table_entry(w, lg)).collect();
        assert_eq!(lines.next().map(numbers), Some([&[lg][..], &expected].concat()));
    }
    assert_eq!(lines.next(), None);
}

#[test]
fn tables_as_json() {
    let ran = avsplus(&["tables", "--json"]);
    let json = ran.json();
    assert_eq!((ran.status, json.get("answer").text()), (0, "done"));
    let tables = json.get("tables").list();
    assert_eq!(tables.len(), 3);
    for (w, table) in (3..).zip(tables) {
        let entries = (0..).map_while(|lg| independent::table_entry(w, lg));
        let expected: Vec<Json> = entries.map(|entry| Json::Number(entry.into())).collect();
        assert_eq!(table.get("w").number(), w.into());
        assert_eq!(table.get("next_lg").list(), expected);
    }
}

#[test]
fn tables_take_no_operand() {
    let ran = avsplus(&["tables", "3"]);
    assert_eq!((ran.status, ran.text()), (2, ""));
    assert_eq!(
        ran.complaint,
        "avsplus: \"3\" is one argument too many; see avsplus tables --help\n"
    );
}
