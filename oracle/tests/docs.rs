//! The tables of examples in `docs/`, row by row.

mod methods;

use methods::judge;
use oracle::case::{self, Case};
use oracle::fault::Part;
use oracle::generate::files::{fork_record, tree_file, Entry, Leaf};
use oracle::plan;
use oracle::tree::Kind;

const CASE: &str = "M 2 10 0 2\n0 0 100 0\n4 0 50 0\n5 0 50 0\n- 4/4 5/5\n4/4 - 3/3\n5/5 3/3 -\n";
const PLAN: &str = "1 2 0";
const NO_ARC: &str = "arc 0 0";

fn leaf_k() -> Leaf {
    let entry = |place, value, load| Entry { place, value, corner: [0, load] };
    Leaf {
        scale: 1,
        van_price: 0,
        duals: vec![5, 7],
        entries: vec![entry(1, 1, 4), entry(1, 4, 9), entry(2, 2, 5), entry(2, 5, 9)],
    }
}

fn k_changed(change: impl Fn(&mut Leaf)) -> Vec<u8> {
    let mut leaf = leaf_k();
    change(&mut leaf);
    leaf.record(Kind::Load)
}

fn tree(records: &[Vec<u8>]) -> Vec<u8> {
    tree_file(Kind::Load, 2, records)
}

fn tree_k() -> Vec<u8> {
    tree(&[leaf_k().record(Kind::Load)])
}

fn line_of_tree(tree: &[u8]) -> String {
    judge(CASE.as_bytes(), PLAN.as_bytes(), tree)
}

/// The line of a case and a plan alone.
fn priced(case: &str, plan: &str) -> String {
    let case = match case::read(case.as_bytes()) {
        Ok(case) => case,
        Err(denial) => return denial.outside_records(Part::Case).to_string(),
    };
    let price = plan::read(plan.as_bytes()).and_then(|listing| plan::price(&case, &listing));
    match price {
        Ok(price) => format!("priced {} routes {}", price.cost, price.routes),
        Err(denial) => denial.outside_records(Part::Plan).to_string(),
    }
}

/// The two-stop case with some words replaced: (line, word, text), from 1.
fn changed(changes: &[(usize, usize, &str)]) -> String {
    let mut lines: Vec<Vec<&str>> = CASE.lines().map(|line| line.split(' ').collect()).collect();
    for &(line, word, text) in changes {
        lines[line - 1][word - 1] = text;
    }
    lines.iter().map(|words| words.join(" ") + "\n").collect()
}

/// The two-stop case with a line replaced by bytes, its line feed included.
fn with_line(line: usize, bytes: &str) -> String {
    CASE.split_inclusive('\n').enumerate().map(|(k, old)| if k + 1 == line { bytes } else { old }).collect()
}

fn two_stop() -> Case {
    case::read(CASE.as_bytes()).unwrap()
}

#[test]
fn two_stop_text() {
    assert_eq!(CASE.len(), 69);
    let starts: Vec<usize> = CASE
        .split_inclusive('\n')
        .scan(0, |at, line| {
            let start = *at;
            *at += line.len();
            Some(start)
        })
        .collect();
    assert_eq!(starts, [0, 11, 21, 30, 39, 49, 59]);
    assert_eq!(oracle::generate::files::case_text(&two_stop()), CASE.as_bytes());
}

#[test]
fn formats_case_faults() {
    let mut rows: Vec<(String, u8, usize)> = vec![
        (String::new(), 2, 0),
        ("\n".into(), 2, 0),
        (with_line(4, ""), 1, 30),
        (with_line(4, "5 0 50 0\n\n"), 2, 39),
        (with_line(7, ""), 2, 59),
        (with_line(7, "5/5 3/3 -"), 2, 68),
        (CASE.to_string() + " ", 2, 69),
        (CASE.to_string() + "\n", 2, 69),
    ];
    let lines = [
        (1, "m 2 10 0 2", 1, 0),
        (1, "M\t2 10 0 2", 1, 0),
        (1, "M +2 10 0 2", 1, 2),
        (1, "M 2 010 0 2", 1, 4),
        (1, "M 2 1000000000 0 2", 1, 4),
        (1, "M 2 10 0 2\r", 1, 9),
        (1, "M 0 10 0 2", 3, 2),
        (1, "M 61 10 0 2", 3, 2),
        (1, "M 2 10001 0 2", 3, 4),
        (1, "M 2 10 2 1", 3, 9),
        (1, "M 2 10 0", 2, 8),
        (1, "M 2 10 0 2 x", 2, 11),
        (1, "M x 10 0 2 9", 1, 2),
        (2, "1 0 100 0", 3, 11),
        (2, "0 60001 60001 0", 3, 13),
        (2, "0 50 49 0", 3, 16),
        (2, "0 0 100 1", 3, 19),
        (2, "0 0 100 ", 2, 19),
        (3, "10001 0 50 0", 3, 21),
        (3, "4 60001", 3, 23),
        (4, "5 0 50 60001", 3, 37),
        (5, "0/0 4/4 5/5", 1, 39),
        (5, "- 4 5/5", 1, 41),
        (5, "- 4/ 5/5", 1, 41),
        (5, "- 1000001/x 5/5", 1, 41),
        (5, "- 1000001/4 5/5", 3, 41),
        (5, "- 4/60001 5/5", 3, 41),
        (6, "4/4 -", 2, 54),
        (6, "4/4 - 3/3 -", 2, 59),
    ];
    rows.extend(lines.map(|(line, text, number, place)| (with_line(line, &format!("{text}\n")), number, place)));
    for (text, number, place) in rows {
        let line = judge(text.as_bytes(), b"1 2 0", &tree_k());
        assert_eq!(line, format!("fault {number} case node 0 {NO_ARC} place {place}"), "{text:?}");
    }
}

#[test]
fn formats_range_ends() {
    let mut case = Case::new(60);
    (case.capacity, case.least, case.most) = (10_000, 60, 60);
    for (i, place) in case.places.iter_mut().enumerate() {
        (place.opening, place.closing) = (60_000, 60_000);
        (place.load, place.service) = if i == 0 { (0, 0) } else { (10_000, 60_000) };
    }
    for (i, j) in (0..=60).flat_map(|i| (0..=60).map(move |j| (i, j))).filter(|(i, j)| i != j) {
        case.set_arc(i, j, Some(case::Arc { cost: 1_000_000, travel: 60_000 }));
    }
    let text = oracle::generate::files::case_text(&case);
    assert_eq!(case::read(&text), Ok(case));
}

#[test]
fn formats_plan_faults() {
    let zeros = "1 0 2".to_string() + &" 0".repeat(117);
    let rows: Vec<(String, &str)> = vec![
        ("x 2 0".into(), "fault 1 plan node 0 arc 0 0 place 0"),
        ("1 02 0".into(), "fault 1 plan node 0 arc 0 0 place 2"),
        ("1\t2 0".into(), "fault 1 plan node 0 arc 0 0 place 0"),
        ("1 2 0\r\n".into(), "fault 1 plan node 0 arc 0 0 place 4"),
        ("1 2 256".into(), "fault 3 plan node 0 arc 0 0 place 4"),
        (zeros.clone() + " 0", "fault 2 plan node 0 arc 0 0 place 240"),
        (zeros.clone() + " x", "fault 2 plan node 0 arc 0 0 place 240"),
        (zeros, "fault 10 plan node 0 arc 0 0 place 4"),
        (String::new(), "fault 10 plan node 0 arc 0 0 place 0"),
        ("1 2 255".into(), "fault 10 plan node 0 arc 0 0 place 2"),
        ("\n 1\n2   0 \n\n".into(), "priced 12 routes 1"),
    ];
    for (plan, line) in rows {
        assert_eq!(priced(CASE, &plan), line, "{plan:?}");
    }
}

#[test]
fn denials_listings() {
    type Row = (&'static [(usize, usize, &'static str)], &'static str, &'static str);
    let rows: &[Row] = &[
        (&[], "1 2 0", "priced 12 routes 1"),
        (&[], "1 0 2 0", "priced 18 routes 2"),
        (&[], "", "fault 10 plan node 0 arc 0 0 place 0"),
        (&[], "3 1 2 0", "fault 10 plan node 0 arc 0 0 place 0"),
        (&[], "0 1 2 0", "fault 10 plan node 0 arc 0 0 place 0"),
        (&[], "1 0 0 2 0", "fault 10 plan node 0 arc 0 0 place 2"),
        (&[], "1 2 0 0", "fault 10 plan node 0 arc 0 0 place 3"),
        (&[], "1 0 2", "fault 10 plan node 0 arc 0 0 place 2"),
        (&[], "1 0 0 9", "fault 10 plan node 0 arc 0 0 place 2"),
        (&[], "1 1 2", "fault 10 plan node 0 arc 0 0 place 2"),
        (&[], "1 1 2 0", "fault 11 plan node 0 arc 0 0 place 1"),
        (&[], "2 0 2 0", "fault 11 plan node 0 arc 0 0 place 2"),
        (&[], "2 0", "fault 12 plan node 0 arc 0 0 place 1"),
        (&[], "1 0", "fault 12 plan node 0 arc 0 0 place 2"),
        (&[(5, 2, "-")], "1 2 0", "fault 13 plan node 0 arc 0 1 place 0"),
        (&[(6, 3, "-")], "1 2 0", "fault 13 plan node 0 arc 1 2 place 1"),
        (&[(7, 1, "-")], "1 0 2 0", "fault 13 plan node 0 arc 2 0 place 3"),
        (&[(2, 2, "6"), (3, 3, "9")], "1 2 0", "fault 14 plan node 0 arc 0 1 place 0"),
        (&[(2, 2, "6"), (3, 3, "10")], "1 2 0", "priced 12 routes 1"),
        (&[(4, 3, "6")], "1 2 0", "fault 14 plan node 0 arc 1 2 place 1"),
        (&[(2, 3, "11")], "1 2 0", "fault 14 plan node 0 arc 2 0 place 2"),
        (&[(2, 3, "9")], "1 0 2 0", "fault 14 plan node 0 arc 2 0 place 3"),
        (&[(1, 3, "8")], "1 2 0", "fault 15 plan node 0 arc 1 2 place 1"),
        (&[(1, 3, "9")], "1 2 0", "priced 12 routes 1"),
        (&[(1, 3, "4")], "1 0 2 0", "fault 15 plan node 0 arc 0 2 place 2"),
        (&[(1, 3, "8"), (4, 3, "6")], "1 2 0", "fault 14 plan node 0 arc 1 2 place 1"),
        (&[(1, 3, "8"), (2, 3, "11")], "1 2 0", "fault 15 plan node 0 arc 1 2 place 1"),
        (&[(1, 4, "2")], "1 2 0", "fault 16 plan node 0 arc 0 0 place 1"),
        (&[(1, 5, "1")], "1 0 2 0", "fault 16 plan node 0 arc 0 0 place 2"),
        // The line of a plan alone.
        (&[(1, 3, "010")], "1 2 0", "fault 1 case node 0 arc 0 0 place 4"),
        (&[], "1 02 0", "fault 1 plan node 0 arc 0 0 place 2"),
    ];
    for (changes, plan, line) in rows {
        assert_eq!(priced(&changed(changes), plan), *line, "{changes:?} {plan:?}");
    }
}

#[test]
fn start_of_a_trip_exercises() {
    type Row = (&'static [(usize, usize, &'static str)], &'static str, &'static str);
    let rows: &[Row] = &[
        (&[(2, 2, "43")], "1 2 0", "priced 12 routes 1"),
        (&[(2, 2, "44")], "1 2 0", "fault 14 plan node 0 arc 1 2 place 1"),
        (&[(2, 2, "45")], "1 0 2 0", "priced 18 routes 2"),
        (&[(2, 2, "46")], "1 0 2 0", "fault 14 plan node 0 arc 0 2 place 2"),
        (&[(2, 2, "16"), (3, 2, "20"), (3, 3, "20"), (4, 2, "30"), (4, 3, "30")], "1 2 0", "priced 12 routes 1"),
        (
            &[(2, 2, "17"), (3, 2, "20"), (3, 3, "20"), (4, 2, "30"), (4, 3, "30")],
            "1 2 0",
            "fault 14 plan node 0 arc 0 1 place 0",
        ),
        (&[(2, 3, "12")], "1 2 0", "priced 12 routes 1"),
        (&[(2, 2, "1"), (2, 3, "12")], "1 2 0", "fault 14 plan node 0 arc 2 0 place 2"),
        (&[(2, 2, "6"), (3, 4, "10"), (4, 3, "23")], "1 2 0", "priced 12 routes 1"),
        (&[(2, 2, "6"), (3, 4, "10"), (4, 3, "22")], "1 2 0", "fault 14 plan node 0 arc 1 2 place 1"),
    ];
    for (changes, plan, line) in rows {
        assert_eq!(priced(&changed(changes), plan), *line, "{changes:?} {plan:?}");
    }
}

#[test]
fn leaf_k_changes() {
    let cut = {
        let mut record = leaf_k().record(Kind::Load);
        record.pop();
        record
    };
    let miscounted = {
        let mut record = leaf_k().record(Kind::Load);
        record[27] = 3;
        record
    };
    let big = 1_000_000_000_000_000;
    let rows = [
        (k_changed(|_| ()), "optimal 12"),
        (cut, "fault 8 tree node 0 arc 0 0 place 16"),
        (miscounted, "fault 8 tree node 0 arc 0 0 place 16"),
        (k_changed(|k| k.scale = 0), "fault 9 tree node 0 arc 0 0 place 17"),
        (k_changed(|k| k.scale = 1_001), "fault 9 tree node 0 arc 0 0 place 17"),
        (k_changed(|k| k.van_price = -big - 1), "fault 9 tree node 0 arc 0 0 place 19"),
        (k_changed(|k| k.duals[1] = 1_000_000_000_001), "fault 9 tree node 0 arc 0 0 place 35"),
        (k_changed(|k| k.entries[0].place = 0), "fault 9 tree node 0 arc 0 0 place 45"),
        (k_changed(|k| k.entries[1].place = 3), "fault 9 tree node 0 arc 0 0 place 62"),
        (k_changed(|k| k.entries[0].value = big + 1), "fault 9 tree node 0 arc 0 0 place 46"),
        (k_changed(|k| k.entries[0].corner[1] = 10_001), "fault 9 tree node 0 arc 0 0 place 54"),
        (k_changed(|k| k.entries[0].value = 2), "fault 22 tree node 0 arc 1 2 place 45"),
        (k_changed(|k| k.entries[1].value = 5), "fault 22 tree node 0 arc 1 0 place 62"),
        (k_changed(|k| k.entries[3].value = 4), "fault 22 tree node 0 arc 1 2 place 45"),
        (k_changed(|k| k.entries[3].corner[1] = 10), "fault 22 tree node 0 arc 1 2 place 45"),
        (k_changed(|k| k.entries.truncate(2)), "fault 22 tree node 0 arc 1 2 place 45"),
        (k_changed(|k| k.entries.clear()), "fault 23 tree node 0 arc 0 1 place 16"),
        (k_changed(|k| k.van_price = 1), "fault 23 tree node 0 arc 0 1 place 16"),
        (k_changed(|k| k.van_price = -1), "fault 24 tree node 0 arc 0 0 place 16"),
        (k_changed(|k| k.duals[0] = 4), "fault 24 tree node 0 arc 0 0 place 16"),
        (k_changed(|k| k.duals[0] = 6), "fault 22 tree node 0 arc 2 1 place 79"),
    ];
    for (record, line) in rows {
        assert_eq!(line_of_tree(&tree(&[record])), line);
    }
}

#[test]
fn tree_file_dump() {
    let dump = "56 52 50 43 02 02 01 00 10 00 00 00 61 00 00 00
        4c 01 00 00 00 00 00 00 00 00 00 05 00 00 00 00
        00 00 00 07 00 00 00 00 00 00 00 04 00 01 01 00
        00 00 00 00 00 00 04 00 00 00 00 00 00 00 01 04
        00 00 00 00 00 00 00 09 00 00 00 00 00 00 00 02
        02 00 00 00 00 00 00 00 05 00 00 00 00 00 00 00
        02 05 00 00 00 00 00 00 00 09 00 00 00 00 00 00
        00";
    let bytes: Vec<u8> = dump.split_whitespace().map(|hex| u8::from_str_radix(hex, 16).unwrap()).collect();
    assert_eq!(bytes, tree_k());
}

#[test]
fn tree_file_faults() {
    let k = || leaf_k().record(Kind::Load);
    let set = |at: usize, byte: u8| {
        let mut file = tree_k();
        file[at] = byte;
        file
    };
    let first = |length: usize| tree_k()[..length].to_vec();
    let count_2001 = {
        let mut file = tree_k();
        file[6..8].copy_from_slice(&2_001u16.to_le_bytes());
        file
    };
    let added = {
        let mut file = tree_k();
        file.push(0);
        file
    };
    let rows = [
        (tree_k(), "optimal 12"),
        (vec![], "fault 5 tree node 0 arc 0 0 place 0"),
        (first(7), "fault 5 tree node 0 arc 0 0 place 0"),
        (set(0, b'v'), "fault 5 tree node 0 arc 0 0 place 0"),
        (set(4, 0), "fault 6 tree node 0 arc 0 0 place 4"),
        (set(4, 4), "fault 6 tree node 0 arc 0 0 place 4"),
        (set(5, 3), "fault 6 tree node 0 arc 0 0 place 5"),
        (set(6, 0), "fault 6 tree node 0 arc 0 0 place 6"),
        (count_2001, "fault 6 tree node 0 arc 0 0 place 6"),
        (first(8), "fault 7 tree node 0 arc 0 0 place 8"),
        (first(15), "fault 7 tree node 0 arc 0 0 place 8"),
        (set(8, 17), "fault 7 tree node 0 arc 0 0 place 8"),
        (set(12, 0), "fault 7 tree node 0 arc 0 0 place 8"),
        (set(12, 96), "fault 7 tree node 0 arc 0 0 place 8"),
        (added, "fault 7 tree node 0 arc 0 0 place 8"),
        (first(112), "fault 7 tree node 0 arc 0 0 place 8"),
        (set(4, 1), "fault 22 tree node 0 arc 1 2 place 45"),
        (set(4, 3), "fault 8 tree node 0 arc 0 0 place 16"),
        (set(16, b'l'), "fault 8 tree node 0 arc 0 0 place 16"),
        (tree(&[fork_record(1, 2)]), "open 1"),
        (tree(&[fork_record(1, 3)]), "fault 18 tree node 0 arc 0 0 place 16"),
        (tree(&[fork_record(2, 2)]), "fault 18 tree node 0 arc 0 0 place 16"),
        (tree(&[fork_record(1, 2), k()]), "open 1"),
        (tree(&[fork_record(1, 2), k(), k()]), "optimal 12"),
        (tree(&[k(), k()]), "fault 20 tree node 1 arc 0 0 place 121"),
        (tree(&[k(), fork_record(1, 2)]), "fault 20 tree node 1 arc 0 0 place 121"),
        (tree(&[k(), fork_record(1, 3)]), "fault 20 tree node 1 arc 0 0 place 121"),
        (tree(&[k(), b"A".to_vec()]), "fault 8 tree node 1 arc 0 0 place 121"),
        (tree(&[k(), b"L".to_vec()]), "fault 20 tree node 1 arc 0 0 place 121"),
        (tree(&[k(), b"Z".to_vec()]), "fault 8 tree node 1 arc 0 0 place 121"),
    ];
    for (file, line) in rows {
        assert_eq!(line_of_tree(&file), line);
    }
}

#[test]
fn line_examples() {
    type Row = (&'static [(usize, usize, &'static str)], &'static str, Vec<u8>, &'static str);
    let k = || leaf_k().record(Kind::Load);
    let value_2 = || k_changed(|k| k.entries[0].value = 2);
    let rows: Vec<Row> = vec![
        (&[], "1 2 0", tree_k(), "optimal 12"),
        (&[], "1 0 2 0", tree_k(), "fault 24 tree node 0 arc 0 0 place 16"),
        (&[], "1 2 0", tree(&[value_2()]), "fault 22 tree node 0 arc 1 2 place 45"),
        (&[], "1 2 0", tree(&[k_changed(|k| k.van_price = 1)]), "fault 23 tree node 0 arc 0 1 place 16"),
        (&[], "1 2 0", tree(&[k_changed(|k| k.duals[0] = 4)]), "fault 24 tree node 0 arc 0 0 place 16"),
        (&[], "1 2 0", vec![], "fault 5 tree node 0 arc 0 0 place 0"),
        (&[], "1 2 0", tree(&[fork_record(1, 2)]), "open 1"),
        (&[], "1 2 0", tree(&[fork_record(1, 2), k()]), "open 1"),
        (&[], "1 2 0", tree(&[fork_record(1, 2), k(), k()]), "optimal 12"),
        (&[], "1 2 0", tree(&[fork_record(1, 2), k(), value_2()]), "fault 22 tree node 2 arc 1 2 place 161"),
        (&[(2, 2, "6"), (3, 3, "9")], "1 2 0", tree_k(), "fault 14 plan node 0 arc 0 1 place 0"),
        (&[(2, 2, "6"), (3, 3, "10")], "1 2 0", tree_k(), "optimal 12"),
        (&[(1, 3, "8")], "1 2 0", tree_k(), "fault 15 plan node 0 arc 1 2 place 1"),
        (&[(1, 3, "9")], "1 2 0", tree_k(), "optimal 12"),
        (&[(1, 3, "010")], "1 2 0", tree_k(), "fault 1 case node 0 arc 0 0 place 4"),
        (&[], "1 02 0", tree_k(), "fault 1 plan node 0 arc 0 0 place 2"),
        (&[], "1 0", tree_k(), "fault 12 plan node 0 arc 0 0 place 2"),
        (&[(1, 4, "2")], "1 2 0", tree_k(), "fault 16 plan node 0 arc 0 0 place 1"),
    ];
    for (changes, plan, tree, line) in rows {
        assert_eq!(judge(changed(changes).as_bytes(), plan.as_bytes(), &tree), line, "{changes:?} {plan:?}");
    }
}

#[test]
fn line_files() {
    let tree = tree_k();
    let case = |length: usize| {
        // Spaces at the end of a line are allowed.
        let mut text = CASE.to_string();
        text.insert_str(10, &" ".repeat(length - CASE.len()));
        text
    };
    assert_eq!(judge(case(65_536).as_bytes(), b"1 2 0", &tree), "optimal 12");
    assert_eq!(judge(case(65_537).as_bytes(), b"1 2 0", &tree), "fault 2 case node 0 arc 0 0 place 0");
    let plan = |length: usize| format!("{PLAN}{}", " ".repeat(length - PLAN.len()));
    assert_eq!(judge(CASE.as_bytes(), plan(65_536).as_bytes(), &tree), "optimal 12");
    assert_eq!(judge(CASE.as_bytes(), plan(65_537).as_bytes(), &tree), "fault 10 plan node 0 arc 0 0 place 0");
    assert_eq!(judge(CASE.as_bytes(), PLAN.as_bytes(), &[0; 65_537]), "fault 5 tree node 0 arc 0 0 place 0");
}

#[test]
fn measures_time_step() {
    use oracle::measure::{Measure, Move, Time};
    let by = Move { opening: 40, closing: 90, load: 0, service: 10, travel: 20, capacity: 0 };
    let steps = [6, 11, 60, 61].map(|minute| Time::step(minute, &by));
    assert_eq!(steps, [Some(40), Some(41), Some(90), None]);
}

#[test]
fn check_example() {
    // All costs are 0, so a leaf of zeros holds under any decisions.
    let case = "M 3 10 0 3\n0 0 9 0\n1 0 9 0\n1 0 9 0\n1 0 9 0\n\
                - 0/1 0/1 0/1\n0/1 - 0/1 0/1\n0/1 0/1 - 0/1\n0/1 0/1 0/1 -\n";
    let leaf = Leaf {
        scale: 1,
        van_price: 0,
        duals: vec![0, 0, 0],
        entries: (1..=3).map(|place| Entry { place, value: 0, corner: [0, 0] }).collect(),
    };
    let leaf = leaf.record(Kind::Load);
    let records = [fork_record(1, 2), fork_record(2, 3), leaf.clone(), leaf.clone(), leaf];
    let lines = ["open 1", "open 2", "open 2", "open 1", "optimal 0"];
    for (k, line) in lines.into_iter().enumerate() {
        let file = tree_file(Kind::Load, 3, &records[..=k]);
        assert_eq!(judge(case.as_bytes(), b"1 2 3 0", &file), line);
    }
}

#[test]
fn check_depot_exception() {
    use oracle::decisions::{exits_left, Decision, Side};
    let case = two_stop();
    let left = |from, to, side| {
        let exits = exits_left(&case, &[Decision { from, to, side }]);
        [exits[0], exits[1], exits[2]]
    };
    assert_eq!(left(1, 2, Side::Forbid), [0b110, 0b001, 0b011]);
    // Force 1 2 removes 1 0 and 0 2.
    assert_eq!(left(1, 2, Side::Force), [0b010, 0b100, 0b011]);
    // Force 0 1 removes 2 1 only, force 1 0 removes 1 2 only.
    assert_eq!(left(0, 1, Side::Force), [0b110, 0b101, 0b001]);
    assert_eq!(left(1, 0, Side::Force), [0b110, 0b001, 0b011]);
}
