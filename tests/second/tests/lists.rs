//! The format of lists of calls and of answer lines, see tests/README.md.

mod common;

use common::rising;
use second::play::play;

/// A record of an op and its numbers, the missing ones 0.
fn record(numbers: &[u64]) -> Vec<u8> {
    let mut padded = numbers.to_vec();
    padded.resize(4, 0);
    padded.iter().flat_map(|n| n.to_le_bytes()).collect()
}

fn records(list: &[&[u64]]) -> Vec<u8> {
    list.iter().flat_map(|numbers| record(numbers)).collect()
}

/// A start from bytes behind its record, padded.
fn start(op: u64, bytes: &[u8]) -> Vec<u8> {
    let mut list = record(&[op, bytes.len() as u64]);
    list.extend(bytes);
    list.resize(list.len().next_multiple_of(32), 0);
    list
}

/// A start from a chart.
fn chart(bytes: &[u8]) -> Vec<u8> {
    start(1, bytes)
}

/// A start from a graph6.
fn import(bytes: &[u8]) -> Vec<u8> {
    start(28, bytes)
}

/// What a line shows of the first ring's weights behind the empty layout.
const SQUARE: &str = "weights 0 2 1 1 3 1 2 0 1 3 1 1";

/// The first ring without weights again.
const CLEARED: &str = "weights 0 2 0 1 3 0 2 0 0 3 1 0";

fn first_ring() -> Vec<u8> {
    chart(&common::chart(&[4], &[0, 2, 1, 3], &rising(4)))
}

/// An order of 64 places, the last ones 0.
fn places(order: &str) -> String {
    let used = order.split_whitespace().count();
    format!("{order}{}", " 0".repeat(64 - used))
}

/// The last line of a list that starts from the first ring.
fn last_line(calls: &[&[u64]]) -> String {
    let lines = play(&[first_ring(), records(calls)].concat());
    lines.lines().last().expect("a line").to_string()
}

#[test]
fn the_worked_example() {
    let list = [first_ring(), record(&[21, 0])].concat();
    assert_eq!(list.len(), 96);
    let due = format!(
        "chart 0 n 4 order {} count 1 words 0 4 1 8 2 1 3 2 {SQUARE}\n\
         sift 0 1 2 n 4 order {} count 0 words weights\n",
        places("0 1 2 3"),
        places("1 0 2 3")
    );
    assert_eq!(play(&list), due);
}

#[test]
fn the_worked_example_of_graph6() {
    let list = [import(b"DQc"), record(&[29, 5, 7])].concat();
    assert_eq!(list.len(), 96);
    let rest = format!("n 5 order {} count 1 words", places("0 1 2 3 4"));
    let due = format!(
        "import 0 {rest} 0 20 1 8 2 1 3 18 4 9 \
         weights 0 2 1 0 4 1 1 3 1 2 0 1 3 1 1 3 4 1 4 0 1 4 3 1\n\
         export 0 3 buffer 68 81 99 7 7 {rest} weights\n"
    );
    assert_eq!(play(&list), due);
}

#[test]
fn the_worked_example_of_crossings_of_each_edge() {
    let list = [first_ring(), record(&[30, 4, 7])].concat();
    assert_eq!(list.len(), 96);
    let rest = format!("n 4 order {} count 1 words", places("0 1 2 3"));
    let due = format!(
        "chart 0 {rest} 0 4 1 8 2 1 3 2 {SQUARE}\n\
         perlink 0 2 table 1 1 7 7 {rest} weights\n"
    );
    assert_eq!(play(&list), due);
}

#[test]
fn the_worked_example_of_weights() {
    let weighted = common::weighted_chart(&[4], &[0, 2, 1, 3], &rising(4), &[2, 3]);
    let calls = [&[17, 0, 1, 5][..], &[30, 3, 7], &[6, 0, 1, 1], &[24]];
    let list = [chart(&weighted), records(&calls)].concat();
    assert_eq!(list.len(), 192);
    let rest = format!("n 4 order {} count 6 words", places("0 1 2 3"));
    let due = format!(
        "chart 0 {rest} 0 4 1 8 2 1 3 2 weights 0 2 2 1 3 3 2 0 2 3 1 3\n\
         link 0 {rest} 0 6 1 9 weights 0 1 5 1 0 5\n\
         perlink 0 3 table 0 6 6 {rest} weights\n\
         count 11 0 {rest} weights\n"
    );
    assert_eq!(play(&list), due);
}

/// The line of a call that leaves the first ring as it is.
fn unchanged(answers: &str) -> String {
    let order = places("0 1 2 3");
    format!("{answers} n 4 order {order} count 1 words weights")
}

#[test]
fn a_refused_call_has_its_number() {
    let line = unchanged;
    assert_eq!(last_line(&[&[18, 1, 2]]), line("unlink 15"));
    assert_eq!(last_line(&[&[17, 1, 1]]), line("link 13"));
    assert_eq!(last_line(&[&[17, 1, 2]]), line("link 25"));
    assert_eq!(last_line(&[&[17, 1, 2, 256]]), line("link 25"));
    assert_eq!(last_line(&[&[19, 1, 64]]), line("move 12"));
    assert_eq!(last_line(&[&[23, 0]]), line("settle 17 0 0 no 0"));
    assert_eq!(last_line(&[&[21, 4]]), line("sift 12 0 0"));
    let limit = last_line(&[&[23, (1 << 32) + 1]]);
    assert_eq!(limit, line("settle 17 0 0 no 0"));
    assert!(last_line(&[&[2, 5], &[22]]).starts_with("round 11 0 0 0 n 5 "));
}

#[test]
fn a_call_that_reads_has_its_answers() {
    let line = unchanged;
    assert_eq!(last_line(&[&[24]]), line("count 0 1"));
    assert_eq!(last_line(&[&[26]]), line("pair 0 pair 0 2 1 3"));
    let buffer = last_line(&[&[25, 6, 0x1FF]]);
    assert_eq!(buffer, line("order 0 buffer 0 1 2 3 255 255"));
    assert_eq!(last_line(&[&[25, 3, 7]]), line("order 18 buffer 7 7 7"));
    let chart = "68 0 1 4 76 0 4 0 2 1 3 82 0 4 0 1 2 3";
    let written = last_line(&[&[27, 20, 0x1FF]]);
    assert_eq!(written, line(&format!("write 0 18 buffer {chart} 255 255")));
    assert_eq!(last_line(&[&[27, 3, 7]]), line("write 19 0 buffer 7 7 7"));
    assert_eq!(last_line(&[&[27, 0, 7]]), line("write 19 0 buffer"));
    let exported = last_line(&[&[29, 3, 0x1FF]]);
    assert_eq!(exported, line("export 0 2 buffer 67 81 255"));
    assert_eq!(last_line(&[&[29, 1, 7]]), line("export 19 0 buffer 7"));
    assert_eq!(last_line(&[&[29, 0, 7]]), line("export 19 0 buffer"));
    let counted = last_line(&[&[30, 3, (1 << 32) + 9]]);
    assert_eq!(counted, line("perlink 0 2 table 1 1 4294967305"));
    let refused = last_line(&[&[30, 1, u64::MAX]]);
    assert_eq!(refused, line("perlink 23 0 table 18446744073709551615"));
    assert_eq!(last_line(&[&[30, 0, 7]]), line("perlink 23 0 table"));
}

#[test]
fn a_call_that_changes_the_ring_has_its_answers() {
    let turned = places("1 0 2 3");
    let rest = format!("n 4 order {turned} count 0 words weights");
    assert_eq!(last_line(&[&[22]]), format!("round 0 1 1 8 {rest}"));
    let settled = [1, 2].map(|limit| last_line(&[&[23, limit]]));
    let due = ["1 1 no 8", "1 2 yes 16"].map(|due| format!("settle 0 {due} {rest}"));
    assert_eq!(settled, due);
    let order = places("0 1 2 3");
    let words = "1 0 3 0 weights 1 3 0 3 1 0";
    let unlinked = format!("unlink 0 n 4 order {order} count 0 words {words}");
    assert_eq!(last_line(&[&[18, 3, 1]]), unlinked);
    let words = "1 12 2 3 weights 1 2 7 2 1 7";
    let linked = format!("link 0 n 4 order {order} count 1 words {words}");
    for weight in [7, 256 + 7, (1 << 32) + 7] {
        assert_eq!(last_line(&[&[17, 2, 1, weight]]), linked);
    }
    let rest = places("0 1 2 3 4");
    let added = format!("add 0 4 n 5 order {rest} count 1 words weights");
    assert_eq!(last_line(&[&[16]]), added);
}

/// How many entries are shown of what a call with some op is lent.
fn lent_length(op: u64, length: u64) -> usize {
    let line = last_line(&[&[op, length, 5]]);
    let mut words = line.split(' ');
    let lent = words.find(|word| ["buffer", "table"].contains(word));
    assert!(lent.is_some(), "{line}");
    words.take_while(|&word| word != "n").count()
}

#[test]
fn an_order_gets_a_buffer_of_at_most_255_bytes() {
    let lengths = [254, 255, 256, u64::MAX].map(|length| lent_length(25, length));
    assert_eq!(lengths, [254, 255, 255, 255]);
}

#[test]
fn a_chart_or_a_graph6_gets_a_buffer_of_at_most_8192_bytes() {
    let wide = (1 << 32) + 18;
    for op in [27, 29] {
        let lengths = [8191, 8192, 8193, wide, u64::MAX].map(|length| lent_length(op, length));
        assert_eq!(lengths, [8191, 8192, 8192, 8192, 8192]);
    }
}

#[test]
fn crossings_get_a_table_of_at_most_2100_entries() {
    let wide = (1 << 32) + 2;
    let lengths = [2, 2099, 2100, 2101, wide, u64::MAX].map(|length| lent_length(30, length));
    assert_eq!(lengths, [2, 2099, 2100, 2100, 2100, 2100]);
}

#[test]
fn what_is_written_can_be_read_behind_it() {
    let written = common::chart(&[4], &[0, 2, 1, 3], &rising(4));
    let calls = records(&[&[5, 9], &[27, 18], &[24]]);
    let lines = play(&[first_ring(), calls, chart(&written)].concat());
    let order = places("0 1 2 3");
    let counts = |count: u64| format!("n 4 order {order} count {count} words weights");
    let lines: Vec<&str> = lines.lines().collect();
    assert!(lines[1].starts_with("write 0 18 ") && lines[1].ends_with(&counts(9)));
    assert_eq!(lines[3], format!("chart 0 {}", counts(1)));
}

/// The first ring in another order, exported and imported: its edges are 0-2
/// and 1-3 still, so that no word changes.
#[test]
fn what_is_exported_can_be_imported_behind_it() {
    let calls = records(&[&[19, 0, 1], &[29, 2]]);
    let lines = play(&[first_ring(), calls, import(b"CQ"), import(b"CQ\n")].concat());
    let lines: Vec<&str> = lines.lines().collect();
    let due = format!("n 4 order {} count 0 words weights", places("1 0 2 3"));
    assert_eq!(lines[2], format!("export 0 2 buffer 67 81 {due}"));
    let due = format!("n 4 order {} count 1 words weights", places("0 1 2 3"));
    assert_eq!(lines[3], format!("import 0 {due}"));
    let zeros = places("");
    let due = format!("n 0 order{zeros} count 0 words 0 0 1 0 2 0 3 0 {CLEARED}");
    assert_eq!(lines[4], format!("import 21 {due}"));
}

/// An import is no call on what was there before it.
#[test]
fn an_import_stands_behind_any_layout() {
    let spoilt = records(&[&[2, 65], &[29, 2]]);
    let lines = play(&[spoilt, import(b"@"), import(b"")].concat());
    let lines: Vec<&str> = lines.lines().collect();
    assert!(lines[0].starts_with("export 11 0 buffer 0 0 n 65 "));
    assert!(lines[1].starts_with("import 0 n 1 "));
    assert!(lines[2].starts_with("import 20 n 0 "));
}

#[test]
fn fields_are_set_without_a_word() {
    let list = records(&[
        &[2, 3],
        &[3, 0, 258],
        &[3, 1, 1],
        &[3, 64, 9],
        &[4, 0, 2],
        &[4, 1, 1],
        &[4, u64::MAX, 9],
        &[5, (1 << 32) + 7],
        &[6, 0, 1, 256 + 3],
        &[6, 1, 0, 3],
        &[6, 0, 64, 9],
        &[6, 64, 0, 9],
        &[6, u64::MAX, 1 << 32, 9],
        &[24],
    ]);
    let (order, count) = (places("2 1 0"), (1u64 << 32) + 7);
    let due = format!("count 0 {count} n 3 order {order} count {count} words weights\n");
    assert_eq!(play(&list), due);
    let spoilt = play(&records(&[&[2, u64::MAX], &[26], &[0]]));
    let zeros = places("");
    let zeros = zeros.trim_start();
    let due = format!(
        "pair 11 refused n {} order {zeros} count 0 words weights\n\
         empty 0 n 0 order {zeros} count 0 words weights\n",
        u64::MAX
    );
    assert_eq!(spoilt, due);
}

/// One weight, one way round: the layout isn't valid until the other is set.
#[test]
fn a_weight_is_set_one_way_round() {
    let set = [&[6, 0, 2, 9][..], &[24], &[6, 2, 0, 9], &[24], &[29, 0]];
    let lines = play(&[first_ring(), records(&set)].concat());
    let starts: Vec<&str> = lines.lines().map(|l| &l[..11]).collect();
    let due = ["count 11 0 ", "count 0 1 n", "export 26 0"];
    assert_eq!(starts[1..], due);
    assert!(lines
        .lines()
        .skip(1)
        .all(|line| line.ends_with("words weights")));
}

#[test]
fn a_start_shows_the_words_and_weights_that_differ_from_those_before() {
    let cleared = format!("count 0 words 0 0 1 0 2 0 3 0 {CLEARED}");
    assert!(last_line(&[&[0]]).ends_with(&cleared));
    let twice = play(&[first_ring(), first_ring()].concat());
    assert!(twice.ends_with("count 1 words weights\n"), "{twice}");
    let edges = [0, 2, 1, 3];
    let heavier = common::weighted_chart(&[4], &edges, &rising(4), &[1, 255]);
    let lines = play(&[first_ring(), chart(&heavier)].concat());
    let due = "count 255 words weights 1 3 255 3 1 255\n";
    assert!(lines.ends_with(due), "{lines}");
}

#[test]
fn a_list_ends_at_an_unknown_op_or_where_it_is_cut() {
    assert_eq!(play(&[]), "");
    assert_eq!(play(&record(&[7])), "end\n");
    assert_eq!(play(&records(&[&[31], &[24]])), "end\n");
    assert_eq!(play(&record(&[256 + 24])), "end\n");
    assert_eq!(play(&record(&[24])[..31]), "end\n");
    for op in [1, 28] {
        assert_eq!(play(&record(&[op, 1])), "end\n");
        assert_eq!(play(&record(&[op, u64::MAX])), "end\n");
    }
    let whole = first_ring();
    for start in [&whole, &import(b"CQ")] {
        assert_eq!(play(&start[..start.len() - 1]), "end\n");
    }
    let lines = play(&[whole, record(&[9])].concat());
    let due = format!("words 0 4 1 8 2 1 3 2 {SQUARE}\nend\n");
    assert!(lines.ends_with(&due), "{lines}");
}
