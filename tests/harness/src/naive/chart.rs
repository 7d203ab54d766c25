//! The chart reader: the eight questions of document 01, one after the other,
//! and the two of Note 8 of document 02. The chart writer: Notes 1 and 8.

use super::layout::{crossings, edges, empty, is_weighted, join, list, weighted, Layout};

/// A field: its tag and its body.
type Field = (u8, Vec<u8>);

/// A question about the fields.
type Question<'a> = &'a dyn Fn(&[Field]) -> bool;

/// The refusal number, and the layout: the empty one where it isn't 0.
pub fn read(input: &[u8]) -> (u8, Layout) {
    let fields = divide(input);
    let questions: [(u8, Question); 10] = [
        (1, &|_| input.len() <= 8192),
        (2, &|_| fields.is_some()),
        (3, &|f| {
            tags(f) == [0x44, 0x4C, 0x52] || tags(f) == [0x44, 0x4C, 0x52, 0x57]
        }),
        (4, &|f| f[0].1.len() == 1 && f[0].1[0] <= 64),
        (5, &|f| f[1].1.len() % 2 == 0),
        (6, &|f| {
            links(f)
                .iter()
                .all(|&[a, b]| a < n(f) && b < n(f) && a != b)
        }),
        (7, &|f| no_pair_twice(&links(f))),
        (8, &|f| {
            f[2].1.len() == n(f) as usize && each_once(&f[2].1, n(f))
        }),
        (24, &|f| weights(f).len() == links(f).len()),
        (25, &|f| !weights(f).contains(&0)),
    ];
    let known = fields.clone().unwrap_or_default();
    for (number, question) in questions {
        if !question(&known) {
            return (number, empty());
        }
    }
    (0, build(&known))
}

/// Divides the input exactly into fields, if it can be.
fn divide(input: &[u8]) -> Option<Vec<Field>> {
    let mut fields = Vec::new();
    let mut at = 0;
    while at < input.len() {
        if at + 3 > input.len() {
            return None;
        }
        let length = input[at + 1] as usize * 256 + input[at + 2] as usize;
        let end = at + 3 + length;
        if end > input.len() {
            return None;
        }
        fields.push((input[at], input[at + 3..end].to_vec()));
        at = end;
    }
    Some(fields)
}

fn tags(fields: &[Field]) -> Vec<u8> {
    fields.iter().map(|field| field.0).collect()
}

fn n(fields: &[Field]) -> u8 {
    fields[0].1[0]
}

/// The edges (links) as written.
fn links(fields: &[Field]) -> Vec<[u8; 2]> {
    let body = &fields[1].1;
    (0..body.len() / 2)
        .map(|i| [body[2 * i], body[2 * i + 1]])
        .collect()
}

/// The weights as written, and where they aren't, each 1.
fn weights(fields: &[Field]) -> Vec<u8> {
    match fields.get(3) {
        Some((_, body)) => body.clone(),
        None => vec![1; links(fields).len()],
    }
}

fn no_pair_twice(links: &[[u8; 2]]) -> bool {
    let pair = |&[a, b]: &[u8; 2]| u16::from(a.min(b)) * 256 + u16::from(a.max(b));
    let pairs: Vec<u16> = links.iter().map(pair).collect();
    (0..pairs.len()).all(|i| !pairs[..i].contains(&pairs[i]))
}

fn each_once(body: &[u8], n: u8) -> bool {
    (0..n).all(|v| body.iter().filter(|&&w| w == v).count() == 1)
}

/// The layout of a chart to which every question was answered "yes".
fn build(fields: &[Field]) -> Layout {
    let mut layout = empty();
    layout.n = u64::from(n(fields));
    for (i, &v) in fields[2].1.iter().enumerate() {
        layout.order[i] = v;
    }
    let weights = weights(fields);
    for (i, [a, b]) in links(fields).into_iter().enumerate() {
        join(&mut layout, a as usize, b as usize, weights[i]);
    }
    layout.count = crossings(&list(&layout), &weighted(&layout));
    layout
}

/// The chart of a valid layout: fields 44, 4C and 52, the edges (links) lower
/// end first, sorted by lower and then higher end, and field 57 where some
/// weight isn't 1.
pub fn written(layout: &Layout) -> Vec<u8> {
    let links = edges(layout).into_iter();
    let ends: Vec<usize> = links.flat_map(|(v, w)| [v, w]).collect();
    let mut chart = field(0x44, &[layout.n as usize]);
    chart.extend(field(0x4C, &ends));
    chart.extend(field(0x52, &list(layout)));
    if is_weighted(layout) {
        let links = weighted(layout).into_iter();
        let weights: Vec<usize> = links.map(|(_, weight)| weight as usize).collect();
        chart.extend(field(0x57, &weights));
    }
    chart
}

/// One-byte tag, two-byte length (high byte first), body.
fn field(tag: u8, body: &[usize]) -> Vec<u8> {
    let mut bytes = vec![tag, (body.len() / 256) as u8, (body.len() % 256) as u8];
    for &number in body {
        bytes.push(number as u8);
    }
    bytes
}
