//! What `ringlist` prints.

use super::calls::settle;
use super::chart::read;
use super::layout::{crossings, list, weighted};

pub fn listing(chart: &[u8]) -> String {
    let (refusal, mut layout) = read(chart);
    if refusal != 0 {
        return format!("refused {refusal}\n");
    }
    let edges = weighted(&layout);
    let mut text = format!("devices {}\n", layout.n);
    text += &format!("links {}\n", edges.len());
    text += &format!("before {}\n", crossings(&list(&layout), &edges));
    let (_, (_, rounds, settled, _)) = settle(&mut layout, 50);
    text += &format!("after {}\n", crossings(&list(&layout), &edges));
    text += &format!("rounds {rounds}\n");
    text += &format!("settled {}\n", if settled { "yes" } else { "no" });
    text += "order";
    for v in list(&layout) {
        text += &format!(" {v}");
    }
    text + "\n"
}
