//! Plans of most leaves, functions, brackets, levels, rounds and totals, refused ones among
//! them.

use reference::deep;
use reference::edges;
use reference::plan::text;

use super::comparison::Comparison;

pub fn compare_all(comparison: &mut Comparison) {
    for (name, plan) in deep::plans() {
        comparison.text(name, &text(&plan));
    }
    for (name, text, _) in edges::largest() {
        comparison.text(name, &text);
    }
}
