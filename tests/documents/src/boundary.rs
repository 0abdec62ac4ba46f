//! What the C header, `README.md` and `docs/RULES.md` say of the C functions and their refusals.

use std::collections::BTreeSet;

/// A function, and its refusals in the order given.
type Order = (String, Vec<u32>);

/// All names of C functions in a text, each once.
pub fn functions_named(text: &str) -> Vec<String> {
    let words = text.split(|c: char| !c.is_ascii_alphanumeric() && c != '_');
    let names: BTreeSet<&str> = words.filter(|word| word.starts_with("wt_")).collect();
    names.into_iter().map(str::to_string).collect()
}

fn numbers_in(text: &str) -> Vec<u32> {
    let words = text.split(|c: char| !c.is_ascii_digit());
    words.filter_map(|word| word.parse().ok()).collect()
}

/// A text without what stands in brackets.
fn without_remarks(text: &str) -> String {
    let pieces = text.split('(');
    let kept = pieces
        .enumerate()
        .map(|(place, piece)| match piece.split_once(')') {
            Some((_, rest)) if place > 0 => rest,
            _ => piece,
        });
    kept.collect()
}

/// Each function of the header, with what its comment says: `Refusals, in order: 2, 3 (a remark), 11.`
pub fn orders_of_header(header: &str) -> Vec<Order> {
    let mut orders = Vec::new();
    let mut listed = Vec::new();
    for comment in header.split("/*").skip(1) {
        let (comment, code) = comment.split_once("*/").expect("a comment ends");
        if let Some((_, list)) = comment.split_once("Refusals, in order: ") {
            let list = without_remarks(list);
            listed = numbers_in(list.split('.').next().unwrap_or(""));
        }
        for line in code.lines().filter(|line| line.starts_with("uint32_t wt_")) {
            let name = functions_named(line).swap_remove(0);
            orders.push((name, std::mem::take(&mut listed)));
        }
    }
    orders.sort();
    orders
}

/// Each function's row, such as ``| `wt_write_pbm` | 2 3 11 |``.
pub fn orders_of_rules(rules: &str) -> Vec<Order> {
    let rows = rules.lines().filter_map(|line| {
        let (name, numbers) = line.strip_prefix("| `wt_")?.split_once("` | ")?;
        Some((format!("wt_{name}"), numbers_in(numbers)))
    });
    let mut orders: Vec<Order> = rows.collect();
    orders.sort();
    orders
}

/// The numbers that the header explains, each at the head of a line: ` *    10   the length ..`.
pub fn numbers_of_header(header: &str) -> Vec<u32> {
    let lines = header.lines().skip_while(|line| *line != " * Refusals");
    let lines = lines.take_while(|line| *line != " */");
    let first = |line: &str| line.strip_prefix(" *  ")?.get(..5)?.trim().parse().ok();
    lines.filter_map(first).collect()
}

/// The numbers that the rules explain, each in a row of its own: `| 10 | the length .. |`.
pub fn numbers_of_rules(rules: &str) -> Vec<u32> {
    let first = |line: &str| line.strip_prefix("| ")?.split(' ').next()?.parse().ok();
    rules.lines().filter_map(first).collect()
}

/// The words between a document's title and its first heading.
pub fn opening_words(text: &str) -> usize {
    let lines = text
        .lines()
        .skip(1)
        .take_while(|line| !line.starts_with('#'));
    lines.map(|line| line.split_whitespace().count()).sum()
}

#[cfg(test)]
mod tests {
    use super::*;

    const HEADER: &str = "/*
 * Refusals
 *
 *     1   one
 *         and more of it
 *    12   twelve
 */
/*
 * Refusals, in order: 2, 10 (map
 * or 5), 11, and last 8 for one. Not 13.
 */
uint32_t wt_open(uint64_t width);
";

    #[test]
    fn the_header_is_read() {
        let wanted = vec![("wt_open".to_string(), vec![2, 10, 11, 8])];
        assert_eq!(orders_of_header(HEADER), wanted);
        assert_eq!(numbers_of_header(HEADER), [1, 12]);
    }

    #[test]
    fn the_rules_are_read() {
        let rules = "| 1 | one |\n| 12 | twelve |\n| `wt_open` | 2 10 (11) 8 |\n";
        assert_eq!(orders_of_rules(rules), orders_of_header(HEADER));
        assert_eq!(numbers_of_rules(rules), numbers_of_header(HEADER));
    }

    #[test]
    fn an_opening_ends_at_a_heading() {
        assert_eq!(opening_words("# Name\n\nOne two.\n\n## Three\nfour\n"), 2);
    }
}
