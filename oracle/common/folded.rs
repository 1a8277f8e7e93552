//! Lists that are printed for replay.

/// No line of a list is longer.
const MOST: usize = 118;

/// A longer line goes on in the next, after a backslash at its end. A list is ASCII.
pub fn folded(list: &str) -> String {
    let mut out = String::new();
    for line in list.lines() {
        let mut rest = line;
        while rest.len() > MOST {
            let (here, next) = rest.split_at(MOST - 1);
            out += here;
            out += "\\\n";
            rest = next;
        }
        out += rest;
        out.push('\n');
    }
    out
}
