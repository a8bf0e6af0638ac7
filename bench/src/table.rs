//! The printed tables.

/// A row: what was measured, then each contestant's time and, past the first, how many times as long the library takes.
pub fn row(shape: (u32, u32), what: &str, times: &[f64], unit: f64) {
    first_and_row(&format!("({}, {})", shape.0, shape.1), what, times, unit);
}

/// The same with another first column.
pub fn first_and_row(first: &str, what: &str, times: &[f64], unit: f64) {
    let mut line = format!("| {first} | {what} |");
    for (k, time) in times.iter().enumerate() {
        line += &format!(" {}", number(time / unit));
        if k > 0 {
            line += &format!(" ({}×)", number(times[0] / time));
        }
        line += " |";
    }
    println!("{line}");
}

pub fn head(title: &str, columns: &[&str]) {
    first_and_head("(d, n)", "what", title, columns);
}

/// The same with other first columns.
pub fn first_and_head(first: &str, what: &str, title: &str, columns: &[&str]) {
    println!("\n### {title}\n");
    println!("| {first} | {what} | {} |", columns.join(" | "));
    println!("|---|---|{}", "---|".repeat(columns.len()));
}

/// Three figures.
pub fn number(x: f64) -> String {
    if x >= 100.0 {
        format!("{x:.0}")
    } else if x >= 10.0 {
        format!("{x:.1}")
    } else {
        format!("{x:.2}")
    }
}
