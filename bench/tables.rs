//! Tables in Markdown.

pub fn with_commas(number: u64) -> String {
    match number {
        0..=999 => number.to_string(),
        _ => format!("{},{:03}", with_commas(number / 1000), number % 1000),
    }
}

pub fn print_heading(columns: &[String]) {
    println!("\n| | {} |", columns.join(" | "));
    println!("|---|{}", "---|".repeat(columns.len()));
}

pub fn print_row(name: &str, figures: &[String]) {
    println!("| {name} | {} |", figures.join(" | "));
}
