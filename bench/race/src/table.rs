//! Figures and markdown tables.

pub fn median(values: impl Iterator<Item = f64>) -> f64 {
    let mut sorted: Vec<f64> = values.collect();
    sorted.sort_by(f64::total_cmp);
    sorted[sorted.len() / 2]
}

pub fn least(values: &[f64]) -> f64 {
    values.iter().copied().fold(f64::INFINITY, f64::min)
}

/// Two or three figures that count, as a person would write them.
pub fn figure(value: f64) -> String {
    match value {
        0.0 => "0".to_string(),
        _ if !(1e-2..1e6).contains(&value) => format!("{value:.1e}"),
        _ if value >= 100.0 => format!("{value:.0}"),
        _ => format!("{value:.2}"),
    }
}

pub fn print_table(title: &str, heads: &[&str], rows: impl Iterator<Item = Vec<String>>) {
    println!("\n## {title}\n\n| {} |", heads.join(" | "));
    println!("|---|{}", "--:|".repeat(heads.len() - 1));
    for row in rows {
        println!("| {} |", row.join(" | "));
    }
}
