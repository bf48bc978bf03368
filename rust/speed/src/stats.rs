// Figures over the rounds.

fn sorted(xs: &[f64]) -> Vec<f64> {
    let mut xs = xs.to_vec();
    xs.sort_by(f64::total_cmp);
    xs
}

pub fn median(xs: &[f64]) -> f64 {
    sorted(xs)[xs.len() / 2]
}

// The median of the rounds' ratios, and between what the middle half of them lies.
pub fn ratio(times: &[f64], others: &[f64]) -> String {
    let ratios: Vec<f64> = times.iter().zip(others).map(|(x, y)| x / y).collect();
    let (median, sorted) = (median(&ratios), sorted(&ratios));
    format!("{median:.2} (middle half {:.2} to {:.2})", sorted[sorted.len() / 4], sorted[sorted.len() * 3 / 4])
}
