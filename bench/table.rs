//! A table of lines `size|name|library|plain`, some of them measured more than once.

use std::io::Read;

struct Line {
    size: String,
    name: String,
    library: Vec<f64>,
    plain: Vec<f64>,
}

pub fn median(values: &[f64]) -> f64 {
    let mut sorted = values.to_vec();
    sorted.sort_by(f64::total_cmp);
    let half = sorted.len() / 2;
    if sorted.len() % 2 == 1 {
        sorted[half]
    } else {
        (sorted[half - 1] + sorted[half]) / 2.0
    }
}

impl Line {
    fn print(&self) {
        let (library, plain) = (median(&self.library), median(&self.plain));
        let ratio = library / plain;
        print!(
            "{:>4}  {:<38}{library:>10.0}{plain:>10.0}{ratio:>8.2}",
            self.size, self.name
        );
        if self.library.len() > 1 {
            let ratios = self.library.iter().zip(&self.plain).map(|(l, p)| l / p);
            let least = ratios.clone().fold(f64::INFINITY, f64::min);
            let greatest = ratios.fold(0.0, f64::max);
            print!("{least:>9.2} to {greatest:.2}");
        }
        println!();
    }
}

/// Prints what standard input holds: medians, their ratio, and the least and greatest ratio where there are several.
pub fn print() {
    let mut text = String::new();
    std::io::stdin().read_to_string(&mut text).expect("lines");
    let mut lines: Vec<Line> = Vec::new();
    for words in text.lines().map(|line| line.split('|').collect::<Vec<_>>()) {
        let [size, name, library, plain] = words[..] else {
            panic!("no line of a table: {words:?}");
        };
        let at = lines
            .iter()
            .position(|line| line.size == size && line.name == name);
        let at = at.unwrap_or_else(|| {
            lines.push(Line {
                size: size.into(),
                name: name.into(),
                library: Vec::new(),
                plain: Vec::new(),
            });
            lines.len() - 1
        });
        lines[at].library.push(library.parse().expect("a number"));
        lines[at].plain.push(plain.parse().expect("a number"));
    }
    println!(
        "{:>4}  {:<38}{:>10}{:>10}{:>8}",
        "n", "", "library", "plain", "ratio"
    );
    for line in lines {
        line.print();
    }
}
