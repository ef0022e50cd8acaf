//! The places of the published text that count, and which ways were taken there.

use std::collections::HashMap;

/// A place that counts, as the build lists them.
struct Site {
    label: String,
    file: String,
    line: u32,
    column: u32,
    outcomes: &'static [&'static str],
    text: String,
}

fn sites() -> Vec<Site> {
    let path = std::env::current_exe().expect("a program has a path").with_file_name("sites.txt");
    let text = std::fs::read_to_string(path).expect("the build puts sites.txt beside the program");
    let mut sites: Vec<Site> = Vec::new();
    let mut on_line: HashMap<String, u32> = HashMap::new();
    for row in text.lines() {
        let parts: Vec<&str> = row.split('\t').collect();
        let name = parts[0].rsplit('/').next().unwrap_or(parts[0]);
        let nth = on_line.entry(format!("{name}:{}", parts[1])).or_insert(0);
        *nth += 1;
        sites.push(Site {
            label: format!("{name}:{}.{nth}", parts[1]),
            file: parts[0].to_string(),
            line: parts[1].parse().expect("a line number"),
            column: parts[2].parse().expect("a column"),
            outcomes: match parts[3] {
                "truth" => reach::TRUTH,
                "order" => reach::ORDER,
                "pair" => reach::PAIR,
                _ => reach::CLAMP,
            },
            text: parts[4].to_string(),
        });
    }
    sites
}

/// The places with how often each way was taken.
pub fn print() -> String {
    let counts = reach::counts();
    let mut out = "\nplaces\n".to_string();
    for site in sites() {
        let ways = site.outcomes.iter().map(|&outcome| {
            let key = (site.file.clone(), site.line, site.column, outcome);
            format!("{outcome} {}", counts.get(&key).unwrap_or(&0))
        });
        let ways: Vec<String> = ways.collect();
        out += &format!("{}  `{}`\n    {}\n", site.label, site.text, ways.join(", "));
    }
    out
}

/// The ways that were never taken, as `label outcome`.
pub fn missing() -> Vec<String> {
    let counts = reach::counts();
    let mut missing = Vec::new();
    for site in sites() {
        for &outcome in site.outcomes {
            if !counts.contains_key(&(site.file.clone(), site.line, site.column, outcome)) {
                missing.push(format!("{} {}", site.label, outcome.replace(' ', "-")));
            }
        }
    }
    missing
}

/// Counts at places that the build did not list would be lost: there are none.
pub fn check() {
    let listed: Vec<(String, u32, u32)> = sites().into_iter().map(|s| (s.file, s.line, s.column)).collect();
    for (file, line, column, _) in reach::counts().into_keys() {
        let place = (file, line, column);
        assert!(listed.contains(&place), "{place:?} counts but is not in sites.txt");
    }
}
