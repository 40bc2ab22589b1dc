//! Several runs of the benchmark as one: what a run prints goes through as it is, but each row of a table whose last three cells are
//! two times and their ratio becomes the least times of all runs, the ratio of these, and the median of the runs' own ratios.

/// The tables of several runs that printed the same rows, or which line differs.
pub fn together(runs: &[String]) -> Result<String, String> {
    let runs: Vec<Vec<&str>> = runs.iter().map(|run| run.lines().collect()).collect();
    let Some(first) = runs.first() else {
        return Err("no run".into());
    };
    let mut printed = String::new();
    for (number, line) in first.iter().enumerate() {
        let lines: Option<Vec<&str>> = runs.iter().map(|run| run.get(number).copied()).collect();
        let row = lines.and_then(|lines| together_line(&lines));
        printed += &row.ok_or_else(|| format!("not the same in every run: {line}"))?;
        printed.push('\n');
    }
    Ok(printed)
}

fn together_line(lines: &[&str]) -> Option<String> {
    let line = lines[0];
    if line.ends_with("| ratio |") {
        return same(lines).map(|line| format!("{line} median |"));
    }
    if line.starts_with("|---|") {
        return same(lines).map(|line| format!("{line}---|"));
    }
    let rows: Option<Vec<Times>> = lines.iter().map(|line| Times::of(line)).collect();
    match rows {
        Some(rows) => least(&rows),
        None => same(lines).map(String::from),
    }
}

fn same<'a>(lines: &[&'a str]) -> Option<&'a str> {
    lines.iter().all(|line| *line == lines[0]).then_some(lines[0])
}

/// A row: what stands before its times, the times with as many places as they were printed with, and their ratio.
struct Times {
    name: String,
    times: [f64; 2],
    places: usize,
    ratio: f64,
}

impl Times {
    fn of(line: &str) -> Option<Times> {
        let cells: Vec<&str> = line.strip_prefix("| ")?.strip_suffix(" |")?.split(" | ").collect();
        let [name @ .., first, second, ratio] = cells.as_slice() else {
            return None;
        };
        let places = first.split_once('.').map_or(0, |(_, after)| after.len());
        let times = [first.parse().ok()?, second.parse().ok()?];
        Some(Times { name: name.iter().map(|cell| format!("{cell} | ")).collect(), times, places, ratio: ratio.parse().ok()? })
    }
}

fn least(rows: &[Times]) -> Option<String> {
    let (name, places) = (&rows[0].name, rows[0].places);
    if rows.iter().any(|row| row.name != *name) {
        return None;
    }
    let [first, second] = [0, 1].map(|side| rows.iter().map(|row| row.times[side]).fold(f64::INFINITY, f64::min));
    let mut ratios: Vec<f64> = rows.iter().map(|row| row.ratio).collect();
    ratios.sort_by(f64::total_cmp);
    let median = (ratios[(ratios.len() - 1) / 2] + ratios[ratios.len() / 2]) / 2.0;
    Some(format!("| {name}{first:.places$} | {second:.places$} | {:.2} | {median:.2} |", first / second))
}
