// The picture of the growth with rows, drawn by gnuplot.

use std::fmt::Write as _;
use std::fs;
use std::path::Path;
use std::process::Command;

pub const SIZES: [u8; 4] = [10, 20, 40, 60];

/// The costs of one kind of book in microseconds, for each of `SIZES`.
pub struct Panel {
    pub title: String,
    pub lines: Vec<(String, Vec<f64>)>,
}

fn script(panels: &[Panel], to: &Path) -> String {
    let mut s = String::new();
    let size = format!("{},380", 420 * panels.len());
    writeln!(
        s,
        "set terminal svg size {} font 'sans,12' background 'white'",
        size
    )
    .unwrap();
    writeln!(s, "set output '{}'", to.display()).unwrap();
    writeln!(s, "set multiplot layout 1,{}", panels.len()).unwrap();
    writeln!(
        s,
        "set logscale y\nset xlabel 'rows'\nset ylabel 'microseconds for one evaluation'"
    )
    .unwrap();
    writeln!(
        s,
        "set xrange [5:65]\nset yrange [0.1:100000]\nset xtics (10,20,40,60)"
    )
    .unwrap();
    writeln!(
        s,
        "set grid y\nset key outside bottom center horizontal samplen 2"
    )
    .unwrap();
    for (i, p) in panels.iter().enumerate() {
        for (j, (_, costs)) in p.lines.iter().enumerate() {
            writeln!(s, "$d{}_{} << EOD", i, j).unwrap();
            for (size, cost) in SIZES.iter().zip(costs) {
                writeln!(s, "{} {}", size, cost).unwrap();
            }
            writeln!(s, "EOD").unwrap();
        }
        writeln!(s, "set title '{}'", p.title).unwrap();
        let plots: Vec<String> = p
            .lines
            .iter()
            .enumerate()
            .map(|(j, (name, _))| format!("$d{}_{} with linespoints lw 2 title '{}'", i, j, name))
            .collect();
        writeln!(s, "plot {}", plots.join(", ")).unwrap();
    }
    s.push_str("unset multiplot\n");
    s
}

/// Draws the picture, or says why not.
pub fn draw(panels: &[Panel], dir: &Path, to: &Path) -> String {
    let at = dir.join("costs.gnuplot");
    fs::write(&at, script(panels, to)).expect("the work folder can be written");
    match Command::new("gnuplot").arg(&at).output() {
        Ok(out) if out.status.success() => format!("picture: {}", to.display()),
        Ok(out) => format!(
            "no picture: {}",
            String::from_utf8_lossy(&out.stderr).trim()
        ),
        Err(_) => "no picture: gnuplot is not installed".to_string(),
    }
}
