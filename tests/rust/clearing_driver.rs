//! Pairs of nets and gaps from standard input; boxes, sizes, verdicts and halves on standard output, as `clearing_run` prints them.
//! It stands beside the reference's modules in place of their `main.rs`; `separated` and `along_one_line` are made visible there.
mod curve_math;
mod curves;
mod intersect;
mod math;
mod point;
mod surface_math;
mod tolerance;
mod vector;
pub use point::{Point2D, Point3D};
pub use tolerance::Tolerance;
pub use vector::{Vector2D, Vector3D};

use intersect::curve_curve_hull::{along_one_line, separated};
use intersect::pieces::{apart_along, bounding_box, box_size, euclidean, out_of_measure};
use math::boxtree::{Aabb, boxes_apart};
use std::fmt::Write as _;
use std::io::{Read, Write};
use surface_math::bspline::halve_net;

fn put(out: &mut String, x: f64) {
    let bits = if x.is_nan() { 0x7ff8_0000_0000_0000 } else { x.to_bits() };
    write!(out, "{bits:016X} ").unwrap();
}

fn put_box(out: &mut String, b: &Aabb) {
    for x in b {
        put(out, x + 0.0);
    }
    put(out, box_size(b));
    out.push('\n');
}

fn flag(out: &mut String, flag: bool) {
    out.push_str(if flag { " yes" } else { " no" });
}

/// Document 01's widths are 2 to 26; other nets count as out of measure.
fn out(points: &[[f64; 3]]) -> bool {
    points.len() < 2 || points.len() > 26 || out_of_measure(points)
}

fn net_box(points: &[[f64; 3]]) -> Aabb {
    if out(points) {
        let (lo, hi) = (f64::NEG_INFINITY, f64::INFINITY);
        return [lo, lo, lo, hi, hi, hi];
    }
    bounding_box(points)
}

/// The visit of `search_meetings` with Newton's branch removed; of a settled pair the test that passed first (document 02, M-103).
fn verdict(a: &[[f64; 3]], b: &[[f64; 3]], gap: f64) -> &'static str {
    if out(a) || out(b) {
        return "unseparated";
    }
    if boxes_apart(&bounding_box(a), &bounding_box(b), gap) {
        return "box";
    }
    if separated(a, b, gap) {
        return "plane";
    }
    match along_one_line(a, b, gap) {
        Some(axis) if apart_along(axis, a, b, gap) => "line",
        Some(_) => "unseparated",
        None => "split",
    }
}

fn main() {
    let mut bytes = Vec::new();
    std::io::stdin().read_to_end(&mut bytes).unwrap();
    let mut words = bytes.chunks_exact(8).map(|b| u64::from_le_bytes(b.try_into().unwrap()));
    let count = words.next().unwrap();
    let mut text = String::new();
    for _ in 0..count {
        let widths = [words.next().unwrap() as usize, words.next().unwrap() as usize];
        let gap = f64::from_bits(words.next().unwrap());
        let nets = widths.map(|w| words.by_ref().take(4 * w).map(f64::from_bits).collect::<Vec<f64>>());
        let points = nets.each_ref().map(|net| {
            let mut points = Vec::new();
            euclidean(net, &mut points);
            points
        });
        let boxes = points.each_ref().map(|p| net_box(p));
        text.push_str(verdict(&points[0], &points[1], gap));
        flag(&mut text, boxes_apart(&boxes[0], &boxes[1], gap));
        flag(&mut text, box_size(&boxes[0]) > box_size(&boxes[1]));
        text.push('\n');
        put_box(&mut text, &boxes[0]);
        put_box(&mut text, &boxes[1]);
        for (k, net) in nets.iter().enumerate() {
            let mut halves = [vec![0.0; net.len()], vec![0.0; net.len()]];
            let [lower, upper] = &mut halves;
            halve_net(net, 1, widths[k], 4, false, lower, upper);
            for half in &halves {
                half.iter().for_each(|&x| put(&mut text, x));
                text.push('\n');
            }
        }
    }
    std::io::stdout().write_all(text.as_bytes()).unwrap();
}
