//! What is drawn as the library takes it: longitude intervals at a colatitude, and panels of colatitudes with nodes on them.

use geopotential::slepian::try_polygon;

use crate::arguments::{Arguments, Opt};
use crate::error::Error;
use crate::outline::{Outline, Ring};
use crate::output::note;

/// The library's limits: nodes of one call, and of one panel.
const MAX_NODES: usize = 65_535;
const MAX_PANEL_NODES: usize = 2701;
/// Nodes a panel beside those that degree and reach ask for.
const LEAST: usize = 12;
/// A panel that is a smaller part of a region's height than this asks for no nodes: rounded latitudes make such panels.
const THINNEST: f64 = 1e-9;
/// The most bytes of one call's nodes.
const MOST_BYTES: usize = 4_000_000_000;

pub const NODES: Opt = Opt {
    name: "--nodes",
    value: "K",
    help: "nodes on each panel between neighbouring latitudes of vertices;\ndefault 12 and the degree times the widest panel, or the farthest\nthat an edge goes in longitude on a panel, in radians",
};

/// How many nodes a panel gets.
#[derive(Clone, Copy)]
pub struct Fineness {
    /// What `--nodes` says.
    pub wished: Option<usize>,
    /// How many more there are than the command line says, to see what they change.
    pub more: usize,
}

impl Fineness {
    /// The fineness that a command's option `--nodes` says.
    pub fn of(arguments: &Arguments) -> Result<Fineness, Error> {
        match arguments.count(NODES.name, MAX_PANEL_NODES)? {
            Some(0) => Err(Error::usage("--nodes is 0; expected 1 or more")),
            wished => Ok(Fineness { wished, more: 0 }),
        }
    }
}

type Intervals = Box<dyn Fn(f64) -> Vec<(f64, f64)>>;

/// A region of the sphere.
pub struct Drawn {
    /// West and east ends of what lies inside at a colatitude, radians.
    pub intervals: Intervals,
    /// The ends of panels: the vertices' colatitudes, rising.
    pub breaks: Vec<f64>,
}

impl Drawn {
    /// The inside of a ring, of a hole too.
    pub fn inside(ring: &Ring) -> Result<Drawn, Error> {
        let (intervals, breaks) = try_polygon(&ring.radians())?;
        Ok(Drawn { intervals: Box::new(intervals), breaks })
    }

    /// A whole basin. An integral from east to west has the minus sign: turned round, the intervals of holes are taken off.
    pub fn joined(outline: &Outline) -> Result<Drawn, Error> {
        let (mut parts, mut breaks) = (Vec::new(), Vec::new());
        for ring in &outline.rings {
            let part = Drawn::inside(ring)?;
            parts.push((part.intervals, ring.hole));
            breaks.extend(part.breaks);
        }
        breaks.sort_by(f64::total_cmp);
        breaks.dedup();
        Ok(Drawn { intervals: Box::new(move |theta| signed_intervals(&parts, theta)), breaks })
    }

    /// How many panels there are.
    pub fn panels(&self) -> usize {
        self.breaks.len().saturating_sub(1)
    }

    /// The nodes on each panel.
    pub fn nodes(&self, degree: usize, fineness: Fineness) -> Result<usize, String> {
        let panels = self.panels();
        let most = (MAX_NODES / panels.max(1)).min(MAX_PANEL_NODES);
        let nodes = fineness.more + fineness.wished.unwrap_or_else(|| self.ruled_nodes(degree, most, fineness.more == 0));
        if nodes == 0 || nodes > most {
            return Err(format!("{nodes} nodes on each of {panels} panels; the library has at most {most} there ({MAX_NODES} in all)"));
        }
        check_memory(degree, nodes * panels)?;
        Ok(nodes)
    }

    /// The nodes that degree and reach ask for, as far as there is room for them; says so where there is not.
    fn ruled_nodes(&self, degree: usize, most: usize, tell: bool) -> usize {
        let asked = LEAST + (degree as f64 * self.reach()).ceil() as usize;
        if tell && asked > most {
            let panels = self.panels();
            note(&format!("degree {degree} asks for {asked} nodes on each of {panels} panels; the library has room for {most}"));
        }
        asked.min(most)
    }

    /// How far the integrand's waves run on a panel: its width, or the way of an edge in longitude, whichever is most.
    fn reach(&self) -> f64 {
        let height = self.breaks.last().zip(self.breaks.first()).map_or(0.0, |(last, first)| last - first);
        let panels = self.breaks.windows(2).filter(|panel| panel[1] - panel[0] >= THINNEST * height);
        panels.map(|panel| (panel[1] - panel[0]).max(self.drift(panel[0], panel[1]))).fold(0.0, f64::max)
    }

    /// The farthest that an end of an interval goes on a panel, where edges are straight: twice the way between its quarters.
    fn drift(&self, from: f64, to: f64) -> f64 {
        let ends = |part: f64| (self.intervals)(from + part * (to - from));
        let ways = ends(0.25).into_iter().zip(ends(0.75)).map(|(a, b)| (b.0 - a.0).abs().max((b.1 - a.1).abs()));
        2.0 * ways.fold(0.0, f64::max)
    }
}

fn signed_intervals(parts: &[(Intervals, bool)], theta: f64) -> Vec<(f64, f64)> {
    let mut all = Vec::new();
    for (intervals, hole) in parts {
        all.extend(intervals(theta).into_iter().map(|(west, east)| if *hole { (east, west) } else { (west, east) }));
    }
    all
}

/// A node has two lists of 2L + 1 integrals, and three numbers more.
fn check_memory(degree: usize, nodes: usize) -> Result<(), String> {
    let bytes = 8 * nodes * (4 * degree + 5);
    if bytes <= MOST_BYTES {
        return Ok(());
    }
    let [needed, most] = [bytes, MOST_BYTES].map(|bytes| bytes as f64 / 1e9);
    Err(format!(
        "{nodes} nodes to degree {degree} need {needed:.1} GB of memory; expected at most {most} GB: \
         fewer of them by --nodes, a lower degree, or an outline of fewer vertices"
    ))
}
