//! The drawings of the bench.

use crate::frame::{Frame, ABOVE, BODY, CAP, CLASSES, COVERS, FLOOR, LABELS, NECK, REGION, RIM, TOUCH};

#[derive(Clone)]
pub struct Node {
    pub class: usize,
    pub picked: bool,
    /// the one object that it must be
    pub fixed: Option<u32>,
}

#[derive(Clone)]
pub struct Drawing {
    pub name: &'static str,
    pub nodes: Vec<Node>,
    /// label, source, target
    pub edges: Vec<(usize, usize, usize)>,
    /// the node that is fixed to the known cap of each frame
    known: Option<usize>,
}

impl Drawing {
    /// Nodes by their classes; edges as label, source, target.
    fn new(name: &'static str, classes: &[usize], picks: &[usize], edges: &[(usize, usize, usize)]) -> Self {
        let nodes = classes.iter().enumerate().map(|(i, &class)| Node { class, picked: picks.contains(&i), fixed: None }).collect();
        Drawing { name, nodes, edges: edges.to_vec(), known: None }
    }

    /// Regions that touch each other, all picked.
    fn touching(name: &'static str, nodes: usize, edges: &[(usize, usize)]) -> Self {
        let all: Vec<usize> = (0..nodes).collect();
        Drawing::new(name, &vec![REGION; nodes], &all, &edges.iter().map(|&(s, t)| (TOUCH, s, t)).collect::<Vec<_>>())
    }

    fn picking(mut self, picks: &[usize]) -> Self {
        for (i, node) in self.nodes.iter_mut().enumerate() {
            node.picked = picks.contains(&i);
        }
        self
    }

    /// With this node fixed to the known cap.
    fn knowing(mut self, node: usize) -> Self {
        self.known = Some(node);
        self
    }

    /// The drawing as it is asked on this frame.
    pub fn on(&self, frame: &Frame) -> Self {
        let mut drawing = self.clone();
        if let Some(node) = self.known {
            drawing.nodes[node].fixed = Some(frame.known_cap);
        }
        drawing
    }

    /// Whether some node must be of a class that few regions are of.
    pub fn is_selective(&self) -> bool {
        self.nodes.iter().any(|node| node.class != REGION)
    }

    /// The picked nodes, in order.
    pub fn picks(&self) -> Vec<usize> {
        (0..self.nodes.len()).filter(|&i| self.nodes[i].picked).collect()
    }

    pub fn words(&self) -> Vec<u32> {
        let mut words = vec![self.nodes.len() as u32, self.edges.len() as u32];
        words.extend(self.nodes.iter().flat_map(|node| [node.class as u32, node.picked as u32, node.fixed.unwrap_or(matcher::ANY_OBJECT)]));
        words.extend(self.edges.iter().flat_map(|&(label, s, t)| [label as u32, s as u32, t as u32]));
        words
    }

    /// Its nodes in words, picked ones with a star, the one that is fixed as the known one; then its edges.
    pub fn text(&self) -> (String, String) {
        let letter = |i: usize| (b'a' + i as u8) as char;
        let known = |i: usize| if self.known == Some(i) { "the known " } else { "" };
        let node = |i: usize| format!("{}{} {}{}", letter(i), if self.nodes[i].picked { "*" } else { "" }, known(i), CLASSES[self.nodes[i].class]);
        let nodes: Vec<String> = (0..self.nodes.len()).map(node).collect();
        let edges: Vec<String> = self.edges.iter().map(|&(l, s, t)| format!("{} {} {}", letter(s), LABELS[l], letter(t))).collect();
        (nodes.join(", "), edges.join(", "))
    }
}

pub const BOTTLE: &str = "bottle";
pub const CAP_FIXED: &str = "bottle, cap fixed";

/// Edges run so that a drawing is found, too, where each touching pair stands only once, from the lower number to the higher.
pub fn drawings() -> Vec<Drawing> {
    let bottle = |name| Drawing::new(name, &[CAP, NECK, BODY], &[0, 1, 2], &[(COVERS, 0, 1), (ABOVE, 0, 1), (TOUCH, 1, 2), (ABOVE, 1, 2)]);
    vec![
        Drawing::touching("2-chain", 3, &[(0, 1), (1, 2)]),
        Drawing::touching("4-chain", 5, &[(0, 1), (1, 2), (2, 3), (3, 4)]).picking(&[0, 4]),
        Drawing::touching("star", 4, &[(0, 1), (0, 2), (0, 3)]),
        Drawing::touching("triangle", 3, &[(0, 1), (1, 2), (0, 2)]),
        Drawing::touching("square", 4, &[(0, 1), (0, 2), (1, 3), (2, 3)]),
        Drawing::touching("5-cycle", 5, &[(0, 1), (1, 2), (2, 4), (0, 3), (3, 4)]),
        bottle(BOTTLE),
        bottle(CAP_FIXED).knowing(0),
        Drawing::new("tray", &[RIM, FLOOR], &[0, 1], &[(TOUCH, 0, 1), (COVERS, 0, 1)]),
        Drawing::new(
            "8-node tree",
            &[CAP, NECK, BODY, REGION, REGION, REGION, REGION, FLOOR],
            &[0, 2, 5, 6, 7],
            &[(TOUCH, 0, 1), (TOUCH, 1, 2), (TOUCH, 2, 3), (TOUCH, 2, 4), (TOUCH, 3, 5), (TOUCH, 3, 6), (TOUCH, 4, 7)],
        ),
        Drawing::new("disconnected pair", &[CAP, RIM], &[0, 1], &[]),
    ]
}
