// Records as a tree of bytes, to cut, change and write again with right lengths.
use crate::image::*;

#[derive(Clone)]
pub struct Node {
    pub at: usize,
    pub end: usize,
    pub kind: u16,
    pub bytes: Vec<u8>,
    pub parts: Vec<Node>,
}

impl Node {
    /// The record of a sound image.
    pub fn read(img: &[u8], r: Rec) -> Node {
        let leaf = is_leaf(r.kind);
        let bytes = if leaf { r.bytes(img).to_vec() } else { vec![] };
        let parts = if leaf { vec![] } else { r.parts(img).map(|p| Node::read(img, p)).collect() };
        Node { at: r.at, end: r.end, kind: r.kind, bytes, parts }
    }

    pub fn write(&self, out: &mut Vec<u8>) {
        let at = out.len();
        out.extend([0; 4]);
        out.extend(self.kind.to_le_bytes());
        self.parts.iter().for_each(|p| p.write(out));
        out.extend(&self.bytes);
        let len = (out.len() - at - 4) as u32;
        out[at..at + 4].copy_from_slice(&len.to_le_bytes());
    }

    pub fn image(&self) -> Vec<u8> {
        let mut out = Vec::new();
        self.write(&mut out);
        out
    }

    pub fn holds(&self, place: usize) -> bool {
        self.at <= place && place < self.end
    }

    pub fn is_expr(&self) -> bool {
        (INT..=CALL).contains(&self.kind)
    }

    pub fn is_stmt(&self) -> bool {
        (LET..=EXPR).contains(&self.kind)
    }

    /// How many records there are, this one included.
    pub fn count(&self) -> usize {
        1 + self.parts.iter().map(Node::count).sum::<usize>()
    }

    pub fn height(&self) -> usize {
        1 + self.parts.iter().map(Node::height).max().unwrap_or(0)
    }

    /// The record of a number in image order, from 0.
    pub fn numbered(&mut self, n: &mut usize) -> Option<&mut Node> {
        if *n == 0 {
            return Some(self);
        }
        *n -= 1;
        self.parts.iter_mut().find_map(|p| p.numbered(n))
    }

    /// The node at a place.
    pub fn find(&self, place: usize) -> Option<&Node> {
        if self.at == place {
            return Some(self);
        }
        self.parts.iter().find(|p| p.holds(place)).and_then(|p| p.find(place))
    }
}
