//! Routes as a tree of segments: a map of literals at each node, and a label where none of them goes on.
use std::collections::HashMap;

#[derive(Default)]
struct Node {
    literals: HashMap<String, usize>,
    label: Option<usize>,
    // The operations that end here, with their methods.
    ends: Vec<(String, u32)>,
}

pub struct Router {
    nodes: Vec<Node>,
}

impl Router {
    /// The routes of operations, which are numbered in their order.
    pub fn new<'a>(patterns: impl Iterator<Item = (&'a str, &'a str)>) -> Router {
        let mut router = Router { nodes: vec![Node::default()] };
        for (operation, (method, pattern)) in patterns.enumerate() {
            let end = pattern.split('/').skip(1).fold(0, |node, segment| router.below(node, segment));
            router.nodes[end].ends.push((method.to_string(), operation as u32));
        }
        router
    }

    fn below(&mut self, node: usize, segment: &str) -> usize {
        let new = self.nodes.len();
        let place = match segment.starts_with('{') {
            true => *self.nodes[node].label.get_or_insert(new),
            false => *self.nodes[node].literals.entry(segment.to_string()).or_insert(new),
        };
        if place == new {
            self.nodes.push(Node::default());
        }
        place
    }

    /// The operation of a request: at each segment that of a literal, before that of a label.
    pub fn find(&self, method: &str, target: &str) -> Option<u32> {
        let path = target.split('?').next()?;
        self.find_below(0, method, path.strip_prefix('/')?)
    }

    fn find_below(&self, node: usize, method: &str, path: &str) -> Option<u32> {
        let (segment, rest) = match path.split_once('/') {
            Some((segment, rest)) => (segment, Some(rest)),
            None => (path, None),
        };
        let node = &self.nodes[node];
        let label = node.label.filter(|_| !segment.is_empty());
        let ways = node.literals.get(segment).into_iter().chain(label.as_ref());
        ways.copied().find_map(|next| match rest {
            Some(rest) => self.find_below(next, method, rest),
            None => self.nodes[next].ends.iter().find(|end| end.0 == method).map(|end| end.1),
        })
    }
}
