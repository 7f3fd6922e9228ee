//! A figure as a tree of chunks, before it is bytes: so that faults can be
//! put into it while all lengths around them stay right.

/// The way from the root to a chunk: which child, at each step.
pub type Path = Vec<usize>;

/// One chunk with all inside.
#[derive(Clone, Debug, Default, PartialEq, Eq)]
pub struct Node {
    pub identifier: u16,
    pub own: Vec<u8>,
    pub children: Vec<Node>,
    /// Bytes behind the last child.
    pub tail: Vec<u8>,
    /// The length its header states, where that is not the true one.
    pub stated: Option<u32>,
}

impl Node {
    /// A chunk without children.
    pub fn leaf(identifier: u16, own: Vec<u8>) -> Node {
        Node {
            identifier,
            own,
            ..Node::default()
        }
    }

    /// A chunk with children.
    pub fn holding(identifier: u16, own: Vec<u8>, children: Vec<Node>) -> Node {
        Node {
            identifier,
            own,
            children,
            ..Node::default()
        }
    }

    /// The bytes it takes, header and all inside.
    pub fn size(&self) -> usize {
        let inside: usize = self.children.iter().map(Node::size).sum();
        6 + self.own.len() + inside + self.tail.len()
    }

    /// Its bytes.
    pub fn bytes(&self) -> Vec<u8> {
        self.marked().0
    }

    /// Its bytes, and the offset of every header in them.
    pub fn marked(&self) -> (Vec<u8>, Vec<usize>) {
        let (mut bytes, mut marks) = (Vec::with_capacity(512), Vec::with_capacity(32));
        self.put(&mut bytes, &mut marks);
        (bytes, marks)
    }

    fn put(&self, bytes: &mut Vec<u8>, marks: &mut Vec<usize>) {
        let at = bytes.len();
        marks.push(at);
        bytes.extend_from_slice(&self.identifier.to_le_bytes());
        bytes.extend_from_slice(&[0; 4]);
        bytes.extend_from_slice(&self.own);
        for child in &self.children {
            child.put(bytes, marks);
        }
        bytes.extend_from_slice(&self.tail);
        let length = self.stated.unwrap_or((bytes.len() - at) as u32);
        bytes[at + 2..at + 6].copy_from_slice(&length.to_le_bytes());
    }

    /// The chunk at the end of a way.
    pub fn at(&mut self, path: &[usize]) -> &mut Node {
        match path {
            [] => self,
            [first, rest @ ..] => self.children[*first].at(rest),
        }
    }

    /// The offset of the chunk at the end of a way.
    pub fn offset(&self, path: &[usize]) -> usize {
        let [first, rest @ ..] = path else {
            return 0;
        };
        let before: usize = self.children[..*first].iter().map(Node::size).sum();
        6 + self.own.len() + before + self.children[*first].offset(rest)
    }

    /// The ways to all chunks that a test takes, this one's own first.
    pub fn paths(&self, test: &dyn Fn(&Node) -> bool) -> Vec<Path> {
        let mut found = Vec::new();
        self.gather(test, &mut Vec::new(), &mut found);
        found
    }

    fn gather(&self, test: &dyn Fn(&Node) -> bool, here: &mut Path, found: &mut Vec<Path>) {
        if test(self) {
            found.push(here.clone());
        }
        for (at, child) in self.children.iter().enumerate() {
            here.push(at);
            child.gather(test, here, found);
            here.pop();
        }
    }

    /// Its first child of an identifier.
    pub fn child(&mut self, identifier: u16) -> Option<&mut Node> {
        let mut children = self.children.iter_mut();
        children.find(|child| child.identifier == identifier)
    }
}
