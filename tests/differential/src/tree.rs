//! Texts as trees of letters, read whatever is wrong with them: enough to cut them smaller.

/// What may stand in a place.
#[derive(Clone, Copy, Debug, PartialEq, Eq)]
pub enum Place {
    Tree,
    Amount,
    Test,
}

/// A node: the place it stands in, its letter (or what stands for it), its fields, its children.
/// Where the text ends early, fields and children are missing.
#[derive(Clone, Debug, PartialEq, Eq)]
pub struct Node {
    pub place: Place,
    pub letter: Vec<u8>,
    pub fields: Vec<Vec<u8>>,
    pub children: Vec<Node>,
}

/// How many fields stand behind a letter, and in which places its children stand.
fn shape(letter: &[u8]) -> (usize, &'static [Place]) {
    use Place::*;
    match letter {
        b"T" | b"O" => (2, &[]),
        b"F" | b"H" => (3, &[]),
        b"N" => (1, &[]),
        b"S" => (0, &[Amount, Tree]),
        b"L" => (1, &[Tree]),
        b"B" => (0, &[Tree, Tree]),
        b"W" => (1, &[Test, Tree, Tree]),
        b"A" | b"U" | b"K" | b"G" | b"E" => (0, &[Amount, Amount]),
        b"Q" => (1, &[Amount]),
        b"I" => (0, &[Test, Amount, Amount]),
        b"Y" | b"V" => (0, &[Test, Test]),
        b"R" => (0, &[Test]),
        _ => (0, &[]),
    }
}

/// Deeper than this no node is followed.
const DEPTH: usize = 200;

/// A text: its tree and what is left over behind it.
#[derive(Clone, Debug, PartialEq, Eq)]
pub struct Text {
    pub tree: Node,
    pub rest: Vec<Vec<u8>>,
}

impl Text {
    pub fn read(text: &[u8]) -> Text {
        let mut fields = text.split(|byte| *byte == b',').map(<[u8]>::to_vec);
        let tree = Node::next(&mut fields, Place::Tree, 1).expect("a text has a first field");
        Text {
            tree,
            rest: fields.collect(),
        }
    }

    pub fn bytes(&self) -> Vec<u8> {
        let mut fields = vec![];
        self.tree.put(&mut fields);
        fields.extend(self.rest.iter().cloned());
        fields.join(&b',')
    }
}

impl Node {
    fn next(
        fields: &mut impl Iterator<Item = Vec<u8>>,
        place: Place,
        depth: usize,
    ) -> Option<Node> {
        let letter = fields.next()?;
        let (own, places) = if depth > DEPTH {
            (0, &[][..])
        } else {
            shape(&letter)
        };
        Some(Node {
            place,
            fields: (0..own).map_while(|_| fields.next()).collect(),
            children: places
                .iter()
                .map_while(|place| Node::next(fields, *place, depth + 1))
                .collect(),
            letter,
        })
    }

    fn put(&self, fields: &mut Vec<Vec<u8>>) {
        fields.push(self.letter.clone());
        fields.extend(self.fields.iter().cloned());
        for child in &self.children {
            child.put(fields);
        }
    }

    pub fn nodes(&self) -> usize {
        1 + self.children.iter().map(Node::nodes).sum::<usize>()
    }

    /// The least node that may stand in a place.
    fn least(place: Place) -> Node {
        let node = |letter: &[u8], fields: &[&[u8]], children: Vec<Node>| Node {
            place,
            letter: letter.to_vec(),
            fields: fields.iter().map(|field| field.to_vec()).collect(),
            children,
        };
        match place {
            Place::Tree => node(b"Z", &[], vec![]),
            Place::Amount => node(b"N", &[b"0"], vec![]),
            Place::Test => {
                let zero = Node::least(Place::Amount);
                node(b"E", &[], vec![zero.clone(), zero])
            }
        }
    }

    /// The trees in which the `at`th node (the root is 0) is made smaller, the greatest cuts first.
    pub fn smaller_at(&self, at: usize) -> Vec<Node> {
        let mut left = at;
        let Some(node) = self.nth(&mut left) else {
            return vec![];
        };
        let mut found = vec![Node::least(node.place)];
        node.of_place(node.place, &mut found);
        for (at, field) in node.fields.iter().enumerate() {
            for smaller in smaller_field(field) {
                let mut changed = node.clone();
                changed.fields[at] = smaller;
                found.push(changed);
            }
        }
        found
            .into_iter()
            .map(|smaller| {
                let mut tree = self.clone();
                *tree.nth_mut(&mut { at }).expect("the same tree") = smaller;
                tree
            })
            .collect()
    }

    fn nth(&self, left: &mut usize) -> Option<&Node> {
        if *left == 0 {
            return Some(self);
        }
        *left -= 1;
        self.children.iter().find_map(|child| child.nth(left))
    }

    fn nth_mut(&mut self, left: &mut usize) -> Option<&mut Node> {
        if *left == 0 {
            return Some(self);
        }
        *left -= 1;
        self.children
            .iter_mut()
            .find_map(|child| child.nth_mut(left))
    }

    /// The nearest nodes beneath that may stand in this node's place.
    fn of_place(&self, place: Place, found: &mut Vec<Node>) {
        for child in &self.children {
            if child.place == place {
                found.push(child.clone());
            } else {
                child.of_place(place, found);
            }
        }
    }
}

/// Smaller fields in the place of this one.
pub fn smaller_field(field: &[u8]) -> Vec<Vec<u8>> {
    let text = String::from_utf8_lossy(field);
    if let Ok(number) = text.parse::<i64>() {
        return smaller_number(number)
            .into_iter()
            .map(|n| n.to_string().into_bytes())
            .collect();
    }
    match text.split_once('+') {
        // A month with settings: without them, or with one less.
        Some((number, settings)) => {
            let mut found = vec![number.as_bytes().to_vec()];
            if let Some((fewer, _)) = text.rsplit_once('+') {
                found.push(fewer.as_bytes().to_vec());
            }
            for smaller in smaller_field(number.as_bytes()) {
                found.push([&smaller, &b"+"[..], settings.as_bytes()].concat());
            }
            found
        }
        None if field.starts_with(b"P") => [&b"0"[..], b"1", b"P0"].map(<[u8]>::to_vec).to_vec(),
        None if field != b"0" => vec![b"0".to_vec()],
        None => vec![],
    }
}

/// Numbers nearer to zero, the nearest first.
pub fn smaller_number(number: i64) -> Vec<i64> {
    let towards_zero = number - number.signum();
    let mut found = vec![0, number.signum(), number / 2, towards_zero];
    if number < 0 {
        found.push(number.saturating_neg());
    }
    found.retain(|smaller| *smaller != number);
    found.dedup();
    found
}

#[cfg(test)]
mod tests {
    use super::*;

    #[test]
    fn every_text_is_read_and_printed_back() {
        for text in [
            "",
            ",",
            "Z",
            "Z,",
            "B,L,1,S,N,5000,T,1,2,W,P0,G,N,100,O,0,0,S,U,O,0,0,N,100,T,2,1,Z",
            "B,L,1,S,N,5000,T,1,2,W,P0,G,N,100,O",
            "S,Z,T,,,7,B,x,\n",
            "F,12+P0+P1,1,2,H",
        ] {
            let read = Text::read(text.as_bytes());
            assert_eq!(read.bytes(), text.as_bytes());
            for at in 0..read.tree.nodes() {
                assert!(!read.tree.smaller_at(at).is_empty());
            }
        }
        let deep = "L,0,".repeat(5_000);
        assert_eq!(Text::read(deep.as_bytes()).bytes(), deep.as_bytes());
    }
}
