//! The Rust's module, unchanged (rb_tree/mod.rs), and a window into its private nodes.
include!("rb_tree/mod.rs");

/// What a node holds, copied out of the tree or to be built into one.
pub mod inspect {
    use super::*;

    pub struct View {
        pub key: Vec<u8>,
        pub value: Vec<u8>,
        pub red: bool,
        pub digest: Hash,
        pub left: Option<Box<View>>,
        pub right: Option<Box<View>>,
    }

    pub type Map = RbTree<Vec<u8>, Vec<u8>>;

    fn copy(n: &NodeRef<Vec<u8>, Vec<u8>>) -> Option<Box<View>> {
        n.as_ref().map(|n| {
            Box::new(View {
                key: n.key.clone(),
                value: n.value.clone(),
                red: n.color == Color::Red,
                digest: n.subtree_hash,
                left: copy(&n.left),
                right: copy(&n.right),
            })
        })
    }

    pub fn view(map: &Map) -> Option<Box<View>> {
        copy(&map.root)
    }

    fn node(v: Option<Box<View>>) -> NodeRef<Vec<u8>, Vec<u8>> {
        v.map(|v| {
            Box::new(Node {
                key: v.key,
                value: v.value,
                color: if v.red { Color::Red } else { Color::Black },
                subtree_hash: v.digest,
                left: node(v.left),
                right: node(v.right),
            })
        })
    }

    pub fn build(v: Option<Box<View>>) -> Map {
        RbTree { root: node(v) }
    }

    /// The least key on the right of the key's node, where the node has a right child.
    pub fn next_on_right(map: &Map, key: &[u8]) -> Option<Vec<u8>> {
        let mut at = map.root.as_ref();
        while let Some(n) = at {
            match key.cmp(&n.key) {
                Less => at = n.left.as_ref(),
                Greater => at = n.right.as_ref(),
                Equal => {
                    let mut least = n.right.as_ref()?;
                    while let Some(l) = least.left.as_ref() {
                        least = l;
                    }
                    return Some(least.key.clone());
                }
            }
        }
        None
    }
}
