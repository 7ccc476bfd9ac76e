//! What the Rust makes of random histories and maps, as claims for the checker (crates/cases): the definitions must compute
//! the same. Digests are written as terms, by what was hashed to get them.
use crate::hash_tree::{list, term, HashTreeNode};
use crate::rb_tree::inspect::{view, View};
use crate::rb_tree::AsHashTree;
use crate::script::Random;
use crate::store::Store;

fn tree(store: &Store, t: &Option<Box<View>>) -> String {
    let Some(n) = t else { return "nil".into() };
    format!(
        "(node {} (en {} {} {}) {} {})",
        n.red,
        store.slots[&n.key],
        list(&n.key),
        list(&n.value),
        tree(store, &n.left),
        tree(store, &n.right)
    )
}

fn hash_tree(t: &HashTreeNode) -> String {
    match t {
        HashTreeNode::Empty() => "Empty".into(),
        HashTreeNode::Fork(both) => format!("(Fork {} {})", hash_tree(&both.0), hash_tree(&both.1)),
        HashTreeNode::Labeled(label, child) => format!("(Labeled {} {})", list(label), hash_tree(child)),
        HashTreeNode::Leaf(value) => format!("(Leaf {})", list(value)),
        HashTreeNode::Pruned(digest) => format!("(Pruned {})", term(digest)),
    }
}

/// The keys of a span: short ones that share fronts, the empty key among them.
fn key(r: &mut Random, span: usize) -> Vec<u8> {
    let x = r.below(span);
    match x % 3 {
        _ if x == 0 => vec![],
        0 => vec![(x / 3 * 10) as u8],
        n => vec![(x / 3 * 10) as u8, n as u8 * 100],
    }
}

/// A history on a store, as a list of operations whose last stands first.
fn history(r: &mut Random, store: &mut Store, steps: usize, span: usize) -> String {
    let mut ops = String::new();
    for step in 0..steps {
        let k = key(r, span);
        let v = vec![step as u8];
        let what = r.below(10);
        let op = if what < 5 || (step < steps / 2 && what < 8) {
            let slot = store.free.first().copied().unwrap_or(0);
            if !store.insert(&k, &v) {
                continue;
            }
            format!("put {slot} {} {}", list(&k), list(&v))
        } else if what < 9 {
            if store.map.get(&k).is_some() {
                store.delete(&k);
            }
            format!("deleting {}", list(&k))
        } else {
            if store.map.get(&k).is_some() {
                store.modify(&k, &v);
            }
            format!("modifying {} {}", list(&k), list(&v))
        };
        ops = format!("{op} ∷ {ops}");
    }
    format!("({ops}[])")
}

const HEAD: &str = "-- Assumes nothing.
use mathlib.Core.Path.{_≡_, refl}
use mathlib.Core.Bool.{true, false}
use mathlib.Core.List.{List, [], _∷_}
use Prim.Native.Nat.{ℕ}
use Rattle·key_order.specs.Order.{Key, cmp, isPrefixOf}
use Rattle·llrb.specs.Tree.{Value, Entry, Tree, nil, node, size, get, insertGo, insert, modify, balance}
use Rattle·llrb.specs.Delete.{readyLeft, readyRight, leanRight, ready, deleteMin, deleteGo, delete}
use Rattle·llrb.specs.History.{Op, inserting, modifying, deleting, run}
";

const ENTRY: &str = "
abbrev en : ℕ → Key → Value → Entry
en s k v = record { slot = s; key = k; value = v }

abbrev put : ℕ → Key → Value → Op
put s k v = inserting (en s k v)
";

const RUN: &str = "run insert delete modify get size ready deleteGo deleteMin insertGo cmp balance readyLeft readyRight leanRight";

pub fn trees() {
    println!("-- The definitions compute the trees that the Rust makes: shape, colour, slot, key and value after random histories.");
    println!("-- Printed by `oracle cases trees`: the Rust's rb_tree, unchanged, in a store whose freed slots are used again.");
    print!("{HEAD}{ENTRY}");
    let mut r = Random::new(17);
    for case in 0..16 {
        let mut store = Store::fresh(40);
        let ops = history(&mut r, &mut store, 80, [6, 12, 24, 60][case % 4]);
        println!("\ncase{case} : run {ops} ≡ {}", tree(&store, &view(&store.map)));
        println!("unfolding {RUN}\ncase{case} = refl");
    }
}

pub fn witnesses() {
    println!("-- The definitions compute the witnesses and root digests that the Rust makes on random maps, first not above last.");
    println!("-- Printed by `oracle cases witnesses`; a digest is written as the term that it is the hash of.");
    print!("{HEAD}");
    println!("use Rattle·hash_tree.specs.HashTree.{{HashTree, Empty, Fork, Labeled, Leaf, Pruned, emptyHash, forkHash, labeledHash, leafHash}}");
    println!("use Rattle·llrb.specs.Digests.{{subtreeDigest, rootHash}}");
    println!("use Rattle·witness_trees.specs.Shown.{{threeWayFork}}");
    println!("use Rattle·witness_trees.specs.Witness.{{lowerBound, upperBound, rightPrefixNeighbor, fullWitnessTree, witnessRangeAbove, witnessRangeBelow, witnessRangeBetween, rangeWitness, lookupAndBuildWitness, asHashTree, keys, keyRange, valueRange, keysWithPrefix, witness}}");
    print!("{ENTRY}");
    let mut r = Random::new(23);
    for (case, steps) in [0, 1, 2, 3, 5, 8, 12, 16, 20, 24].into_iter().enumerate() {
        let mut store = Store::fresh(40);
        let ops = history(&mut r, &mut store, steps, 40);
        println!("\nabbrev t{case} : Tree\nt{case} = run {ops}\n");
        let map = &store.map;
        let mut claims = vec![
            format!("(asHashTree t{case} ≡ {})", hash_tree(&map.as_hash_tree().root)),
            format!("(keys t{case} ≡ {})", hash_tree(&map.keys().root)),
        ];
        for _ in 0..4 {
            let (a, b) = (key(&mut r, 40), key(&mut r, 40));
            let (a, b) = if a > b { (b, a) } else { (a, b) };
            let (first, last) = (list(&a), list(&b));
            claims.push(format!("(keyRange {first} {last} t{case} ≡ {})", hash_tree(&map.key_range(&a, &b).root)));
            claims.push(format!("(valueRange {first} {last} t{case} ≡ {})", hash_tree(&map.value_range(&a, &b).root)));
            claims.push(format!("(witness {first} t{case} ≡ {})", hash_tree(&map.witness(&a).root)));
            claims.push(format!("(keysWithPrefix {last} t{case} ≡ {})", hash_tree(&map.keys_with_prefix(&b).root)));
        }
        claims.push(format!("(rootHash t{case} ≡ {})", term(&map.root_hash())));
        println!("case{case} : {}", claims.join("\n    × "));
        println!("unfolding asHashTree keys keyRange valueRange keysWithPrefix witness rangeWitness lookupAndBuildWitness fullWitnessTree witnessRangeAbove witnessRangeBelow witnessRangeBetween lowerBound upperBound rightPrefixNeighbor isPrefixOf threeWayFork subtreeDigest {RUN}");
        println!("case{case} = ({})", vec!["refl"; claims.len()].join(", "));
    }
}
