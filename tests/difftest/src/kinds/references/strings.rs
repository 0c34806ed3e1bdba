//! Every short string of the marks that part references, as a target, also behind the beginning of
//! one. The reference judges all of them at once.

use super::alone::{Alone, States};
use crate::compare::Compared;
use crate::run::Run;
use oracle::Tree;
use std::collections::BTreeSet;

const MARKS: &[u8] = b"a1:/?#[]@%.v";

/// What stands before, what follows, and how many octets of it at most.
const TREES: [(&[u8], &[u8], usize); 5] = [
    (b"", MARKS, 6),
    (b"//", MARKS, 5),
    (b"//[", MARKS, 5),
    (b"//[::", b":1.]", 9),
    (b"//[1:1:1:1", b":1.]", 9),
];

/// In a deep run one octet more follows.
pub fn compare(run: &mut Run, deep: bool) -> Compared<()> {
    run.begin("target strings");
    for (before, alphabet, most) in TREES {
        let most = most + usize::from(deep);
        let tree = Tree::new(before, alphabet, most);
        let references = tree.references();
        let mut walk = Walk {
            alphabet,
            tree,
            references,
            target: vec![],
            alone: Alone::new(),
        };
        let mut states = walk.alone.open()?;
        for &octet in before {
            walk.target.push(octet);
            states = walk.alone.grow(states, &walk.target)?;
        }
        let root = walk.tree.root();
        walk.every(run, root, states, most)?;
    }
    Ok(())
}

/// All targets of a tree. The states behind each go on to those that begin so.
struct Walk<'t> {
    alphabet: &'t [u8],
    tree: Tree<'t>,
    references: BTreeSet<usize>,
    target: Vec<u8>,
    alone: Alone,
}

impl Walk<'_> {
    /// The target of this number, and those that are longer by up to so many octets.
    fn every(&mut self, run: &mut Run, number: usize, states: States, more: usize) -> Compared<()> {
        run.case();
        let right = self.references.contains(&number);
        self.alone.close(run, states, &self.target, right)?;
        if more == 0 {
            return Ok(());
        }
        for (place, &octet) in self.alphabet.iter().enumerate() {
            self.target.push(octet);
            let states = self.alone.grow(states, &self.target)?;
            self.every(run, self.tree.longer(number, place), states, more - 1)?;
            self.target.pop();
        }
        Ok(())
    }
}
