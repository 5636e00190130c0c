//! The tree of Ellen, Fatourou, Ruppert and van Breugel over bare atomic words. The words lie as those of `ell_cards` do, and each
//! step is the same load, store or exchange, sequentially consistent.

use std::ops::Index;
use std::sync::atomic::AtomicU64;
use std::sync::atomic::Ordering::{Relaxed, SeqCst};

const INF1: u64 = u64::MAX - 1;
const INF2: u64 = u64::MAX;
const TRIES: u32 = 1_000_000;

/// How many nodes a range keeps.
const KEPT: usize = 32;

/// How many words stand before those of the cards: the claim word, and others that are not used. So it has a cache line of its own, and
/// no node lies in two lines, if the block begins 16 bytes behind a line, as large ones of glibc do.
const FIRST: u64 = 6;

/// How many cards are in a group.
const GROUP: u64 = 64;

/// How many words a card has in each part of its group: the internal nodes, the leaves, and the records.
const PART: u64 = 4;

/// Node numbers are below this one, so that a mask gives the node of a child word.
const TAG_UNIT: u64 = 1 << 38;

/// The twelve words of a card, in the order of their places: those of its internal node, of its two leaves, and of its record. `Left` and
/// `Right` are child words. `L` has the leaf where the search ended, with the tag of the child word that the card is to exchange.
#[derive(Clone, Copy)]
enum Field {
    Key,
    Left,
    Right,
    Update,
    LeftLeafKey,
    RightLeafKey,
    LeftValue,
    RightValue,
    Gp,
    P,
    L,
    Was,
}

impl Field {
    /// Where this word of a card stands among all words. The cards before it have `PART` words each in one part of their groups, and those of
    /// whole groups also have the other two parts.
    fn address(self, card: u64) -> usize {
        let place = self as u64;
        let cards_before = PART * card + 2 * GROUP * PART * (card / GROUP);
        (FIRST + cards_before + GROUP * PART * (place / PART) + place % PART) as usize
    }
}

/// How many words there are, if the last card has this number.
fn table_size(last: u64) -> usize {
    Field::Was.address(last) + 1
}

/// A node's number is four times its card, and one of these.
#[derive(Clone, Copy)]
enum Kind {
    Internal,
    LeftLeaf,
    RightLeaf,
}

fn node(card: u64, kind: Kind) -> u64 {
    4 * card + kind as u64
}

fn card_of(node: u64) -> u64 {
    node / 4
}

fn is_internal(node: u64) -> bool {
    node.is_multiple_of(4)
}

/// A child word has a node in its low bits, and above it a tag, which counts the changes of the word. So no two of its values are the
/// same, even if a node comes back. A new node's child words have the tag 0, so each is the number of the child.
fn child_word(node: u64, tag: u64) -> u64 {
    TAG_UNIT * tag + node
}

fn node_of(child: u64) -> u64 {
    child % TAG_UNIT
}

fn tag_of(child: u64) -> u64 {
    child / TAG_UNIT
}

/// An update word is four times a card, and one of these.
#[derive(Clone, Copy, PartialEq)]
enum State {
    IFlag,
    DFlag,
    Mark,
    Clean,
}

fn update_word(state: State, card: u64) -> u64 {
    4 * card + state as u64
}

fn state_of(update: u64) -> State {
    match update % 4 {
        0 => State::IFlag,
        1 => State::DFlag,
        2 => State::Mark,
        _ => State::Clean,
    }
}

fn is_clean(update: u64) -> bool {
    state_of(update) == State::Clean
}

/// A node that a search passed, with the update word that it read there, and the tag of the child word that it read after it.
#[derive(Clone, Copy)]
struct Passed {
    node: u64,
    update: u64,
    tag: u64,
}

/// Where a search ended: a leaf with its key and its value, its parent, and its grandparent if there is one.
struct Place {
    leaf: u64,
    key: u64,
    value: u64,
    parent: Passed,
    grandparent: Option<Passed>,
}

impl Place {
    /// The child word of the parent, by which the search came to the leaf.
    fn leaf_word(&self) -> u64 {
        child_word(self.leaf, self.parent.tag)
    }
}

/// How a try ended: with an answer, if not without a card or hindered.
enum Tried<T> {
    Answered(T),
    Spent,
    Hindered,
}

/// A node of a look, and the keys that come to it: those from the one on and below the other.
#[derive(Clone, Copy)]
struct Glance {
    node: u64,
    low: u64,
    high: u64,
}

/// Tells the pairs of a range, ascending, each as it was at one moment since the range was made. As the cursors of `ell_tree` do, it goes on
/// from the last of the nodes at which it went left.
#[allow(dead_code)]
pub struct Range<'a> {
    tree: &'a BareTree,
    at: u64,
    upto: u64,
    kept: [Glance; KEPT],
    count: usize,
}

/// What came of asking for a card.
enum Claimed {
    Card(u64),
    NoneLeft,
    Lost,
}

/// The claim word, and then the words of the cards.
pub struct BareTree {
    words: Vec<AtomicU64>,
    cards: u64,
}

impl Index<(u64, Field)> for BareTree {
    type Output = AtomicU64;

    fn index(&self, (card, field): (u64, Field)) -> &AtomicU64 {
        &self.words[field.address(card)]
    }
}

impl BareTree {
    /// The opening tree of some ascending keys with their values, and so many cards more, of which all words are 0.
    pub fn reserve(start: &[(u64, u64)], cards: u64) -> BareTree {
        let cards = start.len() as u64 + cards;
        assert!(node(cards, Kind::RightLeaf) < TAG_UNIT, "a child word has no room for so many nodes");
        let words = (0..table_size(cards)).map(|_| AtomicU64::new(0)).collect();
        let tree = BareTree { words, cards };
        tree.claimed().store(start.len() as u64 + 1, SeqCst);
        tree.fill(0, Field::Key, INF2);
        tree.fill(0, Field::Left, node(0, Kind::LeftLeaf));
        tree.fill(0, Field::Right, node(0, Kind::RightLeaf));
        tree.fill(0, Field::Update, update_word(State::Clean, 0));
        tree.fill(0, Field::LeftLeafKey, INF1);
        tree.fill(0, Field::RightLeafKey, INF2);
        if !start.is_empty() {
            tree.fill(0, Field::Left, node(1, Kind::Internal));
            tree.fill_branch(1, &[start, &[(INF1, 0)]].concat());
        }
        tree
    }

    /// Makes a card the node over some leaves, two at least, in a tree as balanced as can be. The nodes below it have the next
    /// cards, those on the left first.
    fn fill_branch(&self, card: u64, leaves: &[(u64, u64)]) {
        let (left, right) = leaves.split_at(leaves.len() / 2);
        self.fill(card, Field::Key, right[0].0);
        self.fill(card, Field::Update, update_word(State::Clean, 0));
        if let [(key, value)] = left {
            self.fill(card, Field::LeftLeafKey, *key);
            self.fill(card, Field::LeftValue, *value);
            self.fill(card, Field::Left, node(card, Kind::LeftLeaf));
        } else {
            self.fill(card, Field::Left, node(card + 1, Kind::Internal));
            self.fill_branch(card + 1, left);
        }
        if let [(key, value)] = right {
            self.fill(card, Field::RightLeafKey, *key);
            self.fill(card, Field::RightValue, *value);
            self.fill(card, Field::Right, node(card, Kind::RightLeaf));
        } else {
            let below = card + left.len() as u64;
            self.fill(card, Field::Right, node(below, Kind::Internal));
            self.fill_branch(below, right);
        }
    }

    /// Has the system hand out the memory of all words now, which it would do later, at the first change of each part of it.
    #[allow(dead_code)]
    pub fn take_memory(&self) {
        for word in &self.words {
            word.store(word.load(Relaxed), Relaxed);
        }
    }

    fn claimed(&self) -> &AtomicU64 {
        &self.words[0]
    }

    /// The step that begins or ends an operation: a load that tells nothing, of a word that never changes.
    fn touch(&self) {
        self.word(0, Field::Key);
    }

    fn update(&self, node: u64) -> &AtomicU64 {
        &self[(card_of(node), Field::Update)]
    }

    fn child(&self, node: u64, right: bool) -> &AtomicU64 {
        &self[(card_of(node), if right { Field::Right } else { Field::Left })]
    }

    fn child_node(&self, node: u64, right: bool) -> u64 {
        node_of(self.child(node, right).load(SeqCst))
    }

    fn key(&self, node: u64) -> u64 {
        let field = match node % 4 {
            0 => Field::Key,
            1 => Field::LeftLeafKey,
            _ => Field::RightLeafKey,
        };
        self.word(card_of(node), field)
    }

    fn value(&self, leaf: u64) -> u64 {
        let field = match leaf % 4 {
            1 => Field::LeftValue,
            _ => Field::RightValue,
        };
        self.word(card_of(leaf), field)
    }

    fn word(&self, card: u64, field: Field) -> u64 {
        self[(card, field)].load(SeqCst)
    }

    fn fill(&self, card: u64, field: Field, value: u64) {
        self[(card, field)].store(value, SeqCst);
    }

    fn descend(&self, key: u64, node: u64) -> (Passed, u64) {
        let update = self.update(node).load(SeqCst);
        let right = self.key(node) <= key;
        let child = self.child(node, right).load(SeqCst);
        (Passed { node, update, tag: tag_of(child) }, node_of(child))
    }

    fn search(&self, key: u64) -> Place {
        let (mut parent, mut node) = self.descend(key, 0);
        let mut grandparent = None;
        while is_internal(node) {
            let (passed, child) = self.descend(key, node);
            grandparent = Some(parent);
            parent = passed;
            node = child;
        }
        Place { leaf: node, key: self.key(node), value: self.value(node), parent, grandparent }
    }

    /// The value of a key, if it is present.
    pub fn find(&self, key: u64) -> Option<u64> {
        self.touch();
        let place = self.search(key);
        self.touch();
        (place.key == key).then_some(place.value)
    }

    /// As a find, by the least loads that tell it: no update word, and no step that begins or ends an operation.
    #[allow(dead_code)]
    pub fn look(&self, key: u64) -> Option<u64> {
        let mut node = self.child_node(0, false);
        while is_internal(node) {
            node = self.child_node(node, self.key(node) <= key);
        }
        (self.key(node) == key).then(|| self.value(node))
    }

    /// Goes over the keys from one on and below another, ascending, with their values.
    #[allow(dead_code)]
    pub fn range(&self, from: u64, upto: u64) -> Range<'_> {
        let first = self.first_glance();
        Range { tree: self, at: from, upto: upto.min(INF1), kept: [first; KEPT], count: 0 }
    }

    /// Where a look begins: no key comes to the root's right child.
    #[allow(dead_code)]
    fn first_glance(&self) -> Glance {
        Glance { node: self.child_node(0, false), low: 0, high: INF1 }
    }

    /// The keys of the leaves with their values, the keys ascending, when no thread is at work.
    #[allow(dead_code)]
    pub fn pairs(&self) -> Vec<(u64, u64)> {
        let (mut pairs, mut pending) = (Vec::new(), vec![0]);
        while let Some(node) = pending.pop() {
            if is_internal(node) {
                pending.push(self.child_node(node, true));
                pending.push(self.child_node(node, false));
            } else {
                pairs.push((self.key(node), self.value(node)));
            }
        }
        pairs.retain(|&(key, _)| key < INF1);
        pairs
    }

    /// Adds a key with a value, unless it is present. None where no card is left.
    pub fn insert(&self, key: u64, value: u64) -> Option<bool> {
        self.try_often(|| self.try_insert(key, value))
    }

    /// None where no card is left.
    pub fn delete(&self, key: u64) -> Option<bool> {
        self.try_often(|| self.try_delete(key))
    }

    /// Replaces the value of a key, if it is present: the value that it had, and none if it is absent. None where no card is left.
    #[allow(dead_code)]
    pub fn swap(&self, key: u64, value: u64) -> Option<Option<u64>> {
        self.try_often(|| self.try_swap(key, value))
    }

    fn try_often<T>(&self, try_once: impl Fn() -> Tried<T>) -> Option<T> {
        self.touch();
        for round in 0..TRIES {
            if round > 0 {
                self.touch();
            }
            match try_once() {
                Tried::Answered(said) => return Some(said),
                Tried::Spent => break,
                Tried::Hindered => {}
            }
        }
        self.touch();
        None
    }

    fn take_card(&self) -> Claimed {
        let card = self.claimed().load(SeqCst);
        if card > self.cards {
            Claimed::NoneLeft
        } else if exchange(self.claimed(), card, card + 1).is_ok() {
            Claimed::Card(card)
        } else {
            Claimed::Lost
        }
    }

    fn try_insert(&self, key: u64, value: u64) -> Tried<bool> {
        let place = self.search(key);
        if place.key == key {
            self.touch();
            return Tried::Answered(false);
        }
        self.try_to_put(key, value, &place, true)
    }

    fn try_swap(&self, key: u64, value: u64) -> Tried<Option<u64>> {
        let place = self.search(key);
        if place.key != key {
            self.touch();
            return Tried::Answered(None);
        }
        self.try_to_put(key, value, &place, Some(place.value))
    }

    /// Puts a key with a value where its search ended, as an insert or a swap. It has this answer, if it is made.
    fn try_to_put<T>(&self, key: u64, value: u64, place: &Place, answer: T) -> Tried<T> {
        let parent = place.parent;
        if !is_clean(parent.update) {
            self.help(parent.node, parent.update);
            return Tried::Hindered;
        }
        let card = match self.take_card() {
            Claimed::Card(card) => card,
            Claimed::NoneLeft => return Tried::Spent,
            Claimed::Lost => return Tried::Hindered,
        };
        self.fill_insert(card, key, value, place);
        let flag = update_word(State::IFlag, card);
        if let Err(found) = exchange(self.update(parent.node), parent.update, flag) {
            self.help(parent.node, found);
            return Tried::Hindered;
        }
        self.finish_insert(card, parent.node, place.leaf_word(), key.max(place.key));
        self.touch();
        Tried::Answered(answer)
    }

    fn fill_insert(&self, card: u64, key: u64, value: u64, place: &Place) {
        let (lesser, greater) = (key.min(place.key), key.max(place.key));
        let (left_value, right_value) = if key < place.key { (value, place.value) } else { (place.value, value) };
        self.fill(card, Field::P, place.parent.node);
        self.fill(card, Field::L, place.leaf_word());
        self.fill(card, Field::Key, greater);
        self.fill(card, Field::Left, node(card, Kind::LeftLeaf));
        self.fill(card, Field::Right, node(card, Kind::RightLeaf));
        self.fill(card, Field::Update, update_word(State::Clean, 0));
        self.fill(card, Field::LeftLeafKey, lesser);
        self.fill(card, Field::RightLeafKey, greater);
        self.fill(card, Field::LeftValue, left_value);
        self.fill(card, Field::RightValue, right_value);
    }

    fn try_delete(&self, key: u64) -> Tried<bool> {
        let place = self.search(key);
        if place.key != key {
            self.touch();
            return Tried::Answered(false);
        }
        let Some(above) = place.grandparent else {
            return Tried::Hindered;
        };
        if !is_clean(above.update) {
            self.help(above.node, above.update);
            return Tried::Hindered;
        }
        let parent = place.parent;
        if !is_clean(parent.update) {
            self.help(parent.node, parent.update);
            return Tried::Hindered;
        }
        let card = match self.take_card() {
            Claimed::Card(card) => card,
            Claimed::NoneLeft => return Tried::Spent,
            Claimed::Lost => return Tried::Hindered,
        };
        self.fill(card, Field::Gp, above.node);
        self.fill(card, Field::P, parent.node);
        self.fill(card, Field::L, child_word(place.leaf, above.tag));
        self.fill(card, Field::Was, parent.update);
        let flag = update_word(State::DFlag, card);
        if let Err(found) = exchange(self.update(above.node), above.update, flag) {
            self.help(above.node, found);
            return Tried::Hindered;
        }
        if !self.finish_delete(card, above.node, parent.node, parent.update) {
            return Tried::Hindered;
        }
        self.touch();
        Tried::Answered(true)
    }

    fn help(&self, node: u64, update: u64) {
        let card = update / 4;
        match state_of(update) {
            State::IFlag => {
                let leaf_word = self.word(card, Field::L);
                let card_key = self.word(card, Field::Key);
                self.finish_insert(card, node, leaf_word, card_key);
            }
            State::DFlag => {
                let parent = self.word(card, Field::P);
                let was = self.word(card, Field::Was);
                self.finish_delete(card, node, parent, was);
            }
            State::Mark => {
                let grandparent = self.word(card, Field::Gp);
                self.finish_marked(card, grandparent, node);
            }
            State::Clean => {}
        }
    }

    fn finish_insert(&self, card: u64, parent: u64, leaf_word: u64, card_key: u64) {
        let right = self.key(parent) <= card_key;
        let flag = update_word(State::IFlag, card);
        let clean = update_word(State::Clean, card);
        self.exchange_child(parent, right, leaf_word, self.brought(card, card_key));
        let _ = exchange(self.update(parent), flag, clean);
    }

    /// The node that a card puts in the place of a leaf: an insert's has two keys, and a swap's has one, in both of its leaves.
    fn brought(&self, card: u64, card_key: u64) -> u64 {
        if self.word(card, Field::LeftLeafKey) == card_key { node(card, Kind::RightLeaf) } else { node(card, Kind::Internal) }
    }

    /// Whether the parent was cut out.
    fn finish_delete(&self, card: u64, grandparent: u64, parent: u64, was: u64) -> bool {
        let mark = update_word(State::Mark, card);
        let found = match exchange(self.update(parent), was, mark) {
            Err(found) if found != mark => found,
            _ => {
                self.finish_marked(card, grandparent, parent);
                return true;
            }
        };
        let help_first = state_of(found) != State::DFlag;
        if help_first {
            self.help(parent, found);
        }
        let flag = update_word(State::DFlag, card);
        let clean = update_word(State::Clean, card);
        let _ = exchange(self.update(grandparent), flag, clean);
        if !help_first {
            self.help(parent, found);
        }
        false
    }

    fn finish_marked(&self, card: u64, grandparent: u64, parent: u64) {
        let leaf_and_tag = self.word(card, Field::L);
        let right_child = self.child_node(parent, true);
        let sibling = if right_child == node_of(leaf_and_tag) { self.child_node(parent, false) } else { right_child };
        let right = self.key(grandparent) <= self.key(sibling);
        let flag = update_word(State::DFlag, card);
        let clean = update_word(State::Clean, card);
        self.exchange_child(grandparent, right, child_word(parent, tag_of(leaf_and_tag)), sibling);
        let _ = exchange(self.update(grandparent), flag, clean);
    }

    /// Puts a node with the next tag in the place of an expected child word, unless another thread has done so.
    fn exchange_child(&self, node: u64, right: bool, expected: u64, new: u64) {
        let _ = exchange(self.child(node, right), expected, child_word(new, tag_of(expected) + 1));
    }
}

impl Range<'_> {
    /// The next pair, or none of keys to which a leaf says that they are absent, up to the end of the range. The leaf may have a key that does
    /// not come to it this way, since nodes were cut out meanwhile.
    fn next_leaf(&mut self) -> Option<Option<(u64, u64)>> {
        if self.at >= self.upto {
            return None;
        }
        let leaf = self.descend();
        let key = self.tree.key(leaf.node);
        let is_told = self.at <= key && key < self.upto.min(leaf.high);
        self.at = leaf.high;
        Some(is_told.then(|| (key, self.tree.value(leaf.node))))
    }

    /// The leaf to which the next key comes.
    fn descend(&mut self) -> Glance {
        let mut here = self.start();
        while is_internal(here.node) {
            let node_key = self.tree.key(here.node);
            let right = node_key <= self.at;
            if !right {
                self.kept[self.count % KEPT] = here;
                self.count += 1;
            }
            here.node = self.tree.child_node(here.node, right);
            if right {
                here.low = here.low.max(node_key);
            } else {
                here.high = here.high.min(node_key);
            }
        }
        here
    }

    /// The last kept node to which the next key comes, or where a look begins.
    fn start(&mut self) -> Glance {
        while self.count > 0 {
            self.count -= 1;
            let kept = self.kept[self.count % KEPT];
            if kept.low <= self.at && self.at < kept.high {
                return kept;
            }
        }
        self.tree.first_glance()
    }
}

impl Iterator for Range<'_> {
    type Item = (u64, u64);

    fn next(&mut self) -> Option<(u64, u64)> {
        loop {
            if let Some(pair) = self.next_leaf()? {
                return Some(pair);
            }
        }
    }
}

fn exchange(word: &AtomicU64, expected: u64, value: u64) -> Result<u64, u64> {
    word.compare_exchange(expected, value, SeqCst, SeqCst)
}
