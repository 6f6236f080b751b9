// The same walk over both arenas: every value from the root down, names, classes, defaults and variables too, each time it is met.
// What is still to be met stands in a vector that is kept for the next walk. The inputs hold no cycle.
use ruby_marshal::{Value as Theirs, ValueArena, ValueHandle};
use ruby_marshal_tables::{Arena, Handle, Node, Pairs, Value as Ours};

/// How many values a walk met, and the sum of integers, bools, and the lengths of names, strings and Floats.
#[derive(Clone, Copy, Debug, Default, PartialEq, Eq)]
pub struct Met {
    pub values: usize,
    pub sum: u64,
}

fn push(open: &mut Vec<Handle>, pairs: Pairs) {
    for (first, second) in pairs {
        open.push(first.handle());
        open.push(second.handle());
    }
}

fn push_theirs<A: Copy + Into<ValueHandle>>(open: &mut Vec<ValueHandle>, pairs: &[(A, ValueHandle)]) {
    for &(first, second) in pairs {
        open.push(first.into());
        open.push(second);
    }
}

/// Through our views.
pub fn ours(arena: &Arena, open: &mut Vec<Handle>) -> Met {
    let mut met = Met::default();
    open.push(arena.root().handle());
    while let Some(handle) = open.pop() {
        met.values += 1;
        let node = arena.node(handle).expect("a node");
        open.extend(node.class_node().map(Node::handle));
        match node.value() {
            Ours::Nil => {}
            Ours::Bool(value) => met.sum += u64::from(value),
            Ours::Fixnum(value) => met.sum += u64::from(value as u32),
            Ours::Symbol(name) => met.sum += name.len() as u64,
            Ours::Array(array) => {
                for member in array {
                    open.push(member.handle());
                }
            }
            Ours::Hash(hash) => {
                open.extend(hash.default_value().map(Node::handle));
                push(open, hash.pairs());
            }
            Ours::Object(object) => {
                open.push(object.name_node().handle());
                push(open, object.variables().pairs());
            }
            Ours::String(text) => {
                met.sum += text.bytes().len() as u64;
                if let Some(variables) = text.variables() {
                    push(open, variables.pairs());
                }
            }
            Ours::Float(float) => met.sum += float.bytes().len() as u64,
            Ours::Bignum(value) => met.sum = met.sum.wrapping_add(value as u64),
            Ours::UserDefined(user) => {
                met.sum += user.bytes().len() as u64;
                open.push(user.name_node().handle());
                if let Some(variables) = user.variables() {
                    push(open, variables.pairs());
                }
            }
        }
    }
    met
}

/// Through the Rust crate's arena.
pub fn theirs(arena: &ValueArena, open: &mut Vec<ValueHandle>) -> Met {
    let mut met = Met::default();
    open.push(arena.root());
    while let Some(handle) = open.pop() {
        met.values += 1;
        match &arena[handle] {
            Theirs::Nil(_) => {}
            Theirs::Bool(value) => met.sum += u64::from(value.value()),
            Theirs::Fixnum(value) => met.sum += u64::from(value.value() as u32),
            Theirs::Symbol(symbol) => met.sum += symbol.value().len() as u64,
            Theirs::Array(array) => {
                for &member in array.value() {
                    open.push(member);
                }
            }
            Theirs::Hash(hash) => {
                open.extend(hash.default_value());
                push_theirs(open, hash.value());
            }
            Theirs::Object(object) => {
                open.push(object.name().into());
                push_theirs(open, object.instance_variables());
            }
            Theirs::String(text) => {
                met.sum += text.value().len() as u64;
                if let Some(variables) = text.instance_variables() {
                    push_theirs(open, variables);
                }
            }
            Theirs::UserDefined(user) => {
                met.sum += user.value().len() as u64;
                open.push(user.name().into());
                if let Some(variables) = user.instance_variables() {
                    push_theirs(open, variables);
                }
            }
        }
    }
    met
}
