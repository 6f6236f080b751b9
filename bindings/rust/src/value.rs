//! Views of an arena's nodes, which read the tables in place.
use crate::{Arena, Handle, NODE_WORDS};
use core::fmt;
use core::slice;

// The places of a node's words, as RUBY_MARSHAL_WORD_ in the header.
mod word {
    pub const VALUE: usize = 1;
    pub const START: usize = 1;
    pub const LENGTH: usize = 2;
    pub const LOW: usize = 1;
    pub const HIGH: usize = 2;
    pub const SIGN: usize = 4;
    pub const LIST: usize = 3;
    pub const COUNT: usize = 4;
    pub const NAME: usize = 5;
    pub const DEFAULT: usize = 6;
    pub const VARIABLES: usize = 6;
    pub const CLASS: usize = 7;
}

/// What a node is: its word 0.
#[derive(Clone, Copy, Debug, PartialEq, Eq, Hash)]
pub enum Kind {
    /// `nil`
    Nil,
    /// `true` or `false`
    Bool,
    /// An integer of 32 bits.
    Fixnum,
    /// A symbol.
    Symbol,
    /// An array.
    Array,
    /// A hash, with or without a default.
    Hash,
    /// An object: its class's name and its instance variables.
    Object,
    /// A string, with or without a list of instance variables.
    String,
    /// A value of a class with a dump method of its own: the class's name and the bytes that it wrote.
    UserDefined,
    /// A float: its text.
    Float,
    /// An integer of 63 bits and a sign.
    Bignum,
}

/// A node's value.
#[derive(Clone, Copy, Debug)]
pub enum Value<'a> {
    /// `nil`
    Nil,
    /// `true` or `false`
    Bool(bool),
    /// An integer of 32 bits.
    Fixnum(i32),
    /// A symbol's name.
    Symbol(&'a [u8]),
    /// An array.
    Array(Array<'a>),
    /// A hash.
    Hash(Hash<'a>),
    /// An object.
    Object(Object<'a>),
    /// A string.
    String(Text<'a>),
    /// A user-defined value.
    UserDefined(UserDefined<'a>),
    /// A float.
    Float(Float<'a>),
    /// An integer that was written as a bignum, however small; never [`i64::MIN`].
    Bignum(i64),
}

/// A node of an arena.
#[derive(Clone, Copy)]
pub struct Node<'a> {
    arena: &'a Arena<'a>,
    handle: u32,
}

// A node with its words: what the views of kinds 4 to 9 are.
#[derive(Clone, Copy)]
struct Row<'a> {
    node: Node<'a>,
    words: &'a [u32; NODE_WORDS],
}

impl<'a> Node<'a> {
    #[inline]
    pub(crate) fn at(arena: &'a Arena<'a>, handle: u32) -> Node<'a> {
        Node { arena, handle }
    }

    /// The node's number, which tells it from every other node.
    #[inline]
    pub fn handle(self) -> Handle {
        Handle::new(self.handle)
    }

    /// The node's eight words.
    #[inline]
    pub fn words(self) -> &'a [u32; NODE_WORDS] {
        &self.arena.rows[self.handle as usize]
    }

    #[inline]
    fn row(self) -> Row<'a> {
        Row { node: self, words: self.words() }
    }

    /// The node's kind.
    #[inline]
    pub fn kind(self) -> Kind {
        match self.words()[0] {
            0 => Kind::Nil,
            1 => Kind::Bool,
            2 => Kind::Fixnum,
            3 => Kind::Symbol,
            4 => Kind::Array,
            5 => Kind::Hash,
            6 => Kind::Object,
            7 => Kind::String,
            8 => Kind::UserDefined,
            9 => Kind::Float,
            10 => Kind::Bignum,
            kind => unreachable!("kind {kind} in a well formed arena"),
        }
    }

    /// The node's value.
    #[inline]
    pub fn value(self) -> Value<'a> {
        let row = self.row();
        match self.kind() {
            Kind::Nil => Value::Nil,
            Kind::Bool => Value::Bool(row.words[word::VALUE] == 1),
            Kind::Fixnum => Value::Fixnum(row.words[word::VALUE] as i32),
            Kind::Symbol => Value::Symbol(row.bytes()),
            Kind::Array => Value::Array(Array(row)),
            Kind::Hash => Value::Hash(Hash(row)),
            Kind::Object => Value::Object(Object(row)),
            Kind::String => Value::String(Text(row)),
            Kind::UserDefined => Value::UserDefined(UserDefined(row)),
            Kind::Float => Value::Float(Float(row)),
            Kind::Bignum => Value::Bignum(row.bignum()),
        }
    }

    /// The symbol that names the class of an array, a hash or a string, where it has one of its own.
    #[inline]
    pub fn class_node(self) -> Option<Node<'a>> {
        let handle = self.words()[word::CLASS].checked_sub(1)?;
        Some(Node::at(self.arena, handle))
    }

    /// That class's name.
    #[inline]
    pub fn class(self) -> Option<&'a [u8]> {
        self.class_node().map(|node| node.row().bytes())
    }

    /// Is it nil?
    pub fn is_nil(self) -> bool {
        self.kind() == Kind::Nil
    }
}

// The value of one kind, or none.
macro_rules! as_kind {
    ($(#[$doc:meta] $name:ident $variant:ident $type:ty;)*) => {
        impl<'a> Node<'a> {$(
            #[$doc]
            #[inline]
            pub fn $name(self) -> Option<$type> {
                match self.value() {
                    Value::$variant(value) => Some(value),
                    _ => None,
                }
            }
        )*}
    };
}

as_kind! {
    /// The bool, if it is one.
    as_bool Bool bool;
    /// The fixnum, if it is one.
    as_fixnum Fixnum i32;
    /// The symbol's name, if it is one.
    as_symbol Symbol &'a [u8];
    /// The array, if it is one.
    as_array Array Array<'a>;
    /// The hash, if it is one.
    as_hash Hash Hash<'a>;
    /// The object, if it is one.
    as_object Object Object<'a>;
    /// The string, if it is one.
    as_string String Text<'a>;
    /// The user-defined value, if it is one.
    as_user_defined UserDefined UserDefined<'a>;
    /// The float, if it is one.
    as_float Float Float<'a>;
    /// The bignum, if it is one.
    as_bignum Bignum i64;
}

impl fmt::Debug for Node<'_> {
    fn fmt(&self, f: &mut fmt::Formatter<'_>) -> fmt::Result {
        write!(f, "{:?} {}", self.kind(), self.handle)
    }
}

impl<'a> Row<'a> {
    // The magnitude is below 2^63 in a well formed arena.
    #[inline]
    fn bignum(self) -> i64 {
        let magnitude = i64::from(self.words[word::HIGH]) << 32 | i64::from(self.words[word::LOW]);
        if self.words[word::SIGN] == 1 {
            -magnitude
        } else {
            magnitude
        }
    }

    #[inline]
    fn bytes(self) -> &'a [u8] {
        let start = self.words[word::START] as usize;
        &self.node.arena.bytes[start..start + self.words[word::LENGTH] as usize]
    }

    #[inline]
    fn list(self, words: usize) -> &'a [u32] {
        let start = self.words[word::LIST] as usize;
        &self.node.arena.references[start..start + words]
    }

    #[inline]
    fn pairs(self) -> Pairs<'a> {
        Pairs { arena: self.node.arena, list: self.list(self.count() * 2).as_chunks().0.iter() }
    }

    #[inline]
    fn variables(self) -> Variables<'a> {
        Variables(self.pairs())
    }

    #[inline]
    fn count(self) -> usize {
        self.words[word::COUNT] as usize
    }

    // The list is one of variables where word 6 says that there is one.
    #[inline]
    fn variable_list(self) -> Option<Variables<'a>> {
        (self.words[word::VARIABLES] == 1).then(|| self.variables())
    }

    #[inline]
    fn name_node(self) -> Node<'a> {
        Node::at(self.node.arena, self.words[word::NAME])
    }

    #[inline]
    fn name(self) -> &'a [u8] {
        self.name_node().row().bytes()
    }
}

// What every view of kinds 4 to 9 has.
macro_rules! view {
    ($(#[$doc:meta] $name:ident,)*) => {$(
        #[$doc]
        #[derive(Clone, Copy)]
        pub struct $name<'a>(Row<'a>);

        impl<'a> $name<'a> {
            /// The node that it is.
            #[inline]
            pub fn node(self) -> Node<'a> {
                self.0.node
            }

            /// The node's number: a walk that has been here is in a cycle, or at a shared value.
            #[inline]
            pub fn handle(self) -> Handle {
                self.0.node.handle()
            }
        }

        impl fmt::Debug for $name<'_> {
            fn fmt(&self, f: &mut fmt::Formatter<'_>) -> fmt::Result {
                self.0.node.fmt(f)
            }
        }
    )*};
}

view! {
    /// An array's members.
    Array,
    /// A hash's pairs and its default.
    Hash,
    /// An object's class and instance variables.
    Object,
    /// A string's bytes and instance variables.
    Text,
    /// A user-defined value's class, bytes and instance variables.
    UserDefined,
    /// A float's text.
    Float,
}

impl<'a> Array<'a> {
    /// The number of members.
    #[inline]
    pub fn len(self) -> usize {
        self.0.count()
    }

    /// Are there none?
    pub fn is_empty(self) -> bool {
        self.len() == 0
    }

    /// The members in order.
    #[inline]
    pub fn members(self) -> Members<'a> {
        Members { arena: self.0.node.arena, list: self.0.list(self.len()).iter() }
    }

    /// The member of that index.
    pub fn get(self, index: usize) -> Option<Node<'a>> {
        let &handle = self.0.list(self.len()).get(index)?;
        Some(Node::at(self.0.node.arena, handle))
    }
}

impl<'a> IntoIterator for Array<'a> {
    type Item = Node<'a>;
    type IntoIter = Members<'a>;

    #[inline]
    fn into_iter(self) -> Members<'a> {
        self.members()
    }
}

impl<'a> Hash<'a> {
    /// The number of pairs.
    #[inline]
    pub fn len(self) -> usize {
        self.0.count()
    }

    /// Are there none?
    pub fn is_empty(self) -> bool {
        self.len() == 0
    }

    /// The pairs in order: key and value.
    #[inline]
    pub fn pairs(self) -> Pairs<'a> {
        self.0.pairs()
    }

    /// The default, if it has one.
    #[inline]
    pub fn default_value(self) -> Option<Node<'a>> {
        let handle = self.0.words[word::DEFAULT].checked_sub(1)?;
        Some(Node::at(self.0.node.arena, handle))
    }

    /// The value of the symbol of that name: of the last such pair, as in Ruby. The default plays no part.
    pub fn get(self, name: &[u8]) -> Option<Node<'a>> {
        self.pairs().rev().find(|(key, _)| key.as_symbol() == Some(name)).map(|(_, value)| value)
    }
}

impl<'a> IntoIterator for Hash<'a> {
    type Item = (Node<'a>, Node<'a>);
    type IntoIter = Pairs<'a>;

    #[inline]
    fn into_iter(self) -> Pairs<'a> {
        self.pairs()
    }
}

impl<'a> Object<'a> {
    /// The class's name.
    #[inline]
    pub fn name(self) -> &'a [u8] {
        self.0.name()
    }

    /// The symbol that is the class's name.
    #[inline]
    pub fn name_node(self) -> Node<'a> {
        self.0.name_node()
    }

    /// The instance variables in order.
    #[inline]
    pub fn variables(self) -> Variables<'a> {
        self.0.variables()
    }

    /// The value of the variable of that name: the last one, as in Ruby.
    pub fn get(self, name: &[u8]) -> Option<Node<'a>> {
        self.variables().get(name)
    }
}

impl<'a> Text<'a> {
    /// The string's bytes.
    #[inline]
    pub fn bytes(self) -> &'a [u8] {
        self.0.bytes()
    }

    /// The instance variables, if it has a list of them, which may be empty. An encoding is one: `E`, or `encoding`.
    #[inline]
    pub fn variables(self) -> Option<Variables<'a>> {
        self.0.variable_list()
    }
}

impl<'a> UserDefined<'a> {
    /// The class's name.
    #[inline]
    pub fn name(self) -> &'a [u8] {
        self.0.name()
    }

    /// The symbol that is the class's name.
    #[inline]
    pub fn name_node(self) -> Node<'a> {
        self.0.name_node()
    }

    /// The bytes that the class wrote.
    #[inline]
    pub fn bytes(self) -> &'a [u8] {
        self.0.bytes()
    }

    /// The instance variables, if it has a list of them, which may be empty.
    #[inline]
    pub fn variables(self) -> Option<Variables<'a>> {
        self.0.variable_list()
    }
}

impl<'a> Float<'a> {
    /// The float's text, as it was written: the archive keeps any bytes.
    #[inline]
    pub fn bytes(self) -> &'a [u8] {
        self.0.bytes()
    }
}

/// An array's members in order.
#[derive(Clone)]
pub struct Members<'a> {
    arena: &'a Arena<'a>,
    list: slice::Iter<'a, u32>,
}

/// A hash's pairs in order, or a variable list's: name and value.
#[derive(Clone)]
pub struct Pairs<'a> {
    arena: &'a Arena<'a>,
    list: slice::Iter<'a, [u32; 2]>,
}

/// Instance variables in order: a name and its value.
#[derive(Clone)]
pub struct Variables<'a>(Pairs<'a>);

/// All nodes of an arena by number.
#[derive(Clone)]
pub struct Nodes<'a> {
    arena: &'a Arena<'a>,
    handles: core::ops::Range<u32>,
}

impl<'a> Members<'a> {
    #[inline]
    fn node(&self, &handle: &u32) -> Node<'a> {
        Node::at(self.arena, handle)
    }
}

impl<'a> Pairs<'a> {
    #[inline]
    fn node(&self, &[first, second]: &[u32; 2]) -> (Node<'a>, Node<'a>) {
        (Node::at(self.arena, first), Node::at(self.arena, second))
    }
}

impl<'a> Variables<'a> {
    #[inline]
    fn node(&self, (name, value): (Node<'a>, Node<'a>)) -> (&'a [u8], Node<'a>) {
        (name.row().bytes(), value)
    }

    /// The same as pairs of nodes.
    pub fn pairs(self) -> Pairs<'a> {
        self.0
    }

    /// The value of the variable of that name: the last one, as in Ruby.
    pub fn get(mut self, name: &[u8]) -> Option<Node<'a>> {
        self.rfind(|&(own, _)| own == name).map(|(_, value)| value)
    }
}

impl<'a> Nodes<'a> {
    pub(crate) fn new(arena: &'a Arena<'a>, count: u32) -> Nodes<'a> {
        Nodes { arena, handles: 0..count }
    }

    fn node(&self, handle: u32) -> Node<'a> {
        Node::at(self.arena, handle)
    }
}

// Iterators over a part `$of`, from both ends, each item made by `node`.
macro_rules! iterator {
    ($($name:ident $of:tt $item:ty;)*) => {$(
        impl<'a> Iterator for $name<'a> {
            type Item = $item;

            #[inline]
            fn next(&mut self) -> Option<$item> {
                let item = self.$of.next()?;
                Some(self.node(item))
            }

            #[inline]
            fn size_hint(&self) -> (usize, Option<usize>) {
                self.$of.size_hint()
            }
        }

        impl DoubleEndedIterator for $name<'_> {
            #[inline]
            fn next_back(&mut self) -> Option<Self::Item> {
                let item = self.$of.next_back()?;
                Some(self.node(item))
            }
        }

        impl ExactSizeIterator for $name<'_> {}

        impl core::iter::FusedIterator for $name<'_> {}
    )*};
}

iterator! {
    Members list Node<'a>;
    Pairs list (Node<'a>, Node<'a>);
    Variables 0 (&'a [u8], Node<'a>);
    Nodes handles Node<'a>;
}

impl fmt::Debug for Members<'_> {
    fn fmt(&self, f: &mut fmt::Formatter<'_>) -> fmt::Result {
        f.debug_list().entries(self.clone()).finish()
    }
}

impl fmt::Debug for Pairs<'_> {
    fn fmt(&self, f: &mut fmt::Formatter<'_>) -> fmt::Result {
        f.debug_map().entries(self.clone()).finish()
    }
}

impl fmt::Debug for Variables<'_> {
    fn fmt(&self, f: &mut fmt::Formatter<'_>) -> fmt::Result {
        self.0.fmt(f)
    }
}

impl fmt::Debug for Nodes<'_> {
    fn fmt(&self, f: &mut fmt::Formatter<'_>) -> fmt::Result {
        f.debug_list().entries(self.clone()).finish()
    }
}
