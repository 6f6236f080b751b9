//! Prints the ingredients of a recipe file, or why it is refused: the refusal's number, name and details.
//!
//! An ingredient is a name with an amount: a pair of a symbol and an integer or float in a hash, or an array of the two, as a step
//! has. An integer is a fixnum or a bignum; a float is printed by its text.
//!
//! usage: cargo run --example ingredients --features alloc -- FILE
use ruby_marshal_tables::{Node, OwnedTables, Value};
use std::io::Write;
use std::process::ExitCode;

const LIMIT: u32 = 64;

fn ingredient(name: Node, amount: Node, out: &mut impl Write) -> std::io::Result<()> {
    let Value::Symbol(name) = name.value() else { return Ok(()) };
    match amount.value() {
        Value::Fixnum(amount) => write!(out, "{amount:>11} ")?,
        Value::Bignum(amount) => write!(out, "{amount:>11} ")?,
        Value::Float(amount) => {
            let text = amount.bytes();
            write!(out, "{:1$}", "", 11_usize.saturating_sub(text.len()))?;
            out.write_all(text)?;
            out.write_all(b" ")?;
        }
        _ => return Ok(()),
    }
    out.write_all(name)?;
    out.write_all(b"\n")
}

// A node's own ingredients, then those of what it holds. A recipe may hold itself, so a node is visited once.
fn print<'a>(node: Node<'a>, seen: &mut [bool], out: &mut impl Write) -> std::io::Result<()> {
    if std::mem::replace(&mut seen[node.handle().index()], true) {
        return Ok(());
    }
    let mut held: Vec<Node<'a>> = Vec::new();
    match node.value() {
        Value::Array(array) => {
            if let (2, Some(name), Some(amount)) = (array.len(), array.get(0), array.get(1)) {
                ingredient(name, amount, out)?;
            }
            held.extend(array.members());
        }
        Value::Hash(hash) => {
            for (key, value) in hash.pairs() {
                ingredient(key, value, out)?;
                held.extend([key, value]);
            }
            held.extend(hash.default_value());
        }
        Value::Object(object) => held.extend(object.variables().map(|(_, value)| value)),
        Value::String(text) => held.extend(text.variables().into_iter().flatten().map(|(_, value)| value)),
        Value::UserDefined(value) => held.extend(value.variables().into_iter().flatten().map(|(_, value)| value)),
        Value::Nil | Value::Bool(_) | Value::Fixnum(_) | Value::Symbol(_) | Value::Float(_) | Value::Bignum(_) => {}
    }
    held.into_iter().try_for_each(|node| print(node, seen, out))
}

fn main() -> ExitCode {
    let Some(path) = std::env::args_os().nth(1) else {
        eprintln!("usage: ingredients FILE");
        return ExitCode::from(2);
    };
    let input = match std::fs::read(&path) {
        Ok(input) => input,
        Err(error) => {
            eprintln!("{}: {error}", path.display());
            return ExitCode::from(2);
        }
    };
    let mut tables = OwnedTables::for_input(input.len());
    let mut out = std::io::stdout().lock();
    let written = match tables.load(&input, LIMIT) {
        Ok(arena) => print(arena.root(), &mut vec![false; arena.counts().nodes], &mut out).map(|()| ExitCode::SUCCESS),
        Err(refusal) => {
            let (first, second) = refusal.details();
            writeln!(out, "refused: {} {} {first} {second}", refusal.number(), refusal.name()).map(|()| ExitCode::FAILURE)
        }
    };
    written.unwrap_or(ExitCode::from(2))
}
