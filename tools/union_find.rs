//! A unifier written by hand, which `bin/bench-unify` measures beside the program of `crates/measured_calls`.
//!
//! It reads the same lines and prints the same ones. Types are stored once and named by their numbers, as the library's
//! are, but a type is a variable, `i32` or a pair, and nothing is proved. Two types are made equal by a union-find over
//! their numbers, with path compression. No variable is replaced before the end, where one walk resolves a type and
//! finds out whether it would have to contain itself.
//!
//! Build it with `rustc -O --edition 2021`.

use std::collections::HashMap;
use std::hash::{BuildHasherDefault, Hash, Hasher};
use std::io::{self, Read, Write};
use std::process::ExitCode;

/// A type's number.
type Type = u32;

#[derive(Clone, Copy, PartialEq, Eq, Hash)]
enum Kind {
    Variable(u32),
    Int,
    Pair(Type, Type),
}

#[derive(Debug)]
enum Fault {
    Mismatch,
    Occurs,
}

/// A multiplicative hash, as compilers use it for small keys.
#[derive(Default)]
struct FastHasher(u64);

impl Hasher for FastHasher {
    fn write(&mut self, bytes: &[u8]) {
        bytes.iter().for_each(|byte| self.write_u64(u64::from(*byte)));
    }

    fn write_u32(&mut self, word: u32) {
        self.write_u64(u64::from(word));
    }

    fn write_u64(&mut self, word: u64) {
        self.0 = (self.0.rotate_left(5) ^ word).wrapping_mul(0x517c_c1b7_2722_0a95);
    }

    fn write_isize(&mut self, word: isize) {
        self.write_u64(word as u64);
    }

    // The table takes the slot from the low bits, and the high ones are the mixed ones.
    fn finish(&self) -> u64 {
        self.0 ^ (self.0 >> 32)
    }
}

/// The types, each of them once.
#[derive(Default)]
struct Types {
    kinds: Vec<Kind>,
    numbers: HashMap<Kind, Type, BuildHasherDefault<FastHasher>>,
}

impl Types {
    fn make(&mut self, kind: Kind) -> Type {
        *self.numbers.entry(kind).or_insert_with(|| {
            self.kinds.push(kind);
            self.kinds.len() as Type - 1
        })
    }

    fn kind(&self, ty: Type) -> Kind {
        self.kinds[ty as usize]
    }
}

/// Classes of types that were made equal. A class with a type that is no variable is named by one such type, and one of
/// variables alone by an old one.
struct Classes {
    parents: Vec<Type>,
}

impl Classes {
    fn new(types: &Types) -> Classes {
        Classes { parents: (0..types.kinds.len() as Type).collect() }
    }

    /// Returns the type that names the class, and makes the way to it short.
    fn find(&mut self, ty: Type) -> Type {
        let mut root = ty;
        while self.parents[root as usize] != root {
            root = self.parents[root as usize];
        }
        let mut at = ty;
        while at != root {
            at = std::mem::replace(&mut self.parents[at as usize], root);
        }
        root
    }

    /// Makes the two types equal, and with them their parts.
    fn unify(&mut self, types: &Types, left: Type, right: Type) -> Result<(), Fault> {
        let mut pairs = vec![(left, right)];
        while let Some((left, right)) = pairs.pop() {
            let (left, right) = (self.find(left), self.find(right));
            if left == right {
                continue;
            }
            match (types.kind(left), types.kind(right)) {
                (Kind::Variable(old), Kind::Variable(new)) if old < new => self.parents[right as usize] = left,
                (Kind::Variable(_), _) => self.parents[left as usize] = right,
                (_, Kind::Variable(_)) => self.parents[right as usize] = left,
                (Kind::Pair(a, b), Kind::Pair(c, d)) => {
                    self.parents[left as usize] = right;
                    pairs.push((b, d));
                    pairs.push((a, c));
                }
                _ => return Err(Fault::Mismatch),
            }
        }
        Ok(())
    }
}

/// How far the walk of a class is.
#[derive(Clone, Copy)]
enum Colour {
    Unseen,
    Entered,
    Resolved(Type),
}

/// The walk that resolves types, which remembers what each class is.
struct Resolver<'a> {
    types: &'a mut Types,
    classes: &'a mut Classes,
    colours: Vec<Colour>,
}

impl Resolver<'_> {
    /// Returns the type with each variable replaced by what it is equal to.
    fn resolve(&mut self, ty: Type) -> Result<Type, Fault> {
        let mut stack = vec![ty];
        while let Some(top) = stack.pop() {
            let class = self.classes.find(top);
            let resolved = match (self.colours[class as usize], self.types.kind(class)) {
                (Colour::Resolved(_), _) => continue,
                (Colour::Unseen, Kind::Pair(first, second)) => {
                    self.colours[class as usize] = Colour::Entered;
                    stack.extend([class, second, first]);
                    continue;
                }
                (Colour::Entered, Kind::Pair(first, second)) => {
                    let kind = Kind::Pair(self.resolved(first)?, self.resolved(second)?);
                    self.types.make(kind)
                }
                _ => class,
            };
            self.colours[class as usize] = Colour::Resolved(resolved);
        }
        self.resolved(ty)
    }

    /// Returns what the class of the type was resolved to. An entered class is met before its parts are resolved only
    /// where it is within itself.
    fn resolved(&mut self, ty: Type) -> Result<Type, Fault> {
        match self.colours[self.classes.find(ty) as usize] {
            Colour::Resolved(resolved) => Ok(resolved),
            _ => Err(Fault::Occurs),
        }
    }
}

/// Builds the two types of a line.
fn sides(types: &mut Types, line: &str) -> Option<(Type, Type)> {
    let (word, levels) = line.split_once(' ')?;
    let levels = levels.parse::<u32>().ok()?;
    let int = types.make(Kind::Int);
    let (mut left, mut right) = (int, int);
    match word {
        "pairs" => {
            left = types.make(Kind::Variable(0));
            for _ in 0..levels {
                left = types.make(Kind::Pair(left, left));
                right = types.make(Kind::Pair(right, right));
            }
        }
        "chain" | "links" => {
            for level in 0..levels {
                let own = types.make(Kind::Variable(level));
                let other = if word == "links" { types.make(Kind::Variable(level + 1)) } else { int };
                left = types.make(Kind::Pair(left, own));
                right = types.make(Kind::Pair(right, other));
            }
        }
        _ => return None,
    }
    Some((left, right))
}

/// Returns what is printed for a line, or why it failed.
fn answer(line: &str) -> Result<String, String> {
    let mut types = Types::default();
    let (left, right) = sides(&mut types, line).ok_or("a line is `pairs N`, `chain N` or `links N`")?;
    let mut classes = Classes::new(&types);
    let outcome = classes.unify(&types, left, right).and_then(|()| {
        let colours = vec![Colour::Unseen; types.kinds.len()];
        let mut resolver = Resolver { types: &mut types, classes: &mut classes, colours };
        Ok((resolver.resolve(left)?, resolver.resolve(right)?))
    });
    let (left, right) = outcome.map_err(|fault| format!("{line}: {fault:?}"))?;
    let count = if left == right { "one" } else { "two" };
    Ok(format!("{line}: {} types, {count} when resolved\n", types.kinds.len()))
}

fn run() -> Result<(), String> {
    let mut text = String::new();
    io::stdin().read_to_string(&mut text).map_err(|error| error.to_string())?;
    let mut output = io::stdout().lock();
    for line in text.lines() {
        output.write_all(answer(line)?.as_bytes()).map_err(|error| error.to_string())?;
    }
    Ok(())
}

fn main() -> ExitCode {
    match run() {
        Ok(()) => ExitCode::SUCCESS,
        Err(message) => {
            eprintln!("union_find: {message}");
            ExitCode::FAILURE
        }
    }
}
