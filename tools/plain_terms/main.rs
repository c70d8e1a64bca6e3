//! Types that are stored once, written by hand for speed. `bin/bench-calls` measures this program beside that of
//! `crates/measured_calls`.
//!
//! It reads the same lines, makes the same calls and prints the same sums. Types and lists are found by tables with
//! open addressing, whose slots have the hash beside the row's number. Flags and outer binders are cached. Folds pass
//! over what they can't change, and remember results in a table that is kept between calls.
//!
//! Nothing is proved. There are fewer kinds of types, folds recurse on the machine's stack, no handle is tested, and
//! where memory or numbers run out the program ends.
//!
//! Build it with `rustc -C opt-level=3 -C codegen-units=1 --edition 2021`.

mod bindings;
mod folds;
mod tables;
mod types;

use bindings::Bindings;
use std::io::{self, Read, Write};
use std::process::ExitCode;
use types::{Arg, Field, Kind, Region, TYPE_PARAMETER, Type, Types};

/// So many types are the first items of lists, and twice as many are items.
const NEAR: u32 = 1024;

/// Returns the sum with one more summand. The order of the summands matters.
fn added(sum: u32, summand: u32) -> u32 {
    sum.wrapping_mul(31).wrapping_add(summand)
}

/// Returns the number that is so far behind this one, in a circle of `count` numbers.
fn further(number: u32, step: u32, count: u32) -> u32 {
    let next = number.wrapping_add(step);
    if next < count { next } else { next.wrapping_sub(count) }
}

/// Returns how far the next number is when calls are made out of order.
fn far(count: u32) -> u32 {
    (count / 8).wrapping_mul(5).wrapping_add(1)
}

/// Makes so many of the `count` calls, each of them `step` numbers behind the one before. Returns a sum of the results.
fn sum_of(count: u32, step: u32, times: u32, mut call: impl FnMut(u32) -> u32) -> u32 {
    let (mut sum, mut number) = (0, 0);
    for _ in 0..times {
        sum = added(sum, call(number));
        number = further(number, step, count);
    }
    sum
}

/// Makes the `count` calls in order, and then so many of them out of order. Returns a sum of the results.
fn made(count: u32, times: u32, mut call: impl FnMut(u32) -> u32) -> u32 {
    let first = sum_of(count, 1, count, &mut call);
    let second = sum_of(count, far(count), times, &mut call);
    added(first, second)
}

/// Makes the slice of a type, or the pointer to it. The type has half the number.
fn make_type(types: &mut Types, number: u32) -> Type {
    let inner = number / 2;
    types.make(if number % 2 == 0 { Kind::Slice(inner) } else { Kind::Pointer(inner, false) })
}

fn make_types(types: &mut Types, count: u32) -> u32 {
    sum_of(count, 1, count, |number| make_type(types, number))
}

fn make_eight(types: &mut Types, number: u32) -> u32 {
    let at = number / NEAR;
    types.make_list(&[number % NEAR, at, at + 1, at + 2, at + 3, at + 4, at + 5, at + 6])
}

fn tuples(types: &mut Types, items: &[Type], length: usize) -> Vec<Type> {
    items.chunks_exact(length).map(|part| types.tuple(part)).collect()
}

/// Returns types of this size, which together have as many types as `rows` says, as in `crates/measured_calls`.
fn sources(types: &mut Types, size: u32, rows: u32) -> Vec<Type> {
    let count = match size {
        1 => rows,
        10 => rows / 10 * 9,
        _ => rows / 1000 * 891,
    };
    let parameter = types.make(Kind::Parameter(0, 1));
    let references: Vec<Type> = (0..count)
        .map(|number| types.make(Kind::Reference(Region::Bound(0, number), parameter, false)))
        .collect();
    match size {
        1 => references,
        10 => tuples(types, &references, 9),
        _ => {
            let inner = tuples(types, &references, 9);
            let outer = tuples(types, &inner, 11);
            tuples(types, &outer, 9)
        }
    }
}

/// Returns a kind that the function gives, at each of the first types as its argument.
fn applied(types: &mut Types, count: u32, kind: impl Fn(u32) -> Kind) -> Vec<Type> {
    make_types(types, count);
    (0..count)
        .map(|number| {
            let args = types.make_args(&[Arg::Type(number)]);
            types.make(kind(args))
        })
        .collect()
}

fn sum_of_fields(fields: &[Field]) -> u32 {
    fields.iter().fold(0, |sum, field| added(sum, field.ty))
}

fn fields(types: &mut Types, rows: u32, times: u32) -> u32 {
    let parameter = types.make(Kind::Parameter(0, 1));
    let slice = types.make(Kind::Slice(parameter));
    let pointer = types.make(Kind::Pointer(parameter, false));
    let declared = [parameter, slice, pointer];
    types.structs.push((2..).zip(declared).map(|(name, ty)| Field { name, ty }).collect());
    let sources = applied(types, rows / 4, |args| Kind::Struct(0, args));
    made(rows / 4, times, |number| sum_of_fields(&types.fields_of(sources[number as usize])))
}

fn signatures(types: &mut Types, rows: u32, times: u32) -> u32 {
    let parameter = types.make(Kind::Parameter(0, 1));
    let slice = types.make(Kind::Slice(parameter));
    let signature = types.make_list(&[slice, parameter]);
    types.functions.push(signature);
    let sources = applied(types, rows / 4, |args| Kind::Function(0, args));
    made(rows / 4, times, |number| types.fn_sig(sources[number as usize]).unwrap_or(0))
}

/// Makes the two types equal in a new table of two variables. Returns a sum of the types to which these are bound.
fn bound(types: &mut Types, left: Type, right: Type) -> u32 {
    let mut bindings = Bindings::new();
    bindings.new_variable(types);
    bindings.new_variable(types);
    bindings.unify(types, left, right).expect("the types can be made equal");
    added(bindings.entries[0], bindings.entries[1])
}

fn unified(types: &mut Types, rows: u32, times: u32) -> u32 {
    make_types(types, rows / 4);
    let (first, second) = (types.make(Kind::Variable(0)), types.make(Kind::Variable(1)));
    let pairs: Vec<(Type, Type)> =
        (0..rows / 4).map(|own| (types.tuple(&[first, own]), types.tuple(&[own, second]))).collect();
    made(rows / 4, times, |number| {
        let (left, right) = pairs[number as usize];
        bound(types, left, right)
    })
}

/// A list whose items are found by indices of 32 bits.
struct IndexVec<T> {
    raw: Vec<T>,
}

impl<T> IndexVec<T> {
    fn push(&mut self, item: T) -> u32 {
        let index = self.raw.len();
        assert!(index < u32::MAX as usize);
        self.raw.push(item);
        index as u32
    }

    fn get(&self, index: u32) -> Option<&T> {
        self.raw.get(index as usize)
    }
}

fn indexed(rows: u32, times: u32) -> u32 {
    let mut list = IndexVec { raw: Vec::new() };
    let pushed = sum_of(rows, 1, rows, |number| list.push(number));
    let got = sum_of(rows, far(rows), times, |number| list.get(number).copied().unwrap_or(0));
    added(pushed, got)
}

/// Makes the calls of a line. Returns a sum of the results.
fn sum(call: &str, size: u32, rows: u32, times: u32) -> Option<u32> {
    let mut types = Types::new();
    let types = &mut types;
    types.make(Kind::Parameter(0, 1));
    let argument = types.make(Kind::Bool);
    Some(match call {
        "mk_ty" => made(rows, times, |number| make_type(types, number)),
        "mk_tys" => {
            make_types(types, 2 * NEAR);
            match size {
                2 => made(rows, times, |number| types.make_list(&[number % NEAR, number / NEAR])),
                _ => made(rows, times, |number| make_eight(types, number)),
            }
        }
        "has_type_flags" => {
            make_types(types, rows);
            made(rows, times, |number| u32::from(types.has_flags(number, TYPE_PARAMETER)))
        }
        "fields_of" => fields(types, rows, times),
        "fn_sig" => signatures(types, rows, times),
        "unify" => unified(types, rows, times),
        "index_vec" => indexed(rows, times),
        _ => {
            let sources = sources(types, size, rows);
            let count = sources.len() as u32;
            match call {
                "shift_vars" => made(count, times, |number| types.shift(sources[number as usize], 1)),
                "instantiate" => made(count, times, |number| {
                    types.instantiate(sources[number as usize], &[Arg::Type(argument)][..])
                }),
                "fold_regions" => made(count, times, |number| {
                    types.fold_regions(sources[number as usize], |_, _| Region::Erased)
                }),
                _ => return None,
            }
        }
    })
}

/// Returns what is printed for a line.
fn answer(line: &str) -> Option<String> {
    let words: Vec<&str> = line.split(' ').collect();
    let [call, size, rows, times] = words[..] else { return None };
    let sum = sum(call, size.parse().ok()?, rows.parse().ok()?, times.parse().ok()?)?;
    Some(format!("{line}: {sum}\n"))
}

fn run() -> Result<(), String> {
    let mut text = String::new();
    io::stdin().read_to_string(&mut text).map_err(|error| error.to_string())?;
    let mut output = io::stdout().lock();
    for line in text.lines() {
        let printed = answer(line).ok_or("a line is `CALL SIZE ROWS TIMES`")?;
        output.write_all(printed.as_bytes()).map_err(|error| error.to_string())?;
    }
    Ok(())
}

fn main() -> ExitCode {
    match run() {
        Ok(()) => ExitCode::SUCCESS,
        Err(message) => {
            eprintln!("plain_terms: {message}");
            ExitCode::FAILURE
        }
    }
}
