//! Unification of types.

use crate::types::{Arg, ArgList, Kind, TYPE_VARIABLE, Type, Types};
use std::collections::{HashMap, HashSet};

pub const UNBOUND: Type = Type::MAX;
/// So many pairs are compared before repeated ones are looked for.
pub const FEW: usize = 16;

#[derive(Debug)]
pub struct Mismatch;

/// What each variable is bound to.
pub struct Bindings {
    pub entries: Vec<Type>,
    pub compared: usize,
    pub seen: HashSet<(Type, Type)>,
}

impl Bindings {
    pub fn new() -> Bindings {
        Bindings { entries: Vec::new(), compared: 0, seen: HashSet::new() }
    }

    pub fn new_variable(&mut self, types: &mut Types) -> Type {
        let number = self.entries.len() as u32;
        self.entries.push(UNBOUND);
        types.make(Kind::Variable(number))
    }

    /// Returns the end of the chain of bound variables that begins with the type.
    pub fn root(&self, types: &Types, mut ty: Type) -> Type {
        while let Kind::Variable(number) = types.kind(ty) {
            match self.entries[number as usize] {
                UNBOUND => break,
                bound => ty = bound,
            }
        }
        ty
    }

    /// Makes the two types equal by binding variables.
    pub fn unify(&mut self, types: &Types, left: Type, right: Type) -> Result<(), Mismatch> {
        (self.compared, self.seen) = (0, HashSet::new());
        let mut bound = Vec::new();
        self.compare(types, left, right, &mut bound)?;
        // Without variables, what a variable is bound to can't lead back to the variable.
        let has_variables = |ty: &Type| types.info(*ty).flags & TYPE_VARIABLE != 0;
        if bound.iter().any(has_variables) {
            let mut states = HashMap::new();
            if bound.iter().any(|ty| self.is_within_itself(types, *ty, &mut states)) {
                return Err(Mismatch);
            }
        }
        Ok(())
    }

    pub fn compare(&mut self, types: &Types, left: Type, right: Type, bound: &mut Vec<Type>) -> Result<(), Mismatch> {
        let (left, right) = (self.root(types, left), self.root(types, right));
        if left == right {
            return Ok(());
        }
        match (types.kind(left), types.kind(right)) {
            (Kind::Variable(old), Kind::Variable(new)) if old < new => return self.bind(types, new, left, bound),
            (Kind::Variable(number), _) => return self.bind(types, number, right, bound),
            (_, Kind::Variable(number)) => return self.bind(types, number, left, bound),
            _ => {}
        }
        // Types without variables are equal only where they are one type.
        if (types.info(left).flags | types.info(right).flags) & TYPE_VARIABLE == 0 {
            return Err(Mismatch);
        }
        self.compared += 1;
        if self.compared > FEW && !self.seen.insert((left, right)) {
            return Ok(());
        }
        match (types.kind(left), types.kind(right)) {
            (Kind::Slice(one), Kind::Slice(other)) => self.compare(types, one, other, bound),
            (Kind::Pointer(one, a), Kind::Pointer(other, b)) if a == b => self.compare(types, one, other, bound),
            (Kind::Reference(r, one, a), Kind::Reference(s, other, b)) if r == s && a == b => {
                self.compare(types, one, other, bound)
            }
            (Kind::Tuple(one), Kind::Tuple(other)) | (Kind::FunctionPointer(one), Kind::FunctionPointer(other)) => {
                let (one, other) = (types.lists.of(types.lists.row(one)), types.lists.of(types.lists.row(other)));
                if one.len() != other.len() {
                    return Err(Mismatch);
                }
                one.iter().zip(other).try_for_each(|(one, other)| self.compare(types, *one, *other, bound))
            }
            (Kind::Struct(id, one), Kind::Struct(other_id, other)) if id == other_id => {
                self.compare_args(types, one, other, bound)
            }
            (Kind::Function(id, one), Kind::Function(other_id, other)) if id == other_id => {
                self.compare_args(types, one, other, bound)
            }
            _ => Err(Mismatch),
        }
    }

    pub fn compare_args(
        &mut self,
        types: &Types,
        one: ArgList,
        other: ArgList,
        bound: &mut Vec<Type>,
    ) -> Result<(), Mismatch> {
        let lists = &types.arg_lists;
        let (one, other) = (lists.of(lists.row(one)), lists.of(lists.row(other)));
        if one.len() != other.len() {
            return Err(Mismatch);
        }
        one.iter().zip(other).try_for_each(|pair| match pair {
            (Arg::Type(one), Arg::Type(other)) => self.compare(types, *one, *other, bound),
            (one, other) if one == other => Ok(()),
            _ => Err(Mismatch),
        })
    }

    /// Binds the variable to a type that no binder around the variable binds a part of.
    pub fn bind(&mut self, types: &Types, variable: u32, ty: Type, bound: &mut Vec<Type>) -> Result<(), Mismatch> {
        if types.info(ty).outer > 0 {
            return Err(Mismatch);
        }
        self.entries[variable as usize] = ty;
        bound.push(ty);
        Ok(())
    }

    /// Returns whether the type would have to contain itself. A state says whether all of a type was seen.
    pub fn is_within_itself(&self, types: &Types, ty: Type, states: &mut HashMap<Type, bool>) -> bool {
        if types.info(ty).flags & TYPE_VARIABLE == 0 {
            return false;
        }
        if let Some(is_done) = states.get(&ty) {
            return !is_done;
        }
        states.insert(ty, false);
        let found = match types.kind(ty) {
            Kind::Variable(number) => match self.entries[number as usize] {
                UNBOUND => false,
                bound => self.is_within_itself(types, bound, states),
            },
            Kind::Slice(inner) | Kind::Pointer(inner, _) | Kind::Reference(_, inner, _) => {
                self.is_within_itself(types, inner, states)
            }
            Kind::Tuple(list) | Kind::FunctionPointer(list) => {
                let items = types.lists.of(types.lists.row(list));
                items.iter().any(|item| self.is_within_itself(types, *item, states))
            }
            Kind::Struct(_, args) | Kind::Function(_, args) => {
                let items = types.arg_lists.of(types.arg_lists.row(args));
                items.iter().any(|arg| matches!(arg, Arg::Type(ty) if self.is_within_itself(types, *ty, states)))
            }
            _ => false,
        };
        states.insert(ty, true);
        found
    }
}
