//! Folds of types, which recurse on the machine's stack.

use crate::tables::Notes;
use crate::types::{Arg, ArgList, Info, Kind, PARAMETERS, REGIONS, Region, Type, TypeList, TypeRow, Types, info_of_arg};

impl Types {
    /// Returns the type, moved under so many more binders.
    pub fn shift(&mut self, ty: Type, amount: u32) -> Type {
        if self.info(ty).outer == 0 || amount == 0 {
            return ty;
        }
        self.shifts.begin();
        self.fold(&mut Shift { amount }, ty, 0)
    }

    /// Returns the type with each parameter replaced by its argument.
    pub fn instantiate<A: Arguments>(&mut self, ty: Type, args: A) -> Type {
        if self.info(ty).flags & PARAMETERS == 0 {
            return ty;
        }
        self.instances.begin();
        self.fold(&mut Instance { args }, ty, 0)
    }

    /// Returns the type with the closure's results in place of the regions that the type doesn't bind.
    pub fn fold_regions(&mut self, ty: Type, answer: impl FnMut(Region, u32) -> Region) -> Type {
        self.fold(&mut Regions { answer }, ty, 0)
    }

    pub fn fold<F: Fold>(&mut self, fold: &mut F, ty: Type, depth: u32) -> Type {
        let TypeRow { kind, info } = self.rows[ty as usize];
        if !fold.touches(info, depth) {
            return ty;
        }
        if !F::REMEMBERS || self.is_near_leaf(fold, kind, depth) {
            return self.folded(fold, ty, kind, depth);
        }
        if let Some(result) = F::notes(self).find(ty, depth) {
            return result;
        }
        let result = self.folded(fold, ty, kind, depth);
        F::notes(self).add(ty, depth, result);
        result
    }

    /// Returns whether a fold of this kind goes no further than to a leaf, so that it isn't worth a note.
    pub fn is_near_leaf<F: Fold>(&self, fold: &F, kind: Kind, depth: u32) -> bool {
        let is_leaf = |kind: Kind| depth == 0 && matches!(kind, Kind::Parameter(..) | Kind::Bound(..));
        match kind {
            Kind::Slice(inner) | Kind::Pointer(inner, _) | Kind::Reference(_, inner, _) => {
                let row = &self.rows[inner as usize];
                is_leaf(row.kind) || !fold.touches(row.info, depth)
            }
            _ => is_leaf(kind),
        }
    }

    pub fn folded<F: Fold>(&mut self, fold: &mut F, ty: Type, kind: Kind, depth: u32) -> Type {
        let folded = match kind {
            Kind::Slice(inner) => Kind::Slice(self.fold(fold, inner, depth)),
            Kind::Pointer(inner, is_mut) => Kind::Pointer(self.fold(fold, inner, depth), is_mut),
            Kind::Reference(region, inner, is_mut) => {
                let region = fold.region(self, region, depth);
                Kind::Reference(region, self.fold(fold, inner, depth), is_mut)
            }
            Kind::Tuple(list) => Kind::Tuple(self.fold_list(fold, list, depth)),
            Kind::Struct(id, args) => Kind::Struct(id, self.fold_args(fold, args, depth)),
            Kind::Function(id, args) => Kind::Function(id, self.fold_args(fold, args, depth)),
            Kind::FunctionPointer(list) => Kind::FunctionPointer(self.fold_list(fold, list, depth + 1)),
            Kind::Parameter(..) | Kind::Bound(..) => return fold.leaf(self, ty, kind, depth),
            Kind::Bool | Kind::Int(_) | Kind::Variable(_) => return ty,
        };
        self.make(folded)
    }

    pub fn fold_list<F: Fold>(&mut self, fold: &mut F, list: TypeList, depth: u32) -> TypeList {
        let row = self.lists.row(list);
        if !fold.touches(row.info, depth) {
            return list;
        }
        let first = self.items.len();
        for at in row.start..row.start + row.length {
            let item = self.fold(fold, self.lists.items[at as usize], depth);
            self.items.push(item);
        }
        let rows = &self.rows;
        let folded = self.lists.make(&self.items[first..], |ty| rows[ty as usize].info);
        self.items.truncate(first);
        folded
    }

    pub fn fold_args<F: Fold>(&mut self, fold: &mut F, list: ArgList, depth: u32) -> ArgList {
        let row = self.arg_lists.row(list);
        if !fold.touches(row.info, depth) {
            return list;
        }
        let first = self.args.len();
        for at in row.start..row.start + row.length {
            let arg = match self.arg_lists.items[at as usize] {
                Arg::Type(ty) => Arg::Type(self.fold(fold, ty, depth)),
                Arg::Region(region) => Arg::Region(fold.region(self, region, depth)),
            };
            self.args.push(arg);
        }
        let rows = &self.rows;
        let folded = self.arg_lists.make(&self.args[first..], |arg| info_of_arg(rows, arg));
        self.args.truncate(first);
        folded
    }
}

/// What a fold does, under `depth` binders of the folded type.
pub trait Fold {
    /// Returns whether a term of this info can change.
    fn touches(&self, info: Info, depth: u32) -> bool;

    fn region(&mut self, types: &mut Types, region: Region, depth: u32) -> Region;

    /// Returns what a parameter or a bound variable becomes.
    fn leaf(&mut self, types: &mut Types, ty: Type, kind: Kind, depth: u32) -> Type;

    /// Whether the result of a type is the same wherever the type is under as many binders.
    const REMEMBERS: bool;

    /// Returns the results so far.
    fn notes(types: &mut Types) -> &mut Notes;
}

pub struct Shift {
    pub amount: u32,
}

impl Fold for Shift {
    fn touches(&self, info: Info, depth: u32) -> bool {
        info.outer > depth
    }

    fn region(&mut self, _types: &mut Types, region: Region, depth: u32) -> Region {
        region.shifted(self.amount, depth)
    }

    fn leaf(&mut self, types: &mut Types, ty: Type, kind: Kind, _depth: u32) -> Type {
        match kind {
            Kind::Bound(index, place) => types.make(Kind::Bound(index + self.amount, place)),
            _ => ty,
        }
    }

    const REMEMBERS: bool = true;

    fn notes(types: &mut Types) -> &mut Notes {
        &mut types.shifts
    }
}

/// The arguments of an instance.
pub trait Arguments {
    fn at(&self, types: &Types, index: u32) -> Option<Arg>;
}

impl Arguments for &[Arg] {
    fn at(&self, _types: &Types, index: u32) -> Option<Arg> {
        self.get(index as usize).copied()
    }
}

pub struct Stored(pub ArgList);

impl Arguments for Stored {
    fn at(&self, types: &Types, index: u32) -> Option<Arg> {
        types.arg_lists.of(types.arg_lists.row(self.0)).get(index as usize).copied()
    }
}

pub struct Instance<A> {
    pub args: A,
}

impl<A: Arguments> Fold for Instance<A> {
    fn touches(&self, info: Info, _depth: u32) -> bool {
        info.flags & PARAMETERS != 0
    }

    fn region(&mut self, types: &mut Types, region: Region, depth: u32) -> Region {
        match region {
            Region::Parameter(index, _) => match self.args.at(types, index) {
                Some(Arg::Region(region)) => region.shifted(depth, 0),
                _ => panic!("parameter {index} has no region"),
            },
            _ => region,
        }
    }

    fn leaf(&mut self, types: &mut Types, ty: Type, kind: Kind, depth: u32) -> Type {
        match kind {
            Kind::Parameter(index, _) => match self.args.at(types, index) {
                Some(Arg::Type(ty)) => types.shift(ty, depth),
                _ => panic!("parameter {index} has no type"),
            },
            _ => ty,
        }
    }

    const REMEMBERS: bool = true;

    fn notes(types: &mut Types) -> &mut Notes {
        &mut types.instances
    }
}

/// A closure may answer differently at each call, so nothing is remembered.
pub struct Regions<F> {
    pub answer: F,
}

impl<F: FnMut(Region, u32) -> Region> Fold for Regions<F> {
    fn touches(&self, info: Info, _depth: u32) -> bool {
        info.flags & REGIONS != 0
    }

    fn region(&mut self, _types: &mut Types, region: Region, depth: u32) -> Region {
        match region {
            Region::Bound(index, _) if index < depth => region,
            _ => (self.answer)(region, depth),
        }
    }

    fn leaf(&mut self, _types: &mut Types, ty: Type, _kind: Kind, _depth: u32) -> Type {
        ty
    }

    const REMEMBERS: bool = false;

    fn notes(types: &mut Types) -> &mut Notes {
        &mut types.instances
    }
}
