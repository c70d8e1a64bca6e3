//! Types, regions and arguments, each type and each list of them once.

use crate::folds::{Instance, Stored};
use crate::tables::{Hash, Item, Lists, Notes, Table, pair};

/// A type's number.
pub type Type = u32;
/// The number of a list of types.
pub type TypeList = u32;
/// The number of a list of arguments.
pub type ArgList = u32;

#[derive(Clone, Copy, PartialEq, Eq)]
#[allow(dead_code)]
pub enum Region {
    Static,
    Erased,
    Variable(u32),
    /// The index and the name.
    Parameter(u32, u32),
    /// The binder's index and the place in its list.
    Bound(u32, u32),
}

#[derive(Clone, Copy, PartialEq, Eq)]
#[allow(dead_code)]
pub enum Kind {
    Bool,
    Int(u8),
    /// The index and the name.
    Parameter(u32, u32),
    Variable(u32),
    /// The binder's index and the place in its list.
    Bound(u32, u32),
    Slice(Type),
    Pointer(Type, bool),
    Reference(Region, Type, bool),
    Tuple(TypeList),
    Struct(u32, ArgList),
    Function(u32, ArgList),
    /// Under a binder.
    FunctionPointer(TypeList),
}

#[derive(Clone, Copy, PartialEq, Eq)]
#[allow(dead_code)]
pub enum Arg {
    Type(Type),
    Region(Region),
}

pub const TYPE_PARAMETER: u32 = 1;
pub const REGION_PARAMETER: u32 = 2;
pub const TYPE_VARIABLE: u32 = 4;
pub const REGION_VARIABLE: u32 = 8;
pub const TYPE_BOUND: u32 = 16;
pub const REGION_BOUND: u32 = 32;
pub const REGION_FREE: u32 = 64;
pub const REGION_ERASED: u32 = 128;
pub const PARAMETERS: u32 = TYPE_PARAMETER | REGION_PARAMETER;
pub const REGIONS: u32 = REGION_BOUND | REGION_FREE | REGION_ERASED;

/// What is cached of a term: its flags, and one more than the greatest index of a binder outside of it that binds a
/// variable in it, or 0.
#[derive(Clone, Copy, Default)]
pub struct Info {
    pub flags: u32,
    pub outer: u32,
}

impl Info {
    pub fn flag(flags: u32) -> Info {
        Info { flags, outer: 0 }
    }

    pub fn with(self, other: Info) -> Info {
        Info { flags: self.flags | other.flags, outer: self.outer.max(other.outer) }
    }

    pub fn under_binder(self) -> Info {
        Info { flags: self.flags, outer: self.outer.saturating_sub(1) }
    }
}

impl Region {
    pub fn info(self) -> Info {
        match self {
            Region::Static => Info::flag(REGION_FREE),
            Region::Erased => Info::flag(REGION_ERASED),
            Region::Variable(_) => Info::flag(REGION_FREE | REGION_VARIABLE),
            Region::Parameter(..) => Info::flag(REGION_FREE | REGION_PARAMETER),
            Region::Bound(index, _) => Info { flags: REGION_BOUND, outer: index + 1 },
        }
    }

    /// Returns the region as two words that no other region has.
    pub fn words(self) -> (u64, u64) {
        match self {
            Region::Static => (0, 0),
            Region::Erased => (1, 0),
            Region::Variable(number) => (2, u64::from(number)),
            Region::Parameter(index, name) => (3, pair(index, name)),
            Region::Bound(index, place) => (4, pair(index, place)),
        }
    }

    /// Returns a region under `depth` binders, where `amount` more are put outside of these.
    pub fn shifted(self, amount: u32, depth: u32) -> Region {
        match self {
            Region::Bound(index, place) if index >= depth => Region::Bound(index + amount, place),
            _ => self,
        }
    }
}

impl Item for Arg {
    fn hashed(self, hash: Hash) -> Hash {
        match self {
            Arg::Type(ty) => hash.and(u64::from(ty)),
            Arg::Region(region) => {
                let (first, second) = region.words();
                hash.and(first | 1 << 32).and(second)
            }
        }
    }
}

impl Kind {
    pub fn hash(self) -> u32 {
        let one = |mark: u64, part: u32| Hash::START.and(mark | u64::from(part) << 32);
        let hash = match self {
            Kind::Bool => one(0, 0),
            Kind::Int(size) => one(1, u32::from(size)),
            Kind::Parameter(index, name) => one(2, index).and(u64::from(name)),
            Kind::Variable(number) => one(3, number),
            Kind::Bound(index, place) => one(4, index).and(u64::from(place)),
            Kind::Slice(ty) => one(5, ty),
            Kind::Pointer(ty, is_mut) => one(6 | u64::from(is_mut) << 8, ty),
            Kind::Reference(region, ty, is_mut) => {
                let (first, second) = region.words();
                one(7 | u64::from(is_mut) << 8 | first << 16, ty).and(second)
            }
            Kind::Tuple(list) => one(8, list),
            Kind::Struct(id, args) => one(9, id).and(u64::from(args)),
            Kind::Function(id, args) => one(10, id).and(u64::from(args)),
            Kind::FunctionPointer(list) => one(11, list),
        };
        hash.done()
    }
}

#[derive(Clone, Copy)]
pub struct TypeRow {
    pub kind: Kind,
    pub info: Info,
}

#[derive(Clone, Copy)]
pub struct Field {
    #[allow(dead_code)]
    pub name: u32,
    pub ty: Type,
}

/// The types, each of them once.
pub struct Types {
    pub rows: Vec<TypeRow>,
    pub numbers: Table,
    pub lists: Lists<Type>,
    pub arg_lists: Lists<Arg>,
    pub structs: Vec<Vec<Field>>,
    pub functions: Vec<TypeList>,
    pub shifts: Notes,
    pub instances: Notes,
    /// The items of the lists that a fold is at.
    pub items: Vec<Type>,
    pub args: Vec<Arg>,
}

impl Types {
    pub fn new() -> Types {
        Types {
            rows: Vec::new(),
            numbers: Table::new(),
            lists: Lists::new(),
            arg_lists: Lists::new(),
            structs: Vec::new(),
            functions: Vec::new(),
            shifts: Notes::new(),
            instances: Notes::new(),
            items: Vec::new(),
            args: Vec::new(),
        }
    }

    pub fn kind(&self, ty: Type) -> Kind {
        self.rows[ty as usize].kind
    }

    pub fn info(&self, ty: Type) -> Info {
        self.rows[ty as usize].info
    }

    /// Returns whether one of the flags is set anywhere in the type.
    pub fn has_flags(&self, ty: Type, flags: u32) -> bool {
        self.info(ty).flags & flags != 0
    }

    pub fn info_of(&self, kind: Kind) -> Info {
        match kind {
            Kind::Bool | Kind::Int(_) => Info::default(),
            Kind::Parameter(..) => Info::flag(TYPE_PARAMETER),
            Kind::Variable(_) => Info::flag(TYPE_VARIABLE),
            Kind::Bound(index, _) => Info { flags: TYPE_BOUND, outer: index + 1 },
            Kind::Slice(ty) | Kind::Pointer(ty, _) => self.info(ty),
            Kind::Reference(region, ty, _) => region.info().with(self.info(ty)),
            Kind::Tuple(list) => self.lists.row(list).info,
            Kind::Struct(_, args) | Kind::Function(_, args) => self.arg_lists.row(args).info,
            Kind::FunctionPointer(list) => self.lists.row(list).info.under_binder(),
        }
    }

    pub fn make(&mut self, kind: Kind) -> Type {
        let hash = kind.hash();
        match self.numbers.find(hash, |row| self.rows[row as usize].kind == kind) {
            Ok(row) => row,
            Err(slot) => {
                let row = self.rows.len() as u32;
                let info = self.info_of(kind);
                self.rows.push(TypeRow { kind, info });
                self.numbers.fill(slot, hash, row);
                row
            }
        }
    }

    pub fn make_list(&mut self, items: &[Type]) -> TypeList {
        let rows = &self.rows;
        self.lists.make(items, |ty| rows[ty as usize].info)
    }

    pub fn make_args(&mut self, items: &[Arg]) -> ArgList {
        let rows = &self.rows;
        self.arg_lists.make(items, |arg| info_of_arg(rows, arg))
    }

    pub fn tuple(&mut self, items: &[Type]) -> Type {
        let list = self.make_list(items);
        self.make(Kind::Tuple(list))
    }

    /// Returns the fields of a struct, with the struct's arguments for its parameters.
    pub fn fields_of(&mut self, ty: Type) -> Vec<Field> {
        let Kind::Struct(id, args) = self.kind(ty) else { return Vec::new() };
        let mut fields = self.structs[id as usize].clone();
        for field in &mut fields {
            field.ty = self.instantiate(field.ty, Stored(args));
        }
        fields
    }

    /// Returns the types of a function's signature, with the function's arguments for its parameters.
    pub fn fn_sig(&mut self, ty: Type) -> Option<TypeList> {
        match self.kind(ty) {
            Kind::Function(id, args) => {
                self.instances.begin();
                Some(self.fold_list(&mut Instance { args: Stored(args) }, self.functions[id as usize], 0))
            }
            Kind::FunctionPointer(list) => Some(list),
            _ => None,
        }
    }
}

pub fn info_of_arg(rows: &[TypeRow], arg: Arg) -> Info {
    match arg {
        Arg::Type(ty) => rows[ty as usize].info,
        Arg::Region(region) => region.info(),
    }
}
