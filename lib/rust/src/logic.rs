//! Variables, literals, clauses and the three values, with the names of the crate logicrs and those of its functions that are needed.

use std::ops::{BitAnd, Not};

/// A variable, by its number, which is below 2^31.
#[derive(Debug, Clone, Copy, PartialEq, Eq, PartialOrd, Ord, Hash)]
pub struct Var(u32);

impl Var {
    /// Returns the variable of a number.
    ///
    /// # Panics
    ///
    /// If the number is 2^31 or more.
    pub fn new(n: usize) -> Self {
        assert!(n < 1 << 31, "variable {n} is below 2^31");
        Var(n as u32)
    }

    /// Returns the literal that is the variable itself.
    pub fn lit(self) -> Lit {
        Lit::new(self, true)
    }
}

impl From<usize> for Var {
    fn from(n: usize) -> Self {
        Var::new(n)
    }
}

impl From<Var> for usize {
    fn from(var: Var) -> usize {
        var.0 as usize
    }
}

/// A variable or its inverse, as one number: twice the number of the variable, plus 1 if it is inverted.
#[derive(Debug, Clone, Copy, PartialEq, Eq, PartialOrd, Ord, Hash)]
pub struct Lit(u32);

impl Lit {
    /// Returns the literal of a variable, inverted unless `polarity` is true.
    pub fn new(var: Var, polarity: bool) -> Self {
        Lit(2 * var.0 + u32::from(!polarity))
    }

    /// Returns its variable.
    pub fn var(&self) -> Var {
        Var(self.0 / 2)
    }

    /// Returns whether it isn't inverted.
    pub fn polarity(&self) -> bool {
        self.0 % 2 == 0
    }
}

impl Not for Lit {
    type Output = Lit;

    fn not(self) -> Lit {
        Lit(self.0 ^ 1)
    }
}

impl From<Lit> for u32 {
    fn from(lit: Lit) -> u32 {
        lit.0
    }
}

impl From<u32> for Lit {
    fn from(number: u32) -> Self {
        Lit(number)
    }
}

/// A value: false, true or unknown, which is the default.
#[derive(Clone, Copy, PartialEq, Eq, Debug)]
pub struct Lbool(u8);

impl Lbool {
    /// False.
    pub const FALSE: Lbool = Lbool(0);
    /// True.
    pub const TRUE: Lbool = Lbool(1);
    /// Unknown.
    pub const NONE: Lbool = Lbool(2);

    /// Returns the numbers of values in aig.h.
    pub(crate) fn numbers(values: &[Lbool]) -> Vec<u8> {
        values.iter().map(|value| value.0).collect()
    }

    /// Returns the values for numbers of aig.h.
    pub(crate) fn values(numbers: Vec<u8>) -> Vec<Lbool> {
        numbers.into_iter().map(Lbool).collect()
    }

    /// Returns the inverse if `x` is true, and the value itself otherwise. The inverse of unknown is unknown.
    pub fn not_if(self, x: bool) -> Self {
        if x && self != Lbool::NONE { Lbool(1 - self.0) } else { self }
    }
}

impl Default for Lbool {
    fn default() -> Self {
        Lbool::NONE
    }
}

impl From<bool> for Lbool {
    fn from(value: bool) -> Self {
        Lbool(u8::from(value))
    }
}

impl Not for Lbool {
    type Output = Lbool;

    fn not(self) -> Lbool {
        self.not_if(true)
    }
}

impl BitAnd for Lbool {
    type Output = Lbool;

    fn bitand(self, other: Lbool) -> Lbool {
        match (self, other) {
            (Lbool::FALSE, _) | (_, Lbool::FALSE) => Lbool::FALSE,
            (Lbool::TRUE, Lbool::TRUE) => Lbool::TRUE,
            _ => Lbool::NONE,
        }
    }
}

/// A list of clauses.
#[derive(Debug, Clone, Default, PartialEq, Eq)]
pub struct LitVvec {
    literals: Vec<Lit>,
    ends: Vec<usize>,
}

impl LitVvec {
    /// Returns an empty list of clauses.
    pub fn new() -> Self {
        LitVvec::default()
    }

    /// Appends one clause, which may be empty.
    pub fn push(&mut self, clause: &[Lit]) {
        self.literals.extend_from_slice(clause);
        self.ends.push(self.literals.len());
    }

    /// Returns the number of clauses.
    pub fn len(&self) -> usize {
        self.ends.len()
    }

    /// Returns whether the list is empty.
    pub fn is_empty(&self) -> bool {
        self.ends.is_empty()
    }

    /// Returns the clauses in order.
    pub fn iter(&self) -> impl Iterator<Item = &[Lit]> {
        let starts = std::iter::once(&0).chain(&self.ends);
        starts.zip(&self.ends).map(|(start, end)| &self.literals[*start..*end])
    }
}

/// A list of clauses for each variable. Variables are numbered from 0, and variable 0 has a clause which states that it is false.
#[derive(Debug, Clone, PartialEq, Eq)]
pub struct DagCnf {
    lists: Vec<LitVvec>,
}

impl DagCnf {
    /// Returns the clauses of the first variables, from DIMACS numbers with a 0 after each clause. A clause belongs to the greatest of
    /// its variables, which it defines.
    pub(crate) fn of(variables: usize, numbers: &[i32]) -> Self {
        let mut lists = vec![LitVvec::new(); variables];
        for clause in numbers.split(|number| *number == 0).filter(|clause| !clause.is_empty()) {
            let literals: Vec<Lit> = clause.iter().map(|number| Lit::new(Var(number.unsigned_abs() - 1), *number > 0)).collect();
            let defined = literals.iter().map(Lit::var).max().unwrap_or(Var(0));
            lists[usize::from(defined)].push(&literals);
        }
        DagCnf { lists }
    }

    /// Returns the number of variables.
    pub fn num_vars(&self) -> usize {
        self.lists.len()
    }

    /// Returns the number of clauses in all lists together.
    pub fn num_clauses(&self) -> usize {
        self.lists.iter().map(LitVvec::len).sum()
    }

    /// Returns the clauses of a variable, or an empty list if the variable doesn't exist.
    pub fn clauses_of(&self, var: Var) -> impl Iterator<Item = &[Lit]> {
        self.lists.get(usize::from(var)).into_iter().flat_map(LitVvec::iter)
    }

    /// Returns all clauses, those of variable 0 first.
    pub fn iter(&self) -> impl Iterator<Item = &[Lit]> {
        self.lists.iter().flat_map(LitVvec::iter)
    }
}

/// A map from variables to variables.
#[derive(Debug, Clone, Default, PartialEq, Eq)]
pub struct VarVMap(std::collections::HashMap<Var, Var>);

impl VarVMap {
    /// Returns an empty map.
    pub fn new() -> Self {
        VarVMap::default()
    }

    /// Maps a variable to a variable, and returns the one that it was mapped to before, if any.
    pub fn insert(&mut self, k: Var, v: Var) -> Option<Var> {
        self.0.insert(k, v)
    }

    /// Returns the variable that a variable is mapped to, if any.
    pub fn get(&self, k: Var) -> Option<Var> {
        self.0.get(&k).copied()
    }

    /// Returns the number of variables that are mapped.
    pub fn len(&self) -> usize {
        self.0.len()
    }

    /// Returns whether no variable is mapped.
    pub fn is_empty(&self) -> bool {
        self.0.is_empty()
    }
}
