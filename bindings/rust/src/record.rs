//! The record of a most general unifier: fields of a variable and its value.

use std::fmt;

/// A variable of one of the two sides, which are apart though both count from 0.
///
/// ```
/// use azunkefogo::Variable;
///
/// assert_eq!(Variable::Stored(0).to_string(), "x0");
/// assert_eq!(Variable::Question(0).to_string(), "y0");
/// assert!(Variable::Stored(31) < Variable::Question(0));
/// ```
#[derive(Clone, Copy, Debug, PartialEq, Eq, PartialOrd, Ord, Hash)]
pub enum Variable {
    /// A variable of the stored term; 0x8000 + v in the record.
    Stored(u8),
    /// A variable of the question; 0x8000 + 32 + v in the record.
    Question(u8),
}

/// Stored variables are shown as x, the question's as y.
impl fmt::Display for Variable {
    fn fmt(&self, f: &mut fmt::Formatter<'_>) -> fmt::Result {
        match self {
            Variable::Stored(v) => write!(f, "x{v}"),
            Variable::Question(v) => write!(f, "y{v}"),
        }
    }
}

/// One item of a value.
///
/// ```
/// use azunkefogo::{Item, Variable};
///
/// assert_ne!(Item::Symbol(0), Item::Variable(Variable::Stored(0)));
/// ```
#[derive(Clone, Copy, Debug, PartialEq, Eq, Hash)]
pub enum Item {
    /// A symbol, by its number in the signature.
    Symbol(u8),
    /// A variable of either side.
    Variable(Variable),
}

/// The item of two bytes of a record, where a symbol is below 256 and a variable from 0x8000
/// to 0x803F.
fn item(pair: &[u8]) -> Item {
    if pair[0] & 0x80 == 0 {
        return Item::Symbol(pair[1]);
    }
    Item::Variable(variable(pair))
}

fn variable(pair: &[u8]) -> Variable {
    let written = pair[1] % 64;
    match written < 32 {
        true => Variable::Stored(written),
        false => Variable::Question(written - 32),
    }
}

/// One field of a record: a variable and what it stands for, all bindings carried through.
///
/// ```
/// use azunkefogo::{Index, Item, Variable};
///
/// // the stored x0 against the question g(y0)
/// let mut index = Index::open(&[1])?;
/// let slot = index.insert(&[0x80, 0])?;
/// let unifier = index.solve(slot, &[0, 0, 0x80, 0])?;
/// let binding = unifier.bindings().next().unwrap();
/// assert_eq!(binding.variable(), Variable::Stored(0));
/// let value: Vec<Item> = binding.items().collect();
/// assert_eq!(value, [Item::Symbol(0), Item::Variable(Variable::Question(0))]);
/// # Ok::<(), azunkefogo::Refusal>(())
/// ```
#[derive(Clone, Copy, Debug, PartialEq, Eq)]
pub struct Binding<'a> {
    payload: &'a [u8],
}

impl<'a> Binding<'a> {
    /// The variable that is bound.
    ///
    /// ```
    /// # use azunkefogo::{Index, Variable};
    /// # let mut index = Index::open(&[0])?;
    /// # let slot = index.insert(&[0, 0])?;
    /// let unifier = index.solve(slot, &[0x80, 5])?;
    /// assert_eq!(unifier.bindings().next().unwrap().variable(), Variable::Question(5));
    /// # Ok::<(), azunkefogo::Refusal>(())
    /// ```
    pub fn variable(&self) -> Variable {
        variable(&self.payload[..2])
    }

    /// The items of its value, from left to right.
    ///
    /// ```
    /// # use azunkefogo::{Index, Item};
    /// # let mut index = Index::open(&[0])?;
    /// # let slot = index.insert(&[0, 0])?;
    /// let unifier = index.solve(slot, &[0x80, 5])?;
    /// let binding = unifier.bindings().next().unwrap();
    /// assert!(binding.items().eq([Item::Symbol(0)]));
    /// # Ok::<(), azunkefogo::Refusal>(())
    /// ```
    pub fn items(&self) -> impl ExactSizeIterator<Item = Item> + 'a {
        self.payload[2..].chunks_exact(2).map(item)
    }

    /// The bytes of its value, as written.
    ///
    /// ```
    /// # use azunkefogo::Index;
    /// # let mut index = Index::open(&[0])?;
    /// # let slot = index.insert(&[0, 0])?;
    /// let unifier = index.solve(slot, &[0x80, 5])?;
    /// assert_eq!(unifier.bindings().next().unwrap().value(), [0, 0]);
    /// # Ok::<(), azunkefogo::Refusal>(())
    /// ```
    pub fn value(&self) -> &'a [u8] {
        &self.payload[2..]
    }
}

/// The fields of a record, ascending by written number: stored variables first.
///
/// Made by [`Unifier::bindings`] and [`Record::bindings`].
///
/// ```
/// # use azunkefogo::{Bindings, Index};
/// # let mut index = Index::open(&[0])?;
/// # let slot = index.insert(&[0, 0])?;
/// let unifier = index.solve(slot, &[0, 0])?;
/// let mut bindings: Bindings = unifier.bindings();
/// assert!(bindings.next().is_none());
/// # Ok::<(), azunkefogo::Refusal>(())
/// ```
#[derive(Clone, Debug)]
pub struct Bindings<'a> {
    rest: &'a [u8],
}

impl<'a> Iterator for Bindings<'a> {
    type Item = Binding<'a>;

    fn next(&mut self) -> Option<Binding<'a>> {
        // tag, length high and low, then the variable and its value
        let length = u16::from_be_bytes([*self.rest.get(1)?, *self.rest.get(2)?]);
        let end = 3 + usize::from(length);
        let payload = self.rest.get(3..end)?;
        self.rest = &self.rest[end..];
        Some(Binding { payload })
    }
}

/// A record as it stands in a caller's buffer.
///
/// ```
/// use azunkefogo::Index;
///
/// let mut index = Index::open(&[0])?;
/// let slot = index.insert(&[0x80, 0])?;
/// let mut buffer = [0; 64];
/// let record = index.solve_into(slot, &[0x80, 0], &mut buffer)?;
/// assert_eq!(record.bytes(), [0x10, 0, 4, 0x80, 0x20, 0x80, 0]);
/// # Ok::<(), azunkefogo::Refusal>(())
/// ```
#[derive(Clone, Copy, Debug, PartialEq, Eq)]
pub struct Record<'a> {
    fields: usize,
    bytes: &'a [u8],
}

impl<'a> Record<'a> {
    pub(crate) fn new(fields: usize, bytes: &'a [u8]) -> Record<'a> {
        Record { fields, bytes }
    }

    /// How many fields there are.
    ///
    /// ```
    /// # let mut index = azunkefogo::Index::open(&[0])?;
    /// # let slot = index.insert(&[0, 0])?;
    /// assert_eq!(index.solve_into(slot, &[0, 0], &mut [])?.fields(), 0);
    /// # Ok::<(), azunkefogo::Refusal>(())
    /// ```
    pub fn fields(&self) -> usize {
        self.fields
    }

    /// The record's bytes.
    ///
    /// ```
    /// # let mut index = azunkefogo::Index::open(&[0])?;
    /// # let slot = index.insert(&[0, 0])?;
    /// assert!(index.solve_into(slot, &[0, 0], &mut [])?.bytes().is_empty());
    /// # Ok::<(), azunkefogo::Refusal>(())
    /// ```
    pub fn bytes(&self) -> &'a [u8] {
        self.bytes
    }

    /// The record's fields.
    ///
    /// ```
    /// # let mut index = azunkefogo::Index::open(&[0])?;
    /// # let slot = index.insert(&[0, 0])?;
    /// let mut buffer = [0; 64];
    /// let record = index.solve_into(slot, &[0x80, 1], &mut buffer)?;
    /// assert_eq!(record.bindings().count(), record.fields());
    /// # Ok::<(), azunkefogo::Refusal>(())
    /// ```
    pub fn bindings(&self) -> Bindings<'a> {
        Bindings { rest: self.bytes }
    }
}

/// A most general unifier, with its record.
///
/// ```
/// use azunkefogo::{Index, Variable};
///
/// // the stored f(a, x0) against the question f(y0, b)
/// let mut index = Index::open(&[0, 0, 2])?;
/// let slot = index.insert(&[0, 2, 0, 0, 0x80, 0])?;
/// let unifier = index.solve(slot, &[0, 2, 0x80, 0, 0, 1])?;
/// let bound: Vec<Variable> = unifier.bindings().map(|b| b.variable()).collect();
/// assert_eq!(bound, [Variable::Stored(0), Variable::Question(0)]);
/// # Ok::<(), azunkefogo::Refusal>(())
/// ```
#[derive(Clone, Debug, PartialEq, Eq)]
pub struct Unifier {
    fields: usize,
    bytes: Vec<u8>,
}

impl Unifier {
    pub(crate) fn new(record: Record<'_>) -> Unifier {
        Unifier {
            fields: record.fields,
            bytes: record.bytes.to_vec(),
        }
    }

    /// How many variables are bound.
    ///
    /// ```
    /// # let mut index = azunkefogo::Index::open(&[0])?;
    /// # let slot = index.insert(&[0, 0])?;
    /// assert_eq!(index.solve(slot, &[0x80, 0])?.fields(), 1);
    /// # Ok::<(), azunkefogo::Refusal>(())
    /// ```
    pub fn fields(&self) -> usize {
        self.fields
    }

    /// The record's bytes.
    ///
    /// ```
    /// # let mut index = azunkefogo::Index::open(&[0])?;
    /// # let slot = index.insert(&[0, 0])?;
    /// let unifier = index.solve(slot, &[0x80, 0])?;
    /// assert_eq!(unifier.bytes(), [0x10, 0, 4, 0x80, 0x20, 0, 0]);
    /// # Ok::<(), azunkefogo::Refusal>(())
    /// ```
    pub fn bytes(&self) -> &[u8] {
        &self.bytes
    }

    /// The variables that are bound, each with its value.
    ///
    /// ```
    /// # let mut index = azunkefogo::Index::open(&[0])?;
    /// # let slot = index.insert(&[0, 0])?;
    /// for binding in index.solve(slot, &[0x80, 0])?.bindings() {
    ///     assert_eq!(binding.variable().to_string(), "y0");
    /// }
    /// # Ok::<(), azunkefogo::Refusal>(())
    /// ```
    pub fn bindings(&self) -> Bindings<'_> {
        Bindings { rest: &self.bytes }
    }
}
