//! Reading a file and checking it on the way.

use super::mentions::mentions;
use super::scoping::{scope_flags, symbol_flags, Scoping};
use super::tag::{self, Tags};
use super::tree::{kind, line_form, Mark, Node, NodeId, Nodes};
use super::Refusal;

const MAX_FILE: usize = 65_535;
const MAX_DEPTH: usize = 64;

#[derive(Clone, Copy)]
pub struct Settings {
    pub mode: u16,
    pub module: u16,
}

pub mod mode {
    pub const RUNTIME: u16 = 0;
    pub const INLINE: u16 = 2;
}

/// A file that was read.
pub struct Tree {
    pub settings: Settings,
    pub scoping: Scoping,
    pub nodes: Nodes,
    /// Whether some `for (using .. of ..)` was read.
    pub has_for_of_using: bool,
}

/// What a record is to its parent. It decides which tags may stand there, and more.
#[derive(Clone, Copy, PartialEq, Eq)]
enum Place {
    Program,
    ProgramItem,
    ListItem,
    Statement,
    Expression,
    SwitchExpression,
    PlainChild,
    ForInit,
    ForOfLeft,
    Declarator,
    ForOfDeclarator,
    Name,
    Case,
    TryPart,
    Catch,
    Body,
    ClassElement,
    Specifier,
    DefaultExport,
    ExportedDeclaration,
}

impl Place {
    fn tags(self) -> Tags {
        const FOR_FIRST: Tags = tag::EXPRESSIONS | tag::tags(&[tag::DECLARATION]);
        const CLASS_ELEMENT: Tags = tag::EXPRESSIONS | tag::tags(&[tag::STATIC_BLOCK]);
        const EXPORTED: Tags = tag::tags(&[tag::FUNCTION, tag::CLASS, tag::DECLARATION]);
        match self {
            Place::Program => tag::tags(&[tag::PROGRAM]),
            Place::ProgramItem => tag::PROGRAM_ITEMS,
            Place::ListItem => tag::LIST_ITEMS,
            Place::Statement => tag::STATEMENTS,
            Place::Expression | Place::SwitchExpression | Place::DefaultExport => tag::EXPRESSIONS,
            Place::PlainChild => tag::STATEMENTS | tag::EXPRESSIONS,
            Place::ForInit | Place::ForOfLeft => FOR_FIRST,
            Place::Declarator | Place::ForOfDeclarator => tag::tags(&[tag::DECLARATOR]),
            Place::Name => tag::tags(&[tag::NAME]),
            Place::Case => tag::tags(&[tag::CASE]),
            Place::TryPart => tag::tags(&[tag::BLOCK]),
            Place::Catch => tag::tags(&[tag::CATCH]),
            Place::Body => tag::tags(&[tag::BODY]),
            Place::ClassElement => CLASS_ELEMENT,
            Place::Specifier => tag::tags(&[tag::SPECIFIER]),
            Place::ExportedDeclaration => EXPORTED,
        }
    }

    /// Whether a function or class of this form may stand here.
    fn takes_form(self, form: u16) -> bool {
        match self {
            Place::PlainChild | Place::DefaultExport => form <= 1,
            Place::ProgramItem
            | Place::ListItem
            | Place::Statement
            | Place::ExportedDeclaration => form == 0,
            Place::SwitchExpression => false,
            _ => form == 1,
        }
    }

    /// The place of the expressions in an expression that stands here.
    fn of_operand(self) -> Place {
        match self {
            Place::SwitchExpression => Place::SwitchExpression,
            _ => Place::Expression,
        }
    }
}

struct Field {
    at: usize,
    tag: u8,
    numbers: [u16; 5],
}

impl Field {
    /// The numbers of a record, which has at most four.
    fn of_record(&self) -> [u16; 4] {
        let [a, b, c, d, _] = self.numbers;
        [a, b, c, d]
    }
}

struct Parser<'f> {
    file: &'f [u8],
    at: usize,
    scoping: Scoping,
    /// For each scope row whether a record has named it.
    named: Vec<bool>,
    /// For each symbol row how often records are said to name it.
    counts: Vec<u16>,
    nodes: Nodes,
    has_for_of_using: bool,
}

/// The children read so far of one record, and where they stand.
struct Family {
    parent: NodeId,
    last: NodeId,
    scope: u16,
    depth: usize,
}

pub fn parse(file: &[u8]) -> Result<Tree, Refusal> {
    if file.len() > MAX_FILE {
        return Err(Refusal {
            number: 1,
            place: MAX_FILE,
        });
    }
    let mut parser = Parser {
        file,
        at: 0,
        scoping: Scoping::default(),
        named: Vec::new(),
        counts: Vec::new(),
        nodes: Nodes::with_capacity(file.len() / 7),
        has_for_of_using: false,
    };
    let settings = parser.settings()?;
    let program = parser.rows()?;
    parser.named = vec![false; parser.scoping.scope_count() + 1];
    parser.record(&program, Place::Program, 0, 1)?;
    if parser.at < file.len() {
        return Err(Refusal {
            number: 7,
            place: parser.at,
        });
    }
    parser.all_rows_named()?;
    parser.all_counts_true()?;
    let Parser {
        scoping,
        nodes,
        has_for_of_using,
        ..
    } = parser;
    Ok(Tree {
        settings,
        scoping,
        nodes,
        has_for_of_using,
    })
}

impl Parser<'_> {
    #[inline(always)]
    fn field(&mut self, allowed: Tags) -> Result<Field, Refusal> {
        let at = self.at;
        let refuse = |number| Err(Refusal { number, place: at });
        let [tag, high, low, payload @ ..] = &self.file[at..] else {
            return refuse(2);
        };
        if !tag::holds(allowed, *tag) {
            return refuse(3);
        }
        let count = tag::count(*tag);
        let length = usize::from(u16::from_be_bytes([*high, *low]));
        if length != 2 * count {
            return refuse(4);
        }
        if payload.len() < length {
            return refuse(2);
        }
        let numbers = match payload.first_chunk() {
            Some(ten) => numbers(ten, count),
            // Near the end of the file.
            None => {
                let mut ten = [0; 10];
                ten[..payload.len()].copy_from_slice(payload);
                numbers(&ten, count)
            }
        };
        self.at = at + 3 + length;
        Ok(Field {
            at,
            tag: *tag,
            numbers,
        })
    }

    fn settings(&mut self) -> Result<Settings, Refusal> {
        let field = self.field(tag::tags(&[tag::SETTINGS]))?;
        let [mode, module, ..] = field.numbers;
        keep(mode <= 2 && module <= 1, &field)?;
        Ok(Settings { mode, module })
    }

    /// The scope and symbol rows; hands back the field after them, the program's.
    fn rows(&mut self) -> Result<Field, Refusal> {
        let mut allowed = tag::tags(&[tag::SCOPE]);
        loop {
            let field = self.field(allowed)?;
            match field.tag {
                tag::SCOPE => {
                    self.scope_row(&field)?;
                    allowed = tag::tags(&[tag::SCOPE, tag::SYMBOL, tag::PROGRAM]);
                }
                tag::SYMBOL => {
                    self.symbol_row(&field)?;
                    allowed = tag::tags(&[tag::SYMBOL, tag::PROGRAM]);
                }
                _ => return Ok(field),
            }
        }
    }

    fn scope_row(&mut self, field: &Field) -> Result<(), Refusal> {
        let [parent, flags, ..] = field.numbers;
        let is_root = self.scoping.scope_count() == 0;
        keep((parent == 0) == is_root && flags <= scope_flags::ALL, field)?;
        self.scoping.add_scope(parent, flags);
        Ok(())
    }

    fn symbol_row(&mut self, field: &Field) -> Result<(), Refusal> {
        let [name, flags, scope, made, count] = field.numbers;
        let in_scope = (1..=self.scoping.scope_count()).contains(&usize::from(scope));
        keep(
            name >= 1 && flags <= symbol_flags::ALL && in_scope && made <= 1,
            field,
        )?;
        self.scoping.create_symbol(name, flags, scope, made);
        self.counts.push(count);
        Ok(())
    }

    fn all_rows_named(&self) -> Result<(), Refusal> {
        match (1..self.named.len()).find(|&row| !self.named[row]) {
            Some(row) => {
                let place = tag::size(tag::SETTINGS) + (row - 1) * tag::size(tag::SCOPE);
                Err(Refusal { number: 5, place })
            }
            None => Ok(()),
        }
    }

    /// The first row whose count is not that of the tree is refused.
    fn all_counts_true(&self) -> Result<(), Refusal> {
        let counts = mentions(&self.nodes, self.counts.len());
        match (0..counts.len()).find(|&at| counts[at] != self.counts[at]) {
            Some(at) => {
                let scopes = self.scoping.scope_count() * tag::size(tag::SCOPE);
                let place = tag::size(tag::SETTINGS) + scopes + at * tag::size(tag::SYMBOL);
                Err(Refusal { number: 5, place })
            }
            None => Ok(()),
        }
    }

    /// A record whose field is read, with all its children. `scope` is that of the nearest record
    /// around it that has one.
    fn record(
        &mut self,
        field: &Field,
        place: Place,
        scope: u16,
        depth: usize,
    ) -> Result<NodeId, Refusal> {
        keep(self.fits(field, place), field)?;
        let scope = match tag::scope_at(field.tag).map(|at| field.numbers[at]) {
            Some(named) if named != 0 || field.tag != tag::PLAIN => {
                keep(self.name_scope(named, scope), field)?;
                named
            }
            _ => scope,
        };
        let mark = if place == Place::TryPart {
            Mark::TryPart
        } else {
            Mark::Nothing
        };
        let parent = self.nodes.push(Node {
            mark,
            ..Node::new(field.tag, field.of_record())
        });
        let mut family = Family {
            parent,
            last: NodeId::NONE,
            scope,
            depth: depth + 1,
        };
        self.children(&mut family, field, place)?;
        Ok(parent)
    }

    /// Whether the numbers of a record fit its tag and its place, its scope apart.
    fn fits(&self, field: &Field, place: Place) -> bool {
        let [a, b, c, d] = field.of_record();
        match field.tag {
            tag::LABEL => b == 1,
            tag::DECLARATION => {
                a <= kind::AWAIT_USING && b >= 1 && (place != Place::ForOfLeft || b == 1)
            }
            tag::DECLARATOR => {
                let may_have_init = place != Place::ForOfDeclarator;
                (a != 0 || b == 1) && (c == b || (may_have_init && c.checked_sub(1) == Some(b)))
            }
            tag::FOR => b == 3,
            tag::FOR_OF => b <= 1 && c == 3,
            tag::SWITCH => b >= 1,
            tag::CASE => a <= 1 && b >= a,
            tag::TRY => matches!((a, b), (1 | 2, 2) | (3, 3)),
            tag::CATCH => d.checked_sub(1) == Some(b),
            tag::FUNCTION => place.takes_form(a) && self.is_symbol_or_0(c) && d == 2,
            tag::CLASS => {
                let may_lack_symbol = a == 1 || place == Place::DefaultExport;
                place.takes_form(a) && self.is_symbol_or_0(c) && (c != 0 || may_lack_symbol)
            }
            tag::MODULE_LINE => a <= 3 || (a == line_form::IMPORT_HELPER && c == 1),
            tag::DEFAULT_EXPORT | tag::EXPORTED_DECLARATION => a == 1,
            tag::SPECIFIER => self.is_symbol(a) && b >= 1,
            tag::READ | tag::NAME => self.is_symbol(a),
            tag::CALL => a <= 1 && self.is_symbol(b) && c == 1,
            tag::LOAD => a <= 1 && self.is_symbol_or_0(b),
            tag::STEP => a <= 2 && self.is_symbol(b) && self.is_symbol_or_0(c),
            _ => true,
        }
    }

    fn is_symbol(&self, row: u16) -> bool {
        row != 0 && self.is_symbol_or_0(row)
    }

    fn is_symbol_or_0(&self, row: u16) -> bool {
        usize::from(row) <= self.scoping.symbol_count()
    }

    /// Notes that a record names a scope row; false if it may not.
    fn name_scope(&mut self, row: u16, enclosing: u16) -> bool {
        let Some(named @ false) = self.named.get_mut(usize::from(row)) else {
            return false;
        };
        *named = true;
        row != 0 && self.scoping.scope(row).parent == enclosing
    }

    fn children(
        &mut self,
        family: &mut Family,
        field: &Field,
        place: Place,
    ) -> Result<(), Refusal> {
        let [a, b, ..] = field.numbers;
        let n = field.numbers[tag::count(field.tag) - 1];
        match field.tag {
            tag::PROGRAM => self.some(family, n, Place::ProgramItem),
            tag::BLOCK | tag::BODY | tag::STATIC_BLOCK => self.some(family, n, Place::ListItem),
            tag::PLAIN => self.some(family, n, Place::PlainChild),
            tag::LABEL => self.one(family, Place::Statement),
            tag::DECLARATION if place == Place::ForOfLeft => {
                self.has_for_of_using |= a >= kind::USING;
                self.one(family, Place::ForOfDeclarator)
            }
            tag::DECLARATION => self.some(family, n, Place::Declarator),
            tag::DECLARATOR => {
                self.some(family, b, Place::Name)?;
                self.some(family, n - b, Place::Expression)
            }
            tag::FOR => self.loop_parts(family, Place::ForInit),
            tag::FOR_OF => self.loop_parts(family, Place::ForOfLeft),
            tag::SWITCH => {
                self.one(family, Place::SwitchExpression)?;
                self.some(family, n - 1, Place::Case)
            }
            tag::CASE => {
                self.some(family, a, Place::Expression)?;
                self.some(family, n - a, Place::ListItem)
            }
            tag::TRY => self.try_parts(family, a),
            tag::CATCH => {
                self.some(family, b, Place::Name)?;
                self.one(family, Place::TryPart)
            }
            tag::FUNCTION => {
                self.one(family, Place::Expression)?;
                self.one(family, Place::Body)
            }
            tag::CLASS => self.some(family, n, Place::ClassElement),
            tag::MODULE_LINE => self.some(family, n, Place::Specifier),
            tag::DEFAULT_EXPORT => self.one(family, Place::DefaultExport),
            tag::EXPORTED_DECLARATION => self.one(family, Place::ExportedDeclaration),
            tag::EXPRESSION | tag::CALL => self.some(family, n, place.of_operand()),
            _ => Ok(()),
        }
    }

    fn loop_parts(&mut self, family: &mut Family, first: Place) -> Result<(), Refusal> {
        self.one(family, first)?;
        self.one(family, Place::Expression)?;
        self.one(family, Place::Statement)
    }

    fn try_parts(&mut self, family: &mut Family, parts: u16) -> Result<(), Refusal> {
        self.one(family, Place::TryPart)?;
        if parts & 1 != 0 {
            self.one(family, Place::Catch)?;
        }
        if parts & 2 != 0 {
            self.one(family, Place::TryPart)?;
        }
        Ok(())
    }

    fn some(&mut self, family: &mut Family, count: u16, place: Place) -> Result<(), Refusal> {
        (0..count).try_for_each(|_| self.one(family, place))
    }

    /// Depth comes right after the three bytes of a head, whatever they say.
    fn within_depth(&self, depth: usize) -> Result<(), Refusal> {
        if depth <= MAX_DEPTH {
            return Ok(());
        }
        let has_head = self.file.len() >= self.at + 3;
        Err(Refusal {
            number: if has_head { 6 } else { 2 },
            place: self.at,
        })
    }

    fn one(&mut self, family: &mut Family, place: Place) -> Result<(), Refusal> {
        self.within_depth(family.depth)?;
        let field = self.field(place.tags())?;
        let child = self.record(&field, place, family.scope, family.depth)?;
        if family.last.is_none() {
            self.nodes[family.parent].first = child;
        } else {
            self.nodes[family.last].next = child;
        }
        family.last = child;
        Ok(())
    }
}

/// The first numbers in these bytes, so many, and 0 for the rest.
#[inline(always)]
fn numbers(bytes: &[u8; 10], count: usize) -> [u16; 5] {
    const MASKS: [[u16; 5]; 6] = {
        let all = u16::MAX;
        [
            [0; 5],
            [all, 0, 0, 0, 0],
            [all, all, 0, 0, 0],
            [all, all, all, 0, 0],
            [all, all, all, all, 0],
            [all; 5],
        ]
    };
    let mask = &MASKS[count];
    let number = |at: usize| u16::from_be_bytes([bytes[2 * at], bytes[2 * at + 1]]) & mask[at];
    [number(0), number(1), number(2), number(3), number(4)]
}

/// Refusal 5 at this field unless its numbers are as they should be.
fn keep(fits: bool, field: &Field) -> Result<(), Refusal> {
    if fits {
        Ok(())
    } else {
        Err(Refusal {
            number: 5,
            place: field.at,
        })
    }
}
