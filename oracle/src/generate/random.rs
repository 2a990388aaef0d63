//! Random trees. A tree is written straight through, so what is counted ahead
//! (lists) is decided ahead; a budget of nodes keeps it from growing.

use super::dice::Dice;
use super::form::{self, list, names, num, ok, sized, Bytes};
use crate::cat;

/// What a random tree is to be about.
#[derive(Clone, Copy, PartialEq, Eq, Debug)]
pub enum Style {
    /// Everything, over few names.
    Wild,
    /// Functions full of gotos, labels, locals and uses.
    Flow,
    /// The same, with declarations and labels as branches of an If.
    Bare,
    /// Constants and structures that hold one another.
    Holders,
}

pub const STYLES: [Style; 4] = [Style::Wild, Style::Flow, Style::Bare, Style::Holders];

/// A tree of about so many nodes.
pub fn tree(dice: &mut Dice, style: Style, nodes: usize) -> Bytes {
    let mut maker = Maker {
        mixed: style == Style::Wild || dice.chance(15),
        poisons: dice.pick(&[0, 0, 3, 10]),
        dice,
        style,
        out: Bytes::new(),
        place: 0,
        budget: nodes,
        names: 0,
    };
    maker.tree();
    maker.out
}

pub struct Maker<'a> {
    pub dice: &'a mut Dice,
    pub style: Style,
    out: Bytes,
    place: u32,
    budget: usize,
    names: u32,
    /// Any name anywhere, instead of one for its role.
    mixed: bool,
    /// Percent of poisons where one may stand.
    poisons: usize,
}

/// What a name is for; outside of `mixed` each role has its own few names.
#[derive(Clone, Copy)]
pub enum Role {
    Variable,
    Label,
    Function,
    Container,
    Member,
}

const FLOW: [&[u8]; 6] = [b"f", b"x", b"y", b"l", b"m", b"A"];
const HOLDERS: [&[u8]; 7] = [b"A", b"B", b"C", b"D", b"a", b"b", b"main"];

/// Few and easily confused; some are no text.
const POOL: [&[u8]; 12] = [
    b"a",
    b"b",
    b"x",
    b"l",
    b"main",
    b"mains",
    b"Main",
    b"mai",
    &[0],
    &[0xFF],
    &[0xC3, 0x28],
    b"(return value of 'main')",
];

impl Maker<'_> {
    /// What `write` writes, apart from the rest.
    pub fn apart(&mut self, write: impl FnOnce(&mut Self)) -> Bytes {
        let before = std::mem::take(&mut self.out);
        write(self);
        std::mem::replace(&mut self.out, before)
    }

    fn n(&mut self, value: u32) {
        self.out.extend(num(value));
    }

    pub fn left(&self) -> usize {
        self.budget
    }

    pub fn spend(&mut self) -> bool {
        self.budget = self.budget.saturating_sub(1);
        self.budget > 0
    }

    pub fn place(&mut self) {
        self.place += 1;
        let value = match self.dice.below(60) {
            0 => self.opaque(),
            _ => self.place,
        };
        self.n(value);
    }

    fn places(&mut self) {
        self.place();
        self.place();
    }

    fn opaque(&mut self) -> u32 {
        let any = self.dice.next() as u32;
        self.dice.pick(&[0, 0, 1, 2, 3, 127, 128, 16_383, 16_384, 1 << 21, 1 << 28, u32::MAX, any])
    }

    pub fn chosen(&mut self, role: Role) -> u32 {
        let any = self.dice.below(self.names as usize) as u32;
        let holders = self.style == Style::Holders;
        match role {
            _ if self.mixed || self.dice.chance(3) => any,
            // A function, a structure or constant that nobody declares is among them.
            Role::Function if holders => self.dice.pick(&[6, 0]),
            Role::Variable if holders => self.dice.pick(&[4, 5, 0]),
            Role::Label if holders => self.dice.pick(&[4, 5]),
            Role::Container if holders => self.dice.pick(&[0, 0, 0, 1, 1, 1, 2, 2, 3]),
            Role::Member if holders => self.dice.pick(&[4, 4, 4, 5, 5, 0]),
            Role::Function => self.dice.pick(&[0, 0, 0, 5]),
            Role::Variable => self.dice.pick(&[1, 1, 1, 2]),
            Role::Label => self.dice.pick(&[3, 3, 4]),
            Role::Container => self.dice.pick(&[5, 5, 5, 1]),
            Role::Member => self.dice.pick(&[1, 2]),
        }
    }

    fn name(&mut self, role: Role) {
        let number = self.chosen(role);
        self.n(number);
    }

    fn identifier(&mut self, role: Role) {
        let name = self.chosen(role);
        self.identifier_of(name);
    }

    pub fn identifier_of(&mut self, name: u32) {
        self.n(name);
        self.place();
        let id = self.dice.pick(&[0, 0, 0, 0, 1, 2, 3, 200, u32::MAX]);
        self.n(id);
        let authority = self.dice.below(2) as u32;
        self.n(authority);
    }

    fn poison(&mut self) {
        let kind = self.dice.below(18);
        self.n(kind as u32);
        // Names and places by kind.
        let (names, places) = match kind {
            0 => (0, 0),
            2 | 9 | 10 | 11 | 14 => (1, 1),
            13 => (2, 4),
            16 => (2, 3),
            17 => (0, 1),
            _ => (1, 2),
        };
        (0..names).for_each(|_| self.name(Role::Variable));
        (0..places).for_each(|_| self.place());
    }

    fn count(&mut self, most: usize) -> usize {
        let count = if self.spend() { self.dice.below(most + 1) } else { 0 };
        self.n(count as u32);
        count
    }

    fn option(&mut self, percent: usize) -> bool {
        let some = self.budget > 0 && self.dice.chance(percent);
        self.n(some as u32);
        some
    }

    /// True where the good part is still to be written.
    fn maybe(&mut self) -> bool {
        let poison = self.dice.chance(self.poisons);
        self.n(poison as u32);
        if poison {
            self.poison();
        }
        !poison
    }

    fn carried(&mut self) {
        if self.option(12) && self.maybe() {
            self.value_type(false);
        }
    }

    /// `own`: where kind 23 would be refused.
    fn value_type(&mut self, own: bool) {
        let holders = if self.style == Style::Holders { 3 } else { 1 };
        let deep = if self.spend() { holders } else { 0 };
        let nameless = if own { self.dice.chance(8) as usize } else { 2 };
        let weights = [
            24,
            4 * deep,
            6 * deep,
            5 * deep,
            6 * holders,
            2 * holders,
            6 * holders,
            nameless,
            6 * deep,
        ];
        match self.dice.weighted(&weights) {
            0 => {
                let plain = self.dice.below(14) as u32;
                self.n(plain);
            }
            1 => {
                self.n(14);
                self.value_type(own);
                let length = self.opaque();
                self.n(length);
            }
            2 => {
                self.n(15);
                self.value_type(own);
                self.identifier(Role::Container);
            }
            3 => {
                let kind = self.dice.between(16, 19) as u32;
                self.n(kind);
                self.value_type(own);
            }
            4 => {
                self.n(20);
                self.identifier(Role::Container);
            }
            5 => {
                self.n(21);
                self.identifier(Role::Container);
                let size = self.opaque();
                self.n(size);
            }
            6 => {
                self.n(22);
                self.identifier(Role::Container);
            }
            7 => self.n(23),
            _ => {
                let kind = self.dice.between(24, 25) as u32;
                self.n(kind);
                self.value_type(false);
            }
        }
    }

    fn reference(&mut self, role: Role) {
        let depth = self.dice.pick(&[0, 0, 0, 1, 255]);
        self.n(depth);
        self.places();
        if self.maybe() {
            self.identifier(role);
        }
        let steps = if self.dice.chance(80) { 0 } else { self.dice.between(1, 2) };
        self.n(steps as u32);
        for _ in 0..steps {
            if self.dice.chance(60) {
                self.n(0);
                let endless = self.dice.below(3) as u32;
                self.n(endless);
                self.expression(role);
            } else {
                self.n(1);
                self.identifier(Role::Member);
                let offset = self.opaque();
                self.n(offset);
            }
        }
    }

    fn expressions(&mut self, most: usize, role: Role) {
        for _ in 0..self.count(most) {
            self.expression(role);
        }
    }

    /// `role`: what its uses name.
    fn expression(&mut self, role: Role) {
        let deep = self.spend() as usize;
        let types = if self.style == Style::Holders { 8 } else { 1 };
        let weights = [
            30,
            5,
            3 * deep,
            2 * deep,
            1,
            1,
            4 * deep,
            3 * deep,
            2 * deep,
            2 * deep,
            6 * deep,
            3,
            2 * types,
            7 * deep,
            self.poisons / 3,
        ];
        match self.dice.weighted(&weights) {
            0 => {
                self.n(9);
                self.carried();
                self.reference(role);
            }
            1 => {
                self.n(2);
                let value = self.dice.below(2) as u32;
                self.n(value);
                self.place();
            }
            2 => {
                self.n(0);
                let op = self.opaque();
                self.n(op);
                self.places();
                self.expression(role);
                self.expression(role);
            }
            3 => {
                self.n(1);
                let op = self.opaque();
                self.n(op);
                self.places();
                self.expression(role);
            }
            4 => {
                let kind = self.dice.between(3, 4) as u32;
                self.n(kind);
                for _ in 0..16 {
                    let byte = self.dice.next() as u8;
                    self.out.push(byte);
                }
                self.place();
                self.carried();
            }
            5 => {
                self.n(5);
                let bytes = self.dice.pick(&[&[][..], &[0xFF, 0x00], b"x"]);
                self.out.extend(sized(bytes));
                self.place();
            }
            6 => {
                self.n(6);
                self.place();
                self.carried();
                self.expressions(2, role);
                let id = self.opaque();
                self.n(id);
            }
            7 => {
                self.n(7);
                self.place();
                for _ in 0..self.count(2) {
                    if self.maybe() {
                        self.identifier(Role::Member);
                    }
                    let offset = self.opaque();
                    self.n(offset);
                    self.expression(role);
                }
                if self.maybe() {
                    self.value_type(false);
                }
            }
            8 => {
                self.n(8);
                self.place();
                self.expression(role);
            }
            9 => {
                self.n(10);
                self.places();
                self.carried();
                self.expression(role);
            }
            10 => {
                self.n(11);
                self.places();
                self.value_type(false);
                self.expression(role);
            }
            11 => {
                self.n(12);
                self.place();
                self.reference(role);
            }
            12 => {
                self.n(13);
                self.place();
                self.value_type(false);
            }
            13 => {
                self.n(14);
                self.call();
                self.carried();
                self.expressions(2, role);
            }
            _ => {
                self.n(15);
                self.poison();
            }
        }
    }

    fn call(&mut self) {
        self.identifier(Role::Function);
        let builtin = if self.dice.chance(75) { 0 } else { self.opaque() };
        self.n(builtin);
    }

    fn block(&mut self) {
        self.n(7);
        self.place();
        for _ in 0..self.count(4) {
            self.statement(false);
        }
    }

    /// A branch of an If is bare in some styles only: everywhere else it is a
    /// block, a goto, a use or another If.
    pub fn statement(&mut self, branch: bool) {
        let deep = self.spend() as usize;
        let bare = !branch || matches!(self.style, Style::Bare | Style::Wild);
        let (open, more) = (bare as usize, if branch { 3 } else { 1 });
        let flow = if matches!(self.style, Style::Flow | Style::Bare) { 2 } else { 1 };
        let weights = [
            12 * open * flow,
            12,
            3,
            1,
            9 * flow,
            9 * open * flow,
            6 * deep,
            5 * deep * more,
            self.poisons / 3,
        ];
        match self.dice.weighted(&weights) {
            0 => {
                self.n(0);
                self.place();
                if self.option(35) {
                    self.expression(Role::Variable);
                }
                self.carried();
                self.identifier(Role::Variable);
            }
            1 => {
                self.n(1);
                self.place();
                self.expression(Role::Variable);
                self.reference(Role::Variable);
            }
            2 => {
                self.n(2);
                self.call();
                self.expressions(2, Role::Variable);
            }
            3 => {
                self.n(3);
                self.place();
            }
            4 | 5 => {
                let kind = if bare { self.dice.between(4, 5) as u32 } else { 4 };
                self.n(kind);
                self.identifier(Role::Label);
                self.place();
            }
            6 => {
                self.n(6);
                self.place();
                let op = self.opaque();
                self.n(op);
                self.places();
                self.expression(Role::Variable);
                self.expression(Role::Variable);
                self.statement(true);
                if self.option(55) {
                    self.place();
                    self.statement(true);
                }
            }
            7 => self.block(),
            _ => {
                self.n(8);
                self.poison();
            }
        }
    }

    fn entries(&mut self, most: usize, role: Role, own: bool) {
        for _ in 0..self.count(most) {
            self.place();
            if self.maybe() {
                self.identifier(role);
            }
            if self.maybe() {
                self.value_type(own);
            }
        }
    }

    fn flags(&mut self) {
        let flags = self.dice.pick(&[0, 0, 1, 2, 4, 8, 16, 31]);
        self.n(flags);
    }

    fn declaration(&mut self) {
        let weights = match self.style {
            Style::Wild => [25, 40, 8, 20, 3, 3],
            Style::Flow | Style::Bare => [6, 80, 3, 4, 1, 1],
            Style::Holders => [45, 5, 2, 45, 1, 1],
        };
        let kind = self.dice.weighted(&weights);
        self.n(kind as u32);
        match kind {
            0 => {
                self.flags();
                self.places();
                // Sometimes a constant takes a variable's name.
                let role = if self.dice.chance(85) { Role::Container } else { Role::Variable };
                self.identifier(role);
                self.expression(Role::Container);
                if self.maybe() {
                    self.value_type(true);
                }
            }
            1 => {
                self.flags();
                self.places();
                self.identifier(Role::Function);
                self.entries(2, Role::Variable, false);
                if self.maybe() {
                    if matches!(self.style, Style::Flow | Style::Bare) {
                        let statements = self.flow();
                        self.out.extend(list(&statements));
                    } else {
                        for _ in 0..self.count(6) {
                            self.statement(false);
                        }
                    }
                    if self.option(40) {
                        self.expression(Role::Variable);
                    }
                    self.identifier(Role::Function);
                }
                if self.maybe() {
                    self.value_type(false);
                }
            }
            2 => {
                self.flags();
                self.places();
                self.identifier(Role::Function);
                self.entries(2, Role::Variable, false);
                if self.maybe() {
                    self.value_type(false);
                }
            }
            3 => {
                self.flags();
                self.place();
                self.identifier(Role::Container);
                self.entries(3, Role::Member, true);
                if self.maybe() {
                    self.value_type(false);
                }
            }
            4 => {
                let bytes = self.dice.pick(&[&b"core:text"[..], &[0xFF, 0x80], &[]]);
                self.out.extend(sized(bytes));
                self.place();
            }
            _ => self.poison(),
        }
    }

    /// A constant that is the size of a structure, and the structure with a
    /// member as long as the constant: seldom found by chance.
    fn ring_through_a_constant(&mut self) -> [Bytes; 2] {
        let (structure, constant) = (self.chosen(Role::Container), self.chosen(Role::Container));
        let mut named = |name| self.apart(|m| m.identifier_of(name));
        let size = cat!(13, 1, 20, named(structure));
        let long = ok(cat!(15, 3, named(constant)));
        let own = ok(num(11));
        let constant = form::constant(named(constant), size, own);
        let member = self.apart(|m| m.identifier(Role::Member));
        let structure = self.apart(|m| m.identifier_of(structure));
        [constant, form::structure(structure, &[form::entry(ok(member), long)])]
    }

    fn tree(&mut self) {
        let table: Vec<&[u8]> = if self.mixed {
            let skip = self.dice.below(POOL.len());
            let count = self.dice.between(1, 5);
            POOL.iter().cycle().skip(skip).take(count).copied().collect()
        } else if self.style == Style::Holders {
            HOLDERS.to_vec()
        } else {
            FLOW.to_vec()
        };
        self.names = table.len() as u32;
        self.out.extend(names(&table));
        let most = match self.style {
            Style::Wild => 4,
            Style::Flow | Style::Bare => 2,
            Style::Holders => 6,
        };
        let count = self.dice.between(1, most);
        let whole = self.budget;
        let mut declarations = Vec::new();
        for _ in 0..count {
            // Each declaration may spend its share.
            self.budget = (whole / count).max(2);
            declarations.push(self.apart(Self::declaration));
        }
        if self.style == Style::Holders && self.dice.chance(15) {
            for planted in self.ring_through_a_constant() {
                let at = self.dice.below(declarations.len() + 1);
                declarations.insert(at, planted);
            }
        }
        self.out.extend(list(&declarations));
        self.out.extend(vec![0; declarations.len()]);
    }
}
