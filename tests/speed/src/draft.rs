//! Writes script files, entry by entry. Each function gives the number of the entry that it adds.

#[derive(Default)]
pub struct Draft {
    names: Vec<[u8; 4]>,
    expressions: Vec<[u8; 8]>,
    nodes: Vec<[u8; 8]>,
}

fn entry(kind: u8, a: u16, b: u16, c: u16) -> [u8; 8] {
    let ([a0, a1], [b0, b1], [c0, c1]) = (a.to_be_bytes(), b.to_be_bytes(), c.to_be_bytes());
    [kind, 0, a0, a1, b0, b1, c0, c1]
}

impl Draft {
    /// The script file. The node added last is the script.
    pub fn file(self) -> Vec<u8> {
        let mut bytes = self.names.concat();
        let expressions = bytes.len() as u16;
        bytes.extend(self.expressions.concat());
        let nodes = bytes.len() as u16;
        bytes.extend(self.nodes.concat());
        let tail = bytes.len() as u16;
        for word in [expressions, nodes, tail, 0x5354] {
            bytes.extend(word.to_be_bytes());
        }
        bytes
    }

    /// How many names, expressions and nodes there are.
    pub fn counts(&self) -> [usize; 3] {
        [self.names.len(), self.expressions.len(), self.nodes.len()]
    }

    fn name(&mut self, kind: u8, level: u8) -> u16 {
        self.names.push([kind, level, 0xFF, 0xFF]);
        self.names.len() as u16 - 1
    }

    /// A register of the session, until a let declares it.
    pub fn register(&mut self, level: u8) -> u16 {
        self.name(0, level)
    }

    /// A signal of the session, until a local declares it.
    pub fn signal(&mut self, level: u8) -> u16 {
        self.name(1, level)
    }

    fn expression(&mut self, kind: u8, a: u16, b: u16, c: u16) -> u16 {
        self.expressions.push(entry(kind, a, b, c));
        self.expressions.len() as u16 - 1
    }

    pub fn constant(&mut self, value: i32) -> u16 {
        self.expression(0, 0, (value >> 16) as u16, value as u16)
    }

    pub fn read(&mut self, register: u16) -> u16 {
        self.expression(1, register, 0, 0)
    }

    pub fn add(&mut self, a: u16, b: u16) -> u16 {
        self.expression(2, a, b, 0)
    }

    pub fn subtract(&mut self, a: u16, b: u16) -> u16 {
        self.expression(3, a, b, 0)
    }

    pub fn multiply(&mut self, a: u16, b: u16) -> u16 {
        self.expression(4, a, b, 0)
    }

    pub fn divide(&mut self, a: u16, b: u16) -> u16 {
        self.expression(5, a, b, 0)
    }

    pub fn less(&mut self, a: u16, b: u16) -> u16 {
        self.expression(6, a, b, 0)
    }

    pub fn equal(&mut self, a: u16, b: u16) -> u16 {
        self.expression(7, a, b, 0)
    }

    pub fn not(&mut self, a: u16) -> u16 {
        self.expression(8, a, 0, 0)
    }

    fn node(&mut self, kind: u8, a: u16, b: u16, c: u16) -> u16 {
        self.nodes.push(entry(kind, a, b, c));
        self.nodes.len() as u16 - 1
    }

    fn own(&mut self, name: u16, node: u16) -> u16 {
        self.names[name as usize][2..].copy_from_slice(&node.to_be_bytes());
        node
    }

    pub fn nil(&mut self) -> u16 {
        self.node(0, 0, 0, 0)
    }

    pub fn assign(&mut self, register: u16, value: u16) -> u16 {
        self.node(1, register, value, 0)
    }

    pub fn let_in(&mut self, register: u16, value: u16, body: u16) -> u16 {
        let node = self.node(2, register, value, body);
        self.own(register, node)
    }

    pub fn if_else(&mut self, test: u16, then: u16, other: u16) -> u16 {
        self.node(3, test, then, other)
    }

    pub fn while_do(&mut self, test: u16, body: u16) -> u16 {
        self.node(4, test, body, 0)
    }

    pub fn sequence(&mut self, first: u16, second: u16) -> u16 {
        self.node(5, first, second, 0)
    }

    pub fn emit(&mut self, signal: u16) -> u16 {
        self.node(6, signal, 0, 0)
    }

    pub fn local(&mut self, signal: u16, body: u16) -> u16 {
        let node = self.node(7, signal, body, 0);
        self.own(signal, node)
    }

    pub fn watching(&mut self, signal: u16, body: u16) -> u16 {
        self.node(8, signal, body, 0)
    }

    pub fn when(&mut self, signal: u16, body: u16) -> u16 {
        self.node(9, signal, body, 0)
    }

    pub fn parallel(&mut self, first: u16, second: u16) -> u16 {
        self.node(10, first, second, 0)
    }

    /// `x := x + 1`.
    pub fn increment(&mut self, x: u16) -> u16 {
        let (old, one) = (self.read(x), self.constant(1));
        let sum = self.add(old, one);
        self.assign(x, sum)
    }

    /// `while x < i32::MAX do body`.
    pub fn forever(&mut self, x: u16, body: u16) -> u16 {
        let (old, most) = (self.read(x), self.constant(i32::MAX));
        let test = self.less(old, most);
        self.while_do(test, body)
    }

    /// Waits for the next instant, with two new signals:
    /// `local p in (local q in (emit p; (do (when q do nil) watching p)))`.
    pub fn pause(&mut self, level: u8) -> u16 {
        let (p, q) = (self.signal(level), self.signal(level));
        let emit = self.emit(p);
        let nil = self.nil();
        let wait = self.when(q, nil);
        let cut = self.watching(p, wait);
        let both = self.sequence(emit, cut);
        let inner = self.local(q, both);
        self.local(p, inner)
    }
}
