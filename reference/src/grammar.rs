//! Grammar: the tree of a program, and the reader that makes it, a function for each rule of document 01 in its order.
//! The tree holds token numbers; a token number is what `TokenNo` counts from 0.

use crate::token::{Kind, Refusal, Token};

pub type TokenNo = usize;

/// "inside 64 such constructs"
pub const NESTING_LIMIT: usize = 64;

pub struct Block {
    pub begin: TokenNo,
    pub declarations: Vec<Declaration>,
    pub items: Vec<Item>,
    pub end: TokenNo,
}

pub enum Item {
    Statement(Statement),
    Label(TokenNo),
}

pub enum Declaration {
    Registers(Vec<RegisterItem>),
    Cells(Cells),
    Procedure(Procedure),
    Base(TokenNo),
}

pub struct RegisterItem {
    pub name: TokenNo,
    pub number: TokenNo,
}

pub struct Cells {
    /// The count of ARRAY (count).
    pub count: Option<TokenNo>,
    pub of: Type,
    pub items: Vec<CellItem>,
}

/// What the cells of a declaration are; "LOGICAL follows every rule of INTEGER".
#[derive(Clone, Copy, PartialEq, Eq, Debug)]
pub enum Type {
    Integer,
    Short,
    Byte,
    Character,
}

impl Type {
    /// "4, or 2 for short"; BYTE and CHARACTER cells are "one byte".
    pub fn size(self) -> usize {
        match self {
            Type::Integer => 4,
            Type::Short => 2,
            Type::Byte | Type::Character => 1,
        }
    }

    /// A byte cell, of either word.
    pub fn is_byte(self) -> bool {
        matches!(self, Type::Byte | Type::Character)
    }
}

pub struct CellItem {
    pub name: TokenNo,
    pub values: Vec<TokenNo>,
}

pub struct Procedure {
    pub opening: TokenNo,
    pub name: TokenNo,
    pub register: TokenNo,
    pub body: Box<Statement>,
}

pub enum Statement {
    Assignment(Assignment),
    Use(Use),
    Block(Block),
    Goto(TokenNo),
    Null,
    Case(Case),
    If { opening: TokenNo, condition: Condition, then: Box<Statement>, otherwise: Option<Box<Statement>> },
    While { opening: TokenNo, condition: Condition, body: Box<Statement> },
    For { opening: TokenNo, assignment: Assignment, step: TokenNo, limit: Operand, body: Box<Statement> },
}

/// "the name, then each argument in its own parentheses": a call has none.
pub struct Use {
    pub name: TokenNo,
    pub arguments: Vec<Operand>,
}

/// "CASE register OF BEGIN {statement `;`} END"
pub struct Case {
    pub opening: TokenNo,
    pub register: TokenNo,
    pub statements: Vec<Statement>,
}

pub struct Assignment {
    pub target: Designator,
    pub sign: Option<Sign>,
    pub first: Operand,
    pub chain: Vec<Link>,
}

#[derive(Clone, Copy)]
pub enum SignKind {
    Abs,
    Neg,
    NegAbs,
}

/// ABS, NEG or NEG ABS with its first token.
pub struct Sign {
    pub kind: SignKind,
    pub token: TokenNo,
}

pub struct Link {
    pub operator: TokenNo,
    pub operand: Operand,
}

pub struct Designator {
    pub name: TokenNo,
    pub subscript: Option<TokenNo>,
    pub index: Option<TokenNo>,
}

pub enum Operand {
    Number(TokenNo),
    Designator(Designator),
}

pub enum Condition {
    Comparison {
        register: TokenNo,
        relation: TokenNo,
        operand: Operand,
    },
    /// A bare relation or OVERFLOW.
    State(TokenNo),
}

/// The tree of the program that the tokens are, or refusal 4 or 5.
pub fn program(tokens: &[Token]) -> Result<Block, Refusal> {
    program_nested_to(tokens, NESTING_LIMIT)
}

/// The same with another limit on nesting.
pub fn program_nested_to(tokens: &[Token], limit: usize) -> Result<Block, Refusal> {
    Reader { tokens, at: 0, inside: 0, limit }.program()
}

struct Reader<'a> {
    tokens: &'a [Token],
    at: TokenNo,
    /// How many constructs of refusal 5 are open.
    inside: usize,
    limit: usize,
}

type Read<T> = Result<T, Refusal>;

impl Reader<'_> {
    fn kind(&self) -> Kind {
        self.tokens[self.at].kind
    }

    fn next_kind(&self) -> Option<Kind> {
        self.tokens.get(self.at + 1).map(|token| token.kind)
    }

    fn take(&mut self) -> TokenNo {
        self.at += 1;
        self.at - 1
    }

    fn expect(&mut self, kind: Kind) -> Read<TokenNo> {
        if self.kind() == kind {
            return Ok(self.take());
        }
        self.unexpected()
    }

    /// "no program begins with the tokens up to here"
    fn unexpected<T>(&self) -> Read<T> {
        Err(Refusal { number: 4, spot: self.tokens[self.at].spot })
    }

    /// "BEGIN, IF, WHILE, FOR or PROCEDURE inside 64 such constructs"; CASE is "one nesting level for refusal 5".
    fn open(&mut self, kind: Kind) -> Read<TokenNo> {
        let opening = self.expect(kind)?;
        if self.inside == self.limit {
            return Err(Refusal { number: 5, spot: self.tokens[opening].spot });
        }
        self.inside += 1;
        Ok(opening)
    }

    fn close(&mut self) {
        self.inside -= 1;
    }

    /// "program = block `@`."
    fn program(&mut self) -> Read<Block> {
        let block = self.block()?;
        self.expect(Kind::At)?;
        Ok(block)
    }

    /// "block = BEGIN {declaration `;`} {statement `;` or name `:`} END."
    fn block(&mut self) -> Read<Block> {
        let begin = self.open(Kind::Begin)?;
        let mut declarations = Vec::new();
        while self.declaration_begins() {
            declarations.push(self.declaration()?);
            self.expect(Kind::Semicolon)?;
        }
        let mut items = Vec::new();
        while self.kind() != Kind::End {
            items.push(self.item()?);
        }
        let end = self.expect(Kind::End)?;
        self.close();
        Ok(Block { begin, declarations, items, end })
    }

    fn item(&mut self) -> Read<Item> {
        if self.kind() == Kind::Name && self.next_kind() == Some(Kind::Colon) {
            let label = self.take();
            self.expect(Kind::Colon)?;
            return Ok(Item::Label(label));
        }
        let statement = self.statement()?;
        self.expect(Kind::Semicolon)?;
        Ok(Item::Statement(statement))
    }

    fn declaration_begins(&self) -> bool {
        use Kind::*;
        matches!(self.kind(), Integer | Logical | Short | Byte | Character | Array | Procedure | Segment)
    }

    /// "declaration = (INTEGER or LOGICAL) REGISTER name(number) {, name(number)}; or [ARRAY (number)] type item
    /// {, item}; or PROCEDURE name(name) `;` statement; or SEGMENT BASE name."
    fn declaration(&mut self) -> Read<Declaration> {
        match self.kind() {
            Kind::Procedure => self.procedure(),
            Kind::Segment => {
                self.take();
                self.expect(Kind::Base)?;
                Ok(Declaration::Base(self.expect(Kind::Name)?))
            }
            Kind::Integer | Kind::Logical if self.next_kind() == Some(Kind::Register) => self.registers(),
            _ => self.cells(),
        }
    }

    fn registers(&mut self) -> Read<Declaration> {
        self.take();
        self.expect(Kind::Register)?;
        let mut items = vec![self.register_item()?];
        while self.kind() == Kind::Comma {
            self.take();
            items.push(self.register_item()?);
        }
        Ok(Declaration::Registers(items))
    }

    fn register_item(&mut self) -> Read<RegisterItem> {
        let name = self.expect(Kind::Name)?;
        self.expect(Kind::Open)?;
        let number = self.expect(Kind::Number)?;
        self.expect(Kind::Close)?;
        Ok(RegisterItem { name, number })
    }

    fn cells(&mut self) -> Read<Declaration> {
        let mut count = None;
        if self.kind() == Kind::Array {
            self.take();
            self.expect(Kind::Open)?;
            count = Some(self.expect(Kind::Number)?);
            self.expect(Kind::Close)?;
        }
        let of = self.cell_type()?;
        let mut items = vec![self.cell_item()?];
        while self.kind() == Kind::Comma {
            self.take();
            items.push(self.cell_item()?);
        }
        Ok(Declaration::Cells(Cells { count, of, items }))
    }

    /// "type = INTEGER, LOGICAL or SHORT INTEGER", and "Add BYTE and CHARACTER cells".
    fn cell_type(&mut self) -> Read<Type> {
        let of = match self.kind() {
            Kind::Integer | Kind::Logical => Type::Integer,
            Kind::Byte => Type::Byte,
            Kind::Character => Type::Character,
            _ => {
                self.expect(Kind::Short)?;
                self.expect(Kind::Integer)?;
                return Ok(Type::Short);
            }
        };
        self.take();
        Ok(of)
    }

    /// "item = name {(number)}."
    fn cell_item(&mut self) -> Read<CellItem> {
        let name = self.expect(Kind::Name)?;
        let mut values = Vec::new();
        while self.kind() == Kind::Open {
            self.take();
            values.push(self.expect(Kind::Number)?);
            self.expect(Kind::Close)?;
        }
        Ok(CellItem { name, values })
    }

    fn procedure(&mut self) -> Read<Declaration> {
        let opening = self.open(Kind::Procedure)?;
        let name = self.expect(Kind::Name)?;
        self.expect(Kind::Open)?;
        let register = self.expect(Kind::Name)?;
        self.expect(Kind::Close)?;
        self.expect(Kind::Semicolon)?;
        let body = Box::new(self.statement()?);
        self.close();
        Ok(Declaration::Procedure(Procedure { opening, name, register, body }))
    }

    /// "simple = assignment, name (a call), block, GOTO name, NULL.", the uses of functions, and CASE.
    fn simple(&mut self) -> Read<Statement> {
        match self.kind() {
            Kind::Name => match self.next_kind() {
                Some(Kind::Assign) => Ok(Statement::Assignment(self.assignment()?)),
                _ => self.use_or_assignment(),
            },
            Kind::Begin => Ok(Statement::Block(self.block()?)),
            Kind::Goto => {
                self.take();
                Ok(Statement::Goto(self.expect(Kind::Name)?))
            }
            Kind::Null => {
                self.take();
                Ok(Statement::Null)
            }
            Kind::Case => self.case(),
            _ => self.unexpected(),
        }
    }

    /// "CASE register OF BEGIN {statement `;`} END as a simple statement, one nesting level": its BEGIN opens no block and is none.
    fn case(&mut self) -> Read<Statement> {
        let opening = self.open(Kind::Case)?;
        let register = self.expect(Kind::Name)?;
        self.expect(Kind::Of)?;
        self.expect(Kind::Begin)?;
        let mut statements = Vec::new();
        while self.kind() != Kind::End {
            statements.push(self.statement()?);
            self.expect(Kind::Semicolon)?;
        }
        self.take();
        self.close();
        Ok(Statement::Case(Case { opening, register, statements }))
    }

    /// "A use is a simple statement: the name, then each argument in its own parentheses." Up to a `:=` it may still become
    /// an assignment, if what has been read is a designator; if not, no program goes on with the `:=`.
    fn use_or_assignment(&mut self) -> Read<Statement> {
        let name = self.take();
        let mut arguments = Vec::new();
        while self.kind() == Kind::Open {
            self.take();
            arguments.push(self.operand()?);
            self.expect(Kind::Close)?;
        }
        match designator_of(name, &arguments) {
            Some(target) if self.kind() == Kind::Assign => Ok(Statement::Assignment(self.assigned(target)?)),
            _ => Ok(Statement::Use(Use { name, arguments })),
        }
    }

    /// "statement = simple; IF condition THEN statement; IF condition THEN simple ELSE statement; WHILE condition DO
    /// statement; FOR assignment STEP number UNTIL operand DO statement."
    fn statement(&mut self) -> Read<Statement> {
        match self.kind() {
            Kind::If => self.if_statement(),
            Kind::While => self.while_statement(),
            Kind::For => self.for_statement(),
            _ => self.simple(),
        }
    }

    fn if_statement(&mut self) -> Read<Statement> {
        let opening = self.open(Kind::If)?;
        let condition = self.condition()?;
        self.expect(Kind::Then)?;
        let then_is_simple = !matches!(self.kind(), Kind::If | Kind::While | Kind::For);
        let then = Box::new(self.statement()?);
        let mut otherwise = None;
        if then_is_simple && self.kind() == Kind::Else {
            self.take();
            otherwise = Some(Box::new(self.statement()?));
        }
        self.close();
        Ok(Statement::If { opening, condition, then, otherwise })
    }

    fn while_statement(&mut self) -> Read<Statement> {
        let opening = self.open(Kind::While)?;
        let condition = self.condition()?;
        self.expect(Kind::Do)?;
        let body = Box::new(self.statement()?);
        self.close();
        Ok(Statement::While { opening, condition, body })
    }

    fn for_statement(&mut self) -> Read<Statement> {
        let opening = self.open(Kind::For)?;
        let assignment = self.assignment()?;
        self.expect(Kind::Step)?;
        let step = self.expect(Kind::Number)?;
        self.expect(Kind::Until)?;
        let limit = self.operand()?;
        self.expect(Kind::Do)?;
        let body = Box::new(self.statement()?);
        self.close();
        Ok(Statement::For { opening, assignment, step, limit, body })
    }

    /// "assignment = designator `:=` [ABS, NEG or NEG ABS] operand {operator operand}."
    fn assignment(&mut self) -> Read<Assignment> {
        let target = self.designator()?;
        self.assigned(target)
    }

    /// An assignment from its `:=` on.
    fn assigned(&mut self, target: Designator) -> Read<Assignment> {
        self.expect(Kind::Assign)?;
        let sign = self.sign();
        let first = self.operand()?;
        let mut chain = Vec::new();
        while is_operator(self.kind()) {
            let operator = self.take();
            let operand = self.operand()?;
            chain.push(Link { operator, operand });
        }
        Ok(Assignment { target, sign, first, chain })
    }

    fn sign(&mut self) -> Option<Sign> {
        let token = self.at;
        let kind = match (self.kind(), self.next_kind()) {
            (Kind::Abs, _) => SignKind::Abs,
            (Kind::Neg, Some(Kind::Abs)) => SignKind::NegAbs,
            (Kind::Neg, _) => SignKind::Neg,
            _ => return None,
        };
        self.at += if matches!(kind, SignKind::NegAbs) { 2 } else { 1 };
        Some(Sign { kind, token })
    }

    /// "designator = name, name(number), name(name), name(number)(name)."
    fn designator(&mut self) -> Read<Designator> {
        let name = self.expect(Kind::Name)?;
        let (mut subscript, mut index) = (None, None);
        if self.kind() == Kind::Open {
            self.take();
            if self.kind() == Kind::Number {
                subscript = Some(self.take());
            } else {
                index = Some(self.expect(Kind::Name)?);
            }
            self.expect(Kind::Close)?;
        }
        if subscript.is_some() && self.kind() == Kind::Open {
            self.take();
            index = Some(self.expect(Kind::Name)?);
            self.expect(Kind::Close)?;
        }
        Ok(Designator { name, subscript, index })
    }

    /// "operand = number or designator."
    fn operand(&mut self) -> Read<Operand> {
        if self.kind() == Kind::Number {
            return Ok(Operand::Number(self.take()));
        }
        Ok(Operand::Designator(self.designator()?))
    }

    /// "condition = name relation operand, a bare relation, or OVERFLOW."
    fn condition(&mut self) -> Read<Condition> {
        if self.kind() == Kind::Overflow || is_relation(self.kind()) {
            return Ok(Condition::State(self.take()));
        }
        let register = self.expect(Kind::Name)?;
        if !is_relation(self.kind()) {
            return self.unexpected();
        }
        let relation = self.take();
        let operand = self.operand()?;
        Ok(Condition::Comparison { register, relation, operand })
    }
}

/// The designator that a name with these parentheses behind it is, if it is one of the four forms.
fn designator_of(name: TokenNo, arguments: &[Operand]) -> Option<Designator> {
    let (subscript, index) = match arguments {
        [] => (None, None),
        [Operand::Number(number)] => (Some(*number), None),
        [Operand::Designator(index)] => (None, Some(index)),
        [Operand::Number(number), Operand::Designator(index)] => (Some(*number), Some(index)),
        _ => return None,
    };
    match index {
        Some(Designator { subscript: Some(_), .. } | Designator { index: Some(_), .. }) => None,
        _ => Some(Designator { name, subscript, index: index.map(|index| index.name) }),
    }
}

/// "Operators: `+ - * ++ --` AND OR XOR SHLL SHRL SHLA SHRA."
fn is_operator(kind: Kind) -> bool {
    use Kind::*;
    matches!(kind, Plus | Minus | Times | PlusPlus | MinusMinus | And | Or | Xor | Shll | Shrl | Shla | Shra)
}

fn is_relation(kind: Kind) -> bool {
    use Kind::*;
    matches!(kind, Equal | NotEqual | Less | LessEqual | GreaterEqual | Greater)
}
