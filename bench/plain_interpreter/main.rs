//! A plain interpreter of the same tree, with nothing proved of it: what `bench/interpreting` is to be compared with. It runs
//! three programs that are built here, as the checker would give them, and prints the seconds that each takes.
//! The tree, the values, the store by positions, the traps, the turns and the notes of what a call writes are those of
//! crates/ob_checked, ob_store and ob_mean.

use std::time::Instant;

#[derive(Clone, Copy, PartialEq, Eq, Debug)]
enum Scalar {
    Int(i32),
    Bool(bool),
}

#[derive(Clone, Copy)]
enum Owner {
    Module,
    Own,
}

#[derive(Clone)]
struct Slot {
    owner: Owner,
    position: usize,
    #[allow(dead_code)]
    name: String,
}

#[derive(Clone)]
struct Designator {
    slot: Slot,
    selectors: Vec<Selector>,
}

#[derive(Clone)]
#[allow(dead_code)]
enum Selector {
    Field { position: usize, name: String },
    Element { length: usize, index: Expression },
}

#[derive(Clone, Copy)]
#[allow(dead_code)]
enum BinaryOperator {
    Plus,
    Minus,
    Times,
    Div,
    Mod,
    And,
    Or,
}

#[derive(Clone, Copy)]
#[allow(dead_code)]
enum Relation {
    Equal,
    NotEqual,
    Less,
    LessOrEqual,
    Greater,
    GreaterOrEqual,
}

#[derive(Clone)]
#[allow(dead_code)]
enum Expression {
    Literal(Scalar),
    ValueOf(Designator),
    Negated(Box<Expression>),
    Complement(Box<Expression>),
    Computed { first: Box<Expression>, rest: Vec<Operation> },
    Compared { relation: Relation, left: Box<Expression>, right: Box<Expression> },
}

#[derive(Clone)]
struct Operation {
    operator: BinaryOperator,
    operand: Expression,
}

#[derive(Clone)]
#[allow(dead_code)]
enum Statement {
    Assign { target: Designator, value: Expression },
    Call { procedure: usize, actuals: Vec<Actual> },
    If { branches: Vec<Branch>, otherwise: Option<Vec<Statement>> },
    While { condition: Expression, body: Vec<Statement> },
    Repeat { body: Vec<Statement>, condition: Expression },
}

#[derive(Clone)]
struct Branch {
    condition: Expression,
    body: Vec<Statement>,
}

#[derive(Clone)]
enum Actual {
    Value(Expression),
    Place(Designator),
}

/// What the variables of a procedure begin as, and its body.
struct Procedure {
    variables: Vec<Value>,
    body: Vec<Statement>,
}

#[derive(Clone, Debug, PartialEq)]
enum Value {
    Single(Scalar),
    Parts(Vec<Value>),
}

#[derive(Clone)]
struct Place {
    activation: usize,
    position: usize,
    path: Vec<usize>,
}

enum Held {
    Holds(Value),
    Refers(Place),
}

#[derive(Clone, Copy, Debug, PartialEq, Eq)]
enum Trap {
    OutOfRange,
    OutsideArray,
    BadDivisor,
    TooManyActivations,
    NoTurnLeft,
}

/// A write to the module's variables, and what was there before.
struct Written {
    position: usize,
    path: Vec<usize>,
    was: Value,
}

/// Behind so many writes the module's variables are copied as they were.
const MOST_WRITES: usize = 4096;

enum Before {
    Writes(Vec<Written>),
    Whole(Vec<Value>),
}

struct Store {
    variables: Vec<Value>,
    others: Vec<Vec<Held>>,
    before: Before,
}

impl Value {
    fn inside(&self, position: usize) -> &Value {
        match self {
            Value::Parts(parts) => &parts[position],
            Value::Single(_) => self,
        }
    }

    fn part_mut(&mut self, path: &[usize]) -> &mut Value {
        let mut value = self;
        for &position in path {
            match value {
                Value::Parts(parts) => value = &mut parts[position],
                Value::Single(_) => unreachable!("a scalar has no parts"),
            }
        }
        value
    }

    fn scalar(&self) -> Scalar {
        match self {
            Value::Single(scalar) => *scalar,
            Value::Parts(_) => Scalar::Int(0),
        }
    }
}

fn taken_back(mut variables: Vec<Value>, writes: Vec<Written>) -> Vec<Value> {
    for written in writes.into_iter().rev() {
        *variables[written.position].part_mut(&written.path) = written.was;
    }
    variables
}

impl Store {
    fn value_of_slot(&self, slot: &Slot) -> &Value {
        match slot.owner {
            Owner::Module => &self.variables[slot.position],
            Owner::Own => match &self.others[self.others.len() - 1][slot.position] {
                Held::Holds(value) => value,
                Held::Refers(place) => place.path.iter().fold(self.whole(place), |value, &position| value.inside(position)),
            },
        }
    }

    fn whole(&self, place: &Place) -> &Value {
        if place.activation == 0 {
            return &self.variables[place.position];
        }
        match &self.others[place.activation - 1][place.position] {
            Held::Holds(value) => value,
            Held::Refers(_) => unreachable!("a place is of a variable that has a value"),
        }
    }

    fn read(&self, variable: &Designator) -> Result<Scalar, Trap> {
        let mut value = self.value_of_slot(&variable.slot);
        for selector in &variable.selectors {
            value = value.inside(self.selected_position(selector)?);
        }
        Ok(value.scalar())
    }

    fn selected_position(&self, selector: &Selector) -> Result<usize, Trap> {
        match selector {
            Selector::Field { position, .. } => Ok(*position),
            Selector::Element { length, index } => match self.evaluate(index)? {
                Scalar::Int(number) if number >= 0 && (number as usize) < *length => Ok(number as usize),
                _ => Err(Trap::OutsideArray),
            },
        }
    }

    fn evaluate(&self, expression: &Expression) -> Result<Scalar, Trap> {
        match expression {
            Expression::Literal(scalar) => Ok(*scalar),
            Expression::ValueOf(variable) => self.read(variable),
            Expression::Negated(operand) => in_range(-i64::from(number_of(self.evaluate(operand)?))),
            Expression::Complement(operand) => Ok(Scalar::Bool(!truth_of(self.evaluate(operand)?))),
            Expression::Computed { first, rest } => {
                let mut value = self.evaluate(first)?;
                for operation in rest {
                    if !decides(operation.operator, value) {
                        value = computed(operation.operator, value, self.evaluate(&operation.operand)?)?;
                    }
                }
                Ok(value)
            }
            Expression::Compared { relation, left, right } => {
                let x = self.evaluate(left)?;
                let y = self.evaluate(right)?;
                Ok(compared(*relation, x, y))
            }
        }
    }

    fn place_of(&self, variable: &Designator) -> Result<Place, Trap> {
        let position = variable.slot.position;
        let mut place = match variable.slot.owner {
            Owner::Module => Place { activation: 0, position, path: Vec::new() },
            Owner::Own => match &self.others[self.others.len() - 1][position] {
                Held::Refers(place) => place.clone(),
                Held::Holds(_) => Place { activation: self.others.len(), position, path: Vec::new() },
            },
        };
        for selector in &variable.selectors {
            place.path.push(self.selected_position(selector)?);
        }
        Ok(place)
    }

    fn set(&mut self, place: Place, scalar: Scalar) {
        if place.activation == 0 {
            self.set_variable(place, scalar);
        } else if let Held::Holds(value) = &mut self.others[place.activation - 1][place.position] {
            *value.part_mut(&place.path) = Value::Single(scalar);
        }
    }

    fn set_variable(&mut self, place: Place, scalar: Scalar) {
        if let Before::Writes(writes) = &mut self.before {
            if writes.len() >= MOST_WRITES {
                self.before = Before::Whole(taken_back(self.variables.clone(), std::mem::take(writes)));
            }
        }
        let part = self.variables[place.position].part_mut(&place.path);
        let was = std::mem::replace(part, Value::Single(scalar));
        if let Before::Writes(writes) = &mut self.before {
            writes.push(Written { position: place.position, path: place.path, was });
        }
    }
}

fn number_of(scalar: Scalar) -> i32 {
    match scalar {
        Scalar::Int(number) => number,
        Scalar::Bool(_) => 0,
    }
}

fn truth_of(scalar: Scalar) -> bool {
    scalar == Scalar::Bool(true)
}

fn in_range(number: i64) -> Result<Scalar, Trap> {
    i32::try_from(number).map(Scalar::Int).map_err(|_| Trap::OutOfRange)
}

fn decides(operator: BinaryOperator, left: Scalar) -> bool {
    match operator {
        BinaryOperator::And => left == Scalar::Bool(false),
        BinaryOperator::Or => left == Scalar::Bool(true),
        _ => false,
    }
}

fn computed(operator: BinaryOperator, left: Scalar, right: Scalar) -> Result<Scalar, Trap> {
    let (x, y) = (i64::from(number_of(left)), i64::from(number_of(right)));
    match operator {
        BinaryOperator::Plus => in_range(x + y),
        BinaryOperator::Minus => in_range(x - y),
        BinaryOperator::Times => in_range(x * y),
        BinaryOperator::Div | BinaryOperator::Mod if y <= 0 => Err(Trap::BadDivisor),
        BinaryOperator::Div => in_range(x.div_euclid(y)),
        BinaryOperator::Mod => in_range(x.rem_euclid(y)),
        BinaryOperator::And | BinaryOperator::Or => Ok(right),
    }
}

fn compared(relation: Relation, left: Scalar, right: Scalar) -> Scalar {
    Scalar::Bool(match relation {
        Relation::Equal => left == right,
        Relation::NotEqual => left != right,
        Relation::Less => number_of(left) < number_of(right),
        Relation::LessOrEqual => number_of(left) <= number_of(right),
        Relation::Greater => number_of(left) > number_of(right),
        Relation::GreaterOrEqual => number_of(left) >= number_of(right),
    })
}

/// What all statements of a run share: the procedures, and how many more activations may be made.
#[derive(Clone, Copy)]
struct Context<'p> {
    procedures: &'p [Procedure],
    more: usize,
}

impl Context<'_> {
    fn run(self, store: &mut Store, statements: &[Statement], mut turns: u64) -> Result<u64, Trap> {
        for statement in statements {
            turns = self.execute(store, statement, turns)?;
        }
        Ok(turns)
    }

    fn execute(self, store: &mut Store, statement: &Statement, mut turns: u64) -> Result<u64, Trap> {
        match statement {
            Statement::Assign { target, value } => {
                let place = store.place_of(target)?;
                let scalar = store.evaluate(value)?;
                store.set(place, scalar);
                Ok(turns)
            }
            Statement::Call { procedure, actuals } => self.call(store, *procedure, actuals, turns),
            Statement::If { branches, otherwise } => {
                for branch in branches {
                    if truth_of(store.evaluate(&branch.condition)?) {
                        return self.run(store, &branch.body, turns);
                    }
                }
                otherwise.as_ref().map_or(Ok(turns), |body| self.run(store, body, turns))
            }
            Statement::While { condition, body } => {
                while truth_of(store.evaluate(condition)?) {
                    turns = self.run(store, body, turns.checked_sub(1).ok_or(Trap::NoTurnLeft)?)?;
                }
                Ok(turns)
            }
            Statement::Repeat { body, condition } => loop {
                turns = self.run(store, body, turns.checked_sub(1).ok_or(Trap::NoTurnLeft)?)?;
                if truth_of(store.evaluate(condition)?) {
                    return Ok(turns);
                }
            },
        }
    }

    fn call(self, store: &mut Store, number: usize, actuals: &[Actual], turns: u64) -> Result<u64, Trap> {
        let procedure = &self.procedures[number];
        let mut activation = Vec::with_capacity(actuals.len() + procedure.variables.len());
        for actual in actuals {
            activation.push(match actual {
                Actual::Value(expression) => Held::Holds(Value::Single(store.evaluate(expression)?)),
                Actual::Place(variable) => Held::Refers(store.place_of(variable)?),
            });
        }
        let more = self.more.checked_sub(1).ok_or(Trap::TooManyActivations)?;
        let left = turns.checked_sub(1).ok_or(Trap::NoTurnLeft)?;
        activation.extend(procedure.variables.iter().cloned().map(Held::Holds));
        store.others.push(activation);
        let left = Context { more, ..self }.run(store, &procedure.body, left)?;
        store.others.pop();
        Ok(left)
    }
}

/// A call from outside of the last procedure, with an argument and one result, and the module's variables behind it.
fn called(procedures: &[Procedure], variables: Vec<Value>, argument: i32, turns: u64) -> (Vec<Value>, Result<Scalar, Trap>) {
    let result = Place { activation: 1, position: 0, path: Vec::new() };
    let mut own = vec![Held::Holds(Value::Single(Scalar::Int(argument))), Held::Refers(result)];
    let procedure = &procedures[procedures.len() - 1];
    own.extend(procedure.variables.iter().cloned().map(Held::Holds));
    let results = vec![Held::Holds(Value::Single(Scalar::Int(0)))];
    let mut store = Store { variables, others: vec![results, own], before: Before::Writes(Vec::new()) };
    match (Context { procedures, more: 63 }).run(&mut store, &procedure.body, turns) {
        Ok(_) => {
            let answer = match &store.others[0][0] {
                Held::Holds(value) => value.scalar(),
                Held::Refers(_) => unreachable!("results have values"),
            };
            (store.variables, Ok(answer))
        }
        Err(trap) => match store.before {
            Before::Writes(writes) => (taken_back(store.variables, writes), Err(trap)),
            Before::Whole(before) => (before, Err(trap)),
        },
    }
}

fn variable(owner: Owner, position: usize) -> Designator {
    let name = format!("v{position}");
    Designator { slot: Slot { owner, position, name }, selectors: Vec::new() }
}

fn own(position: usize) -> Designator {
    variable(Owner::Own, position)
}

fn value(variable: Designator) -> Expression {
    Expression::ValueOf(variable)
}

fn number(number: i32) -> Expression {
    Expression::Literal(Scalar::Int(number))
}

fn assign(target: Designator, value: Expression) -> Statement {
    Statement::Assign { target, value }
}

fn with(left: Designator, operator: BinaryOperator, operand: Expression) -> Expression {
    Expression::Computed { first: Box::new(value(left)), rest: vec![Operation { operator, operand }] }
}

fn less(left: Designator, right: Expression) -> Expression {
    Expression::Compared { relation: Relation::Less, left: Box::new(value(left)), right: Box::new(right) }
}

fn zeros(count: usize) -> Vec<Value> {
    vec![Value::Single(Scalar::Int(0)); count]
}

/// Nine variables for scalars, and an array, so that values may have parts.
fn module_variables() -> Vec<Value> {
    let mut variables = zeros(9);
    variables.push(Value::Parts(zeros(4)));
    variables
}

/// `i := 0; WHILE i < k DO i := i + 1 END; v := i`, with k, v and i the procedure's own.
fn counting() -> Vec<Procedure> {
    let body = vec![assign(own(2), with(own(2), BinaryOperator::Plus, number(1)))];
    let statements = vec![
        assign(own(2), number(0)),
        Statement::While { condition: less(own(2), value(own(0))), body },
        assign(own(1), value(own(2))),
    ];
    vec![Procedure { variables: zeros(1), body: statements }]
}

/// `IF k < 2 THEN v := k ELSE Fib(k - 1, a); Fib(k - 2, b); v := a + b END`, and `Fib(k, v)`.
fn fibonacci() -> Vec<Procedure> {
    let below = |less: i32, result: usize| Statement::Call {
        procedure: 0,
        actuals: vec![Actual::Value(with(own(0), BinaryOperator::Minus, number(less))), Actual::Place(own(result))],
    };
    let sum = assign(own(1), with(own(2), BinaryOperator::Plus, value(own(3))));
    let small = Branch { condition: less(own(0), number(2)), body: vec![assign(own(1), value(own(0)))] };
    let fib = Statement::If { branches: vec![small], otherwise: Some(vec![below(1, 2), below(2, 3), sum]) };
    let go = Statement::Call { procedure: 0, actuals: vec![Actual::Value(value(own(0))), Actual::Place(own(1))] };
    vec![Procedure { variables: zeros(2), body: vec![fib] }, Procedure { variables: Vec::new(), body: vec![go] }]
}

/// `WHILE i < k DO i := i + 1; v1 := v2; .. END; v := i`, with all but k and v the module's.
fn assignments(count: usize) -> Vec<Procedure> {
    let module = |position: usize| variable(Owner::Module, position);
    let mut body = vec![assign(module(0), with(module(0), BinaryOperator::Plus, number(1)))];
    body.extend((0..count).map(|n| assign(module(1 + n * 7 % 8), value(module(1 + n * 13 % 5)))));
    let statements = vec![
        assign(module(0), number(0)),
        Statement::While { condition: less(module(0), value(own(0))), body },
        assign(own(1), value(module(0))),
    ];
    vec![Procedure { variables: Vec::new(), body: statements }]
}

/// The quickest of some rounds of so many calls, each of which has to answer this.
fn timed(name: &str, procedures: &[Procedure], (calls, argument): (u32, i32), answer: i32, rounds: u32) {
    let quickest = (0..rounds).map(|_| {
        let begin = Instant::now();
        let mut variables = module_variables();
        for _ in 0..calls {
            let (next, reply) = called(procedures, variables, argument, 1_000_000);
            assert_eq!(reply, Ok(Scalar::Int(answer)));
            variables = next;
        }
        begin.elapsed().as_secs_f64()
    });
    println!("{name:>11} {:.4}", quickest.fold(f64::INFINITY, f64::min));
}

/// `main [ROUNDS [KIND [CALLS ARGUMENT ANSWER]]]`
fn main() {
    let words: Vec<String> = std::env::args().collect();
    let given = |at: usize| words.get(at).and_then(|word| word.parse().ok());
    let rounds = given(1).unwrap_or(5);
    let kinds = [
        ("loop", counting(), (2, 999_999), 999_999),
        ("recursion", fibonacci(), (10, 24), 46_368),
        ("assignments", assignments(1_160), (1, 2_000), 2_000),
    ];
    for (name, procedures, calls, answer) in kinds {
        if words.get(2).is_none_or(|kind| kind == name) {
            let calls = (given(3).unwrap_or(calls.0), given(4).map_or(calls.1, |k| k as i32));
            timed(name, &procedures, calls, given(5).map_or(answer, |k| k as i32), rounds);
        }
    }
}
