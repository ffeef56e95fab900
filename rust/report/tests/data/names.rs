//! Names of all kinds. `names.txt` has what rustc says that each means; the remarks say what closures capture and what nothing uses.
#![allow(unused, dead_code)]

struct Point {
    x: i32,
    y: i32,
}

enum Shape {
    Dot,
    Line(i32, i32),
    Box { width: i32, height: i32 },
}

const LIMIT: i32 = 10;

fn add(a: i32, b: i32) -> i32 {
    a + b
}

fn shadows(x: i32) -> i32 {
    let x = x + 1;
    let y = {
        let x = x * 2;
        x
    };
    let x = y + x;
    x
}

impl Point {
    fn moved(&self, dx: i32, dy: i32) -> Point { // unused dy
        let moved = |d: i32| self.x + d; // captures self
        Point { x: moved(dx), y: self.y }
    }

    fn swap(mut self) -> Point {
        (self.x, self.y) = (self.y, self.x);
        self
    }
}

fn patterns(shape: &Shape, numbers: &[i32]) -> i32 {
    let of_shape = match shape {
        Shape::Dot => LIMIT,
        Shape::Line(from, to) if from < to => to - from,
        Shape::Line(from, _) | Shape::Box { width: from, .. } => *from,
    };
    let of_numbers = match numbers {
        [] => 0,
        [only] => *only,
        [first, rest @ .., last] => first + last + i32::try_from(rest.len()).unwrap_or(0),
    };
    let Shape::Box { width, height } = shape else { // unused height
        return of_shape + of_numbers;
    };
    if let Some(first) = numbers.first()
        && let Some(second) = numbers.get(1)
        && first < second
    {
        return first + width;
    }
    match of_shape {
        small @ (1 | 2) => small,
        0..=LIMIT => 0,
        other => other,
    }
}

fn loops(limit: i32) -> i32 {
    let mut total = 0;
    let mut i = 0;
    'outer: while i < limit {
        for j in 0..i {
            if j == 3 {
                continue 'outer;
            }
            total += j;
            i += 1;
        }
        i = loop {
            break i + 1;
        };
    }
    let (mut low, mut high) = (0, limit);
    (low, high) = (high, low);
    [low, .., high] = [1, 2, 3];
    _ = low + high;
    total
}

fn closures(a: i32, b: i32) -> i32 {
    let c = a;
    let pair = |x: i32| add(x, c); // captures c
    let nested = move |y: i32| { // captures b, pair, a
        let b = b + y;
        let inner = |z: i32| pair(z) + b + a; // captures pair, b, a
        inner(y)
    };
    let nothing = || { // captures nothing
        let c = 1;
        c
    };
    let shadowed = |a: i32| a + LIMIT; // captures nothing
    let later = async move { a }; // captures a
    nested(1) + nothing() + shadowed(2)
}

fn items(n: i32) -> i32 {
    fn n_squared(n: i32) -> i32 {
        n * n
    }
    const N: i32 = LIMIT + 1;
    let array = [n; 3];
    let n = n_squared(n);
    let add = |add: i32| add + n + N; // captures n
    add(array[0])
}

fn fallible(text: &str) -> Result<i32, std::num::ParseIntError> {
    let value = text.parse::<i32>()?;
    let value = if value > LIMIT { LIMIT } else { value };
    Ok(value)
}

unsafe fn raw(mut value: u8) -> u8 {
    let pointer = &raw mut value;
    unsafe { *pointer = 3 };
    let constant = const { 1 + 2 };
    value + constant
}

fn unused_names(first: u8, _second: u8, third: u8) { // unused first
    let fourth = third; // unused fourth
    let Point { x, y: fifth } = Point { x: 1, y: 2 }; // unused fifth
    let sixth = x;
    println!("{sixth}");
}
