//! Variables that `tests/rename.rs` renames.
#![allow(unused, dead_code)]

struct P {
    x: i32,
    r#type: i32,
}

const LIMIT: i32 = 3;

fn c() -> i32 {
    1
}

fn shadows(a: i32) -> i32 {
    let b = a + 1;
    let a = b;
    a + c()
}

fn fields(P { x, ref r#type }: P) -> P {
    let x = x + *r#type;
    P { x, r#type: 1 }
}

fn targets(p: P) {
    let mut first = 1;
    let mut x = 2;
    P { x, r#type: first } = p;
    (first, x) = (x, first);
    x += first;
}

fn arms(ä: Option<i32>, b: i32) -> i32 {
    match ä {
        Some(one) if one < b => /* ä */ one + b,
        Some(0..=LIMIT) | None => 0,
        Some(two) => two,
    }
}

const fn size() -> usize {
    3
}

fn constants(a: usize) -> usize {
    let b = a;
    let three = [b; size()];
    let other = const { size() + 1 };
    let array: [u8; size()] = [0; 3];
    {
        let long = three.len();
        fn inner(v: usize) -> usize {
            v + size()
        }
        inner(long) + other + array.len()
    }
}

impl P {
    fn itself(self) -> P {
        self
    }

    fn replaced(mut self, other: P) -> P {
        self = other;
        self
    }
}

fn macros(value: i32, other: i32) {
    let text = "x";
    println!("{value} {text:>1$}", other, 1);
    macro_rules! twice {
        () => {
            other + other
        };
    }
}
