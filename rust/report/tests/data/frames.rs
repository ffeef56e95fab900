//! Variables that no use sees, and others that are bound beside them: what the page of a file knows of renames there.

fn unseen((a, b): (u8, u8), [c, d]: [u8; 2]) {
    let _ = |e, f| {};
    {
        let (g, h) = (1, 2);
    }
    match 1 {
        i => {}
    }
    if let Some((j, k)) = None {}
    for (l, m) in [] {}
}

fn seen((a, b): (u8, u8), c: u8) -> u8 {
    let f = |a, c| a;
    let (g, h) = (b, c);
    {
        let (a, h) = (g, f);
    }
    h
}

// No Rust: two of one name in a pattern, and in two parameters.
fn twice((a, a): (u8, u8), b: u8, b: u8, c: u8) -> u8 {
    let g = |c, c, d| c + d;
    let _ = |x, y, x, y| {};
    a + b
}

fn constants<const N: usize>(n: usize) {
    let a = [0; size];
    let b: [u8; { let c = n; other(c) }] = [0; { let d = a; [d; inner] }];
    let e = g::<{ size + n }>([0; N], |z: [u8; z]| z);
    let h = const { let n = 1; n + size };
    x.y::<{ outer }>(a);
}

struct P {
    x: u8,
    y: u8,
}

fn fields(P { x, ref y }: P) -> P {
    let [mut p, q] = [P { x, y: *y }, P { x: 1, y: 2 }];
    P { x: p.x, .. } = q;
    (x, _) = (1, 2);
    P { x, y: x }
}

fn macros(a: u8, b: u8) -> u8 {
    macro_rules! m {
        ($e:expr) => {
            a + $e
        };
    }
    fn a_function(b: u8) -> u8 {
        b
    }
    println!("{a} {b:?} {c}");
    m!(b) + a_function(a)
}
