// What the programs `figures` and, told `edges`, `edges` print, worked a second time in plain Rust by another way: exact fractions of i128,
// and for each rounding the best over all the steps that the grid has.
use std::cmp::Ordering;

#[derive(Clone, Copy)]
struct Frac(i128, i128); // numerator, positive denominator

fn gcd(a: i128, b: i128) -> i128 {
    if b == 0 { a.abs() } else { gcd(b, a % b) }
}

fn frac(n: i128, d: i128) -> Frac {
    let g = gcd(n, d).max(1) * d.signum();
    Frac(n / g, d / g)
}

impl Frac {
    fn compare(self, o: Frac) -> Ordering {
        (self.0 * o.1).cmp(&(o.0 * self.1))
    }
    fn at_most(self, o: Frac) -> bool {
        self.compare(o) != Ordering::Greater
    }
    fn apply(self, sign: char, o: Frac) -> Frac {
        match sign {
            '+' => frac(self.0 * o.1 + o.0 * self.1, self.1 * o.1),
            '-' => frac(self.0 * o.1 - o.0 * self.1, self.1 * o.1),
            '*' => frac(self.0 * o.0, self.1 * o.1),
            _ => frac(self.0 * o.1, self.1 * o.0),
        }
    }
}

type Range = (Frac, Frac);

struct Form {
    name: &'static str,
    top: Frac,
    // the steps that the grid has, each with how many of it lie on one side of zero, finest first
    steps: Vec<(Frac, i128)>,
}

fn forms() -> Vec<Form> {
    let mil = Form { name: "mil", top: frac(3_000_000, 1), steps: vec![(frac(1, 1000), 3_000_000_000)] };
    let mut steps = Vec::new();
    for e in -6..=6i32 {
        let ten = 10i128.pow(e.unsigned_abs());
        steps.push((if e < 0 { frac(1, ten) } else { frac(ten, 1) }, 999_999));
    }
    let sig = Form { name: "sig", top: frac(999_999_000_000, 1), steps };
    vec![mil, sig]
}

impl Form {
    // The greatest fraction of the grid at or below q: the best over all steps.
    fn down(&self, q: Frac) -> Frac {
        let mut best: Option<Frac> = None;
        for (step, most) in &self.steps {
            let exact = q.apply('/', *step);
            let mut count = exact.0 / exact.1;
            if count * exact.1 > exact.0 {
                count -= 1;
            }
            if count < -*most {
                continue;
            }
            let value = step.apply('*', frac(count.min(*most), 1));
            if best.map_or(true, |b| b.at_most(value)) {
                best = Some(value);
            }
        }
        best.unwrap()
    }
    fn up(&self, q: Frac) -> Frac {
        let v = self.down(frac(-q.0, q.1));
        frac(-v.0, v.1)
    }
    fn reaches(&self, q: Frac) -> bool {
        frac(-self.top.0, self.top.1).at_most(q) && q.at_most(self.top)
    }
    fn step(&self, a: Range, sign: char, b: Range) -> Result<Range, u8> {
        let zero = frac(0, 1);
        if sign == '/' && b.0.at_most(zero) && zero.at_most(b.1) {
            return Err(14);
        }
        let mut all: Vec<Frac> = match sign {
            '+' => vec![a.0.apply('+', b.0), a.1.apply('+', b.1)],
            '-' => vec![a.0.apply('-', b.1), a.1.apply('-', b.0)],
            'm' => vec![if a.0.at_most(b.0) { a.0 } else { b.0 }, if a.1.at_most(b.1) { a.1 } else { b.1 }],
            'M' => vec![if a.0.at_most(b.0) { b.0 } else { a.0 }, if a.1.at_most(b.1) { b.1 } else { a.1 }],
            _ => [(a.0, b.0), (a.0, b.1), (a.1, b.0), (a.1, b.1)].iter().map(|(x, y)| x.apply(sign, *y)).collect(),
        };
        all.sort_by(|x, y| x.compare(*y));
        let (low, high) = (all[0], all[all.len() - 1]);
        if !self.reaches(low) || !self.reaches(high) {
            return Err(13);
        }
        Ok((self.down(low), self.up(high)))
    }
    fn take(&self, low: i128, high: i128) -> Range {
        (self.down(frac(low, 1000)), self.up(frac(high, 1000)))
    }
    fn plain(&self, a: Range, b: Range) -> &'static str {
        if a.1.at_most(b.0) {
            "holds"
        } else if !a.0.at_most(b.1) {
            "breaks"
        } else {
            "open"
        }
    }
    fn root(&self, a: Range, b: Range) -> Result<&'static str, u8> {
        let zero = frac(0, 1);
        let above = |x: Frac| !x.at_most(zero);
        if above(a.1) && !self.reaches(a.1.apply('*', a.1)) {
            return Err(13);
        }
        let holds = zero.at_most(b.0) && (!above(a.1) || self.up(a.1.apply('*', a.1)).at_most(b.0));
        let breaks = !zero.at_most(b.1) || (above(a.0) && !self.down(a.0.apply('*', a.0)).at_most(b.1));
        Ok(if holds { "holds" } else if breaks { "breaks" } else { "open" })
    }
}

fn decimal(q: Frac) -> String {
    let millionths = q.0 * 1_000_000 / q.1;
    assert_eq!(millionths * q.1, q.0 * 1_000_000);
    let text = format!("{}.{:06}", millionths.abs() / 1_000_000, millionths.abs() % 1_000_000);
    let text = text.trim_end_matches('0').trim_end_matches('.');
    format!("{}{}", if millionths < 0 { "-" } else { "" }, text)
}

fn shown(o: Result<Range, u8>) -> String {
    match o {
        Err(n) => format!("refused with {n}"),
        Ok((low, high)) if low.compare(high) == Ordering::Equal => decimal(low),
        Ok((low, high)) => format!("{} to {}", decimal(low), decimal(high)),
    }
}

// Works a chain from the left and prints a line for each step.
fn chain(form: &Form, first: (&str, i128, i128), rest: &[(char, &str, i128, i128)]) -> Result<Range, u8> {
    let mut text = first.0.to_string();
    let mut range = Ok(form.take(first.1, first.2));
    let mut sum = false;
    for (sign, name, low, high) in rest {
        let open = sum && (*sign == '*' || *sign == '/');
        text = match sign {
            'm' => format!("min({text},{name})"),
            'M' => format!("max({text},{name})"),
            _ if open => format!("({text}){sign}{name}"),
            _ => format!("{text}{sign}{name}"),
        };
        sum = *sign == '+' || *sign == '-';
        range = range.and_then(|r| form.step(r, *sign, form.take(*low, *high)));
        println!("  {text:<16} {}", shown(range));
    }
    range
}

// A value of sig.
fn power(mantissa: i128, exponent: i32) -> Frac {
    let ten = 10i128.pow(exponent.unsigned_abs());
    if exponent < 0 { frac(mantissa, ten) } else { frac(mantissa * ten, 1) }
}

// Works the lines of the program `edges`.
fn edges() {
    let sig = &forms()[1];
    for line in std::io::stdin().lines().map_while(Result::ok) {
        let words: Vec<&str> = line.split_whitespace().collect();
        let number = |i: usize| words[i].parse::<i32>().unwrap();
        let a = power(number(0).into(), number(1));
        let b = power(number(3).into(), number(4));
        let millionths = |q: Frac| q.0 * 1_000_000 / q.1;
        match sig.step((a, a), words[2].chars().next().unwrap(), (b, b)) {
            Ok((low, high)) => println!("{line} = {} to {}", millionths(low), millionths(high)),
            Err(number) => println!("{line} refused with {number}"),
        }
    }
}

fn main() {
    if std::env::args().nth(1).as_deref() == Some("edges") {
        return edges();
    }
    println!("A slab of thickness h, clear span lu, in inches. Rule slender: 12*lu*lu <= 34*34*h*h");
    for form in &forms() {
        println!("in {}:", form.name);
        for (low, high) in [(10_000, 10_250), (7_000, 7_500), (6_000, 6_000)] {
            println!("  {:<16} {}", "h", shown(Ok(form.take(low, high))));
            println!("  {:<16} {}", "lu", shown(Ok(form.take(72_000, 72_000))));
            let left = chain(form, ("12", 12_000, 12_000), &[('*', "lu", 72_000, 72_000), ('*', "lu", 72_000, 72_000)]).unwrap();
            let right = chain(form, ("34", 34_000, 34_000), &[('*', "34", 34_000, 34_000), ('*', "h", low, high), ('*', "h", low, high)]).unwrap();
            println!("  {:<16} {}", "slender", form.plain(left, right));
        }
        let _ = chain(form, ("2", 2_000, 2_000), &[('/', "3", 3_000, 3_000)]);
        let _ = chain(form, ("0", 0, 0), &[('-', "2", 2_000, 2_000), ('/', "3", 3_000, 3_000)]);
        for sign in ['m', 'M', '+'] {
            let _ = chain(form, ("[1,4]", 1_000, 4_000), &[(sign, "[2,3]", 2_000, 3_000)]);
        }
        let _ = chain(form, ("[-2,3]", -2_000, 3_000), &[('*', "[-4,5]", -4_000, 5_000)]);
        let _ = chain(form, ("750000", 750_000_000, 750_000_000), &[('*', "4", 4_000, 4_000)]);
        let _ = chain(form, ("750000", 750_000_000, 750_000_000), &[('*', "4.001", 4_001, 4_001)]);
        let root = form.root(form.take(-3_000, -2_000), form.take(1_000, 1_000));
        println!("  {:<16} {}", "[-3,-2]<=root(1)", root.unwrap());
    }
}
