// The books of the table.

use crate::book::Con::*;
use crate::book::*;

fn short() -> Grant {
    fact(Prop(15, 15))
}

/// Ten rows: a delegation, a self-granted right, a rule over all principals
/// and a right over all packs, with inner grants to depth 3.
fn small() -> Book {
    let mut b = Book::new("small");
    let smart = fact(Prop(0, 2));
    let rule = grant(0, 0, vec![(0, Prop(0, 2))], Prop(1, 2));
    b.issue(0, &smart);
    b.issue(1, &rule);
    b.trust(&fact(Issue(1, Box::new(rule))));
    b.issue(0, &grant(1, 0, vec![(0, Prop(3, X))], Prop(2, X)));
    b.issue(0, &grant(0, 0, vec![(0, Prop(2, 2))], Prop(3, 3)));
    b.issue(0, &fact(Prop(3, 2)));
    b.trust(&grant(0, 1, vec![], IssueVar(0)));
    b.trust(&grant(0, 2, vec![], Pack(2, 5, 0x80)));
    b.trust(&fact(Issue(
        3,
        Box::new(fact(Issue(
            1,
            Box::new(grant(0, 0, vec![(0, Prop(0, 2))], Prop(1, 2))),
        ))),
    )));
    b.trust(&short());
    b
}

/// 64 rows without a variable: facts and rules that fire one another.
fn constants() -> Book {
    let mut b = Book::new("constants");
    b.trust(&short());
    for i in 0..63u8 {
        let (k, p) = (i / 16, i % 16);
        let g = if i < 16 {
            fact(Prop(0, p))
        } else {
            grant(0, 0, vec![(p, Prop(k - 1, p)), (p, Prop(0, p))], Prop(k, p))
        };
        b.issue(p, &g);
        if i % 3 == 0 {
            b.trust(&g);
        }
    }
    b
}

/// What `variables` and `almost` stand on: everyone has said two properties
/// of everyone, and every right to issue of everyone. Numbered first and
/// issued last, which keeps the building of the book short.
fn sayings() -> Vec<Grant> {
    vec![
        grant(1, 0, vec![], Prop(0, X)),
        grant(1, 0, vec![], Prop(1, X)),
        grant(1, 1, vec![], IssueVar(X)),
    ]
}

fn by_all(b: &mut Book, grants: &[Grant]) {
    for g in grants {
        for p in 0..16 {
            b.issue(p, g);
        }
    }
}

/// Rows of two principal variables and a grant variable, with conditions that
/// hold for every substitution.
pub fn variables(rows: u8) -> Book {
    let mut b = Book::new(&format!("variables, {} rows that hold", rows));
    b.trust(&short());
    sayings().iter().for_each(|g| b.name(g));
    for i in 0..rows {
        let (k, h) = (i % 2, 2 + i / 2 % 13);
        let conds = match i / 26 {
            0 => vec![(X, IssueVar(Y)), (Y, Prop(k, X))],
            1 => vec![(X, IssueVar(Y)), (Y, IssueVar(X)), (X, Prop(k, Y))],
            _ => vec![(X, Prop(k, Y)), (Y, IssueVar(X))],
        };
        let head = if i % 5 == 4 { Prop(h, X) } else { Prop(h, Y) };
        b.issue(i % 16, &grant(2, 1, conds, head));
    }
    by_all(&mut b, &sayings());
    b
}

/// Rows of two principal variables, a grant variable and four conditions of
/// which none holds.
pub fn never(rows: u8) -> Book {
    let mut b = Book::new(&format!("four conditions, {} rows, none hold", rows));
    b.trust(&short());
    for i in 0..rows {
        let (k, h) = (i % 8, 8 + i / 8);
        let conds = vec![
            (X, Prop(k, Y)),
            (Y, IssueVar(X)),
            (X, IssueVar(Y)),
            (Y, Prop(k, X)),
        ];
        b.issue(i % 16, &grant(2, 1, conds, Prop(h % 16, X)));
    }
    b
}

/// The same, where the first three hold for everyone and the last for none.
fn almost() -> Book {
    let mut b = Book::new("four conditions, 60 rows, last never holds");
    b.trust(&short());
    sayings().iter().for_each(|g| b.name(g));
    for i in 0..60u8 {
        let (k, h) = (i % 2, 2 + i / 2 % 6);
        let conds = vec![
            (X, Prop(k, Y)),
            (Y, IssueVar(X)),
            (X, IssueVar(Y)),
            (Y, Prop(8 + i / 12, X)),
        ];
        b.issue(i % 16, &grant(2, 1, conds, Prop(h, X)));
    }
    by_all(&mut b, &sayings());
    b
}

/// All 39,168 marks by 19 rows without conditions, each trusted and issued by
/// all; `more` adds 45 rows with variables and conditions that all hold.
fn dense(more: bool) -> Book {
    let mut b = Book::new(if more {
        "dense, 64 rows"
    } else {
        "dense, 19 rows"
    });
    let mut all: Vec<Grant> = (0..16).map(|k| grant(1, 0, vec![], Prop(k, X))).collect();
    all.push(grant(1, 2, vec![], Pack(2, X, 0x80)));
    all.push(grant(1, 2, vec![], Pack(3, X, 0x80)));
    all.push(grant(1, 1, vec![], IssueVar(X)));
    all.iter().for_each(|g| b.name(g));
    if more {
        for i in 0..45u8 {
            let k = i % 16;
            let conds = if i / 16 == 1 {
                vec![(Y, Prop(k, X)), (X, IssueVar(Y))]
            } else {
                vec![(X, Prop(k, Y)), (Y, IssueVar(X))]
            };
            let head = if i < 32 { IssueVar(Y) } else { Prop(k, Y) };
            b.issue(k, &grant(2, 1, conds, head));
        }
    }
    all.iter().for_each(|g| b.trust(g));
    by_all(&mut b, &all);
    b
}

/// 28 rows by which a token walks from principal 1 to 15 and then through
/// properties 0 to 14, the last step entered first. `y` adds a second
/// principal variable and `z` a grant variable to every row.
fn chain(name: &str, x: bool, y: bool, z: bool, many: bool) -> Book {
    let mut b = Book::new(name);
    b.trust(&short());
    let mut steps = vec![];
    for i in 0..14u8 {
        steps.push((1 + i, 0, 2 + i, 0)); // reader, property, writer, property
    }
    for k in 0..14u8 {
        steps.push((15, k, 15, k + 1));
    }
    for (s, k, t, h) in steps.into_iter().rev() {
        let on = if x { X } else { 5 };
        let mut conds = vec![(s, Prop(k, on))];
        let mut head = Prop(h, on);
        if y {
            conds.push((s, Prop(k, Y)));
            head = Prop(h, Y);
        }
        if z {
            conds.push((0, IssueVar(on)));
        }
        b.issue(t, &grant(x as u8 + y as u8, z as u8, conds, head));
    }
    if many {
        b.issue(1, &grant(1, 0, vec![], Prop(0, X)));
        b.issue(0, &grant(1, 1, vec![], IssueVar(X)));
    } else {
        b.issue(1, &fact(Prop(0, 5)));
        b.issue(0, &fact(Issue(5, Box::new(short()))));
    }
    b
}

/// A chain of sayings, each of which wakes every heavy row once more. The
/// token "s said that p may issue grant i" goes up `speakers`, then one down
/// the `prins`, then to the next of `grants`. Each of `heavy` rows reads what
/// anyone says of rights to issue, under every pair of principals. It has two
/// conditions that hold for all, one on any grant, and one that holds for a
/// single pair; or, if `named`, three that hold for all and one on a grant
/// that the token never comes to. The heavy rows are numbered first, then the
/// chain, its last step first.
pub fn wakes(speakers: u8, prins: u8, grants: usize, heavy: u8, named: bool) -> Book {
    let steps = speakers as usize * prins as usize * grants;
    let how = if named { ", one grant named" } else { "" };
    let mut b = Book::new(&format!("{} steps wake {} rows{}", steps, heavy, how));
    b.trust(&short());
    let everyone = grant(1, 0, vec![], Prop(14, X));
    b.name(&everyone);
    for i in 0..heavy {
        let mut conds = vec![(X, Prop(14, Y)), (Y, Prop(14, X))];
        conds.extend(match named {
            false => [(Y, IssueVar(X)), (X, Prop(13, Y))],
            true => [(Y, Prop(14, Y)), (Y, Issue(X, Box::new(everyone.clone())))],
        });
        let head = Prop(i / 2 % 12, [X, Y][i as usize % 2]);
        b.issue(i % 16, &grant(2, 1, conds, head));
    }
    let over: Vec<Grant> = (0..grants as u8)
        .map(|i| match i {
            0 => short(),
            1 => fact(Prop(13, 7)),
            _ => step_over_speakers(i - 2),
        })
        .collect();
    for i in (1..grants).rev() {
        let (from, to) = (over[i - 1].clone(), over[i].clone());
        let cond = vec![(speakers - 1, Issue(0, Box::new(from)))];
        b.issue(0, &grant(0, 0, cond, Issue(prins - 1, Box::new(to))));
    }
    for p in 1..prins {
        let cond = vec![(speakers - 1, IssueVar(p))];
        b.issue(0, &grant(0, 1, cond, IssueVar(p - 1)));
    }
    for s in (1..speakers).rev() {
        b.issue(s, &step_over_speakers(s - 1));
    }
    by_all(&mut b, &[everyone]);
    b.issue(7, &fact(Prop(13, 7)));
    b.issue(0, &fact(Issue(prins - 1, Box::new(short()))));
    b
}

/// Whoever issues it says of rights to issue what s said.
fn step_over_speakers(s: u8) -> Grant {
    grant(1, 1, vec![(s, IssueVar(X))], IssueVar(X))
}

/// Rows that differ in their last bytes alone, with four conditions that hold
/// inner grants; none holds.
fn prefixes() -> Book {
    let mut b = Book::new("63 rows, one prefix");
    b.trust(&short());
    let inner = Box::new(short());
    let conds = vec![
        (X, Issue(Y, inner.clone())),
        (Y, Issue(X, inner.clone())),
        (X, Prop(14, Y)),
        (Y, Prop(14, X)),
    ];
    for i in 0..63u8 {
        b.issue(i % 16, &grant(2, 1, conds.clone(), Prop(i % 16, i / 16)));
    }
    b
}

/// Grants to depth 4: each lets its principal issue one that lets it issue
/// the next.
fn deep() -> Book {
    let mut b = Book::new("15 grants of depth 4");
    b.trust(&short());
    (0..3).for_each(|k| b.trust(&fact(Prop(14, k))));
    for p in 0..15u8 {
        let mut g = fact(Prop(p, p));
        for _ in 0..3 {
            b.issue(p, &g);
            g = fact(Issue(p, Box::new(g)));
        }
        b.trust(&g);
    }
    b
}

/// 60 rows whose principal variables stand in conditions alone; three hold for
/// everyone and the last for none.
fn apart() -> Book {
    let mut b = Book::new("x and y in conditions alone, 60 rows");
    b.trust(&short());
    sayings().iter().for_each(|g| b.name(g));
    for i in 0..60u8 {
        let conds = vec![
            (X, IssueVar(Y)),
            (Y, IssueVar(X)),
            (X, Prop(i % 2, Y)),
            (Y, Prop(8 + i / 12, X)),
        ];
        b.issue(i % 16, &grant(2, 1, conds, Prop(2 + i / 2 % 6, i % 16)));
    }
    by_all(&mut b, &sayings());
    b
}

/// 59 rows whose first three conditions hold for everyone and whose last holds
/// for one pair of principals.
fn once() -> Book {
    let mut b = Book::new("four conditions, 59 rows, last holds once");
    b.trust(&short());
    sayings().iter().for_each(|g| b.name(g));
    for i in 0..59u8 {
        let conds = vec![
            (X, Prop(i % 2, Y)),
            (Y, IssueVar(X)),
            (X, IssueVar(Y)),
            (Y, Prop(8, X)),
        ];
        let head = Prop(2 + i / 2 % 6, [X, Y, 0, 1, 2][i as usize / 12]);
        b.issue(i % 16, &grant(2, 1, conds, head));
    }
    b.issue(15, &fact(Prop(8, 14)));
    by_all(&mut b, &sayings());
    b
}

/// 51 rows of depth 4 whose neighbouring conditions differ in one property
/// only, three grants deep: the dearest to tell whether they ascend.
fn nested() -> Book {
    let mut b = Book::new("nested, 64 rows alike but deep inside");
    b.trust(&short());
    let above = |grants: &[Grant]| -> Vec<Grant> {
        let conds = || grants.iter().map(|g| (0, Issue(0, Box::new(g.clone())))).collect();
        let heads = grants.iter().map(|g| Issue(0, Box::new(g.clone())));
        heads.map(|head| grant(0, 0, conds(), head)).collect()
    };
    let facts: Vec<Grant> = (0..4).map(|k| fact(Prop(k, 0))).collect();
    let third = above(&above(&facts));
    for i in 0..51u8 {
        let mut g = above(&third)[0].clone();
        g.head = Prop(i % 16, i / 16);
        b.issue(i % 16, &g);
    }
    b
}

/// The books of the table, more chains that wake heavy rows, and one of them
/// with a provisional licence.
pub fn for_worst() -> Vec<Book> {
    let mut books = all();
    for (grants, heavy) in [(10, 20), (17, 13)] {
        books.push(wakes(16, 16, grants, heavy, false));
    }
    for (grants, heavy) in [(15, 15), (13, 17)] {
        books.push(wakes(16, 16, grants, heavy, true));
    }
    let mut waiting = wakes(16, 16, 15, 15, false);
    waiting.name += ", one provisional";
    waiting.wait(15, &short());
    books.push(waiting);
    books
}

pub fn all() -> Vec<Book> {
    vec![
        small(),
        constants(),
        variables(60),
        never(60),
        almost(),
        dense(false),
        dense(true),
        chain("chain, no variable", false, false, false, false),
        chain("chain, x", true, false, false, false),
        chain("chain, x y", true, true, false, false),
        chain("chain, x and grant", true, false, true, false),
        chain("chain, x y and grant", true, true, true, false),
        chain("chain, x y and grant, 16 tokens", true, true, true, true),
        once(),
        apart(),
        prefixes(),
        deep(),
        nested(),
        wakes(4, 4, 4, 24, false),
        wakes(16, 16, 15, 15, false),
    ]
}

/// The books on which provisional licences are measured.
pub fn for_waiting() -> Vec<Book> {
    vec![
        small(),
        constants(),
        variables(60),
        never(60),
        dense(true),
        chain("chain, x y", true, true, false, false),
        wakes(4, 4, 4, 24, false),
    ]
}

/// A book drawn from a seed, to compare the evaluators on more than the table.
/// Where licences wait, some are provisional and some were.
pub fn drawn(seed: u64, waits: bool) -> Book {
    let mut s = seed.wrapping_mul(0x9E37_79B9_7F4A_7C15) | 1;
    let mut next = move |n: u64| {
        s ^= s << 13;
        s ^= s >> 7;
        s ^= s << 17;
        (s >> 20) % n
    };
    let mut b = Book::new(&format!("drawn {}", seed));
    b.trust(&short());
    let mut made: Vec<Grant> = vec![fact(Prop(0, 0))];
    for _ in 0..40 {
        if b.rows.len() > 52 {
            break;
        }
        let prins = next(3) as u8;
        let res = next(3) as u8;
        fn prin(next: &mut dyn FnMut(u64) -> u64, prins: u8) -> u8 {
            if prins > 0 && next(2) == 0 {
                X + next(prins as u64) as u8
            } else {
                next(3) as u8
            }
        }
        fn con(next: &mut dyn FnMut(u64) -> u64, prins: u8, res: u8, made: &[Grant]) -> Con {
            match next(5) {
                0 | 1 => Prop(next(3) as u8, prin(next, prins)),
                2 if res == 1 && next(2) == 0 => IssueVar(prin(next, prins)),
                2 => {
                    let flat: Vec<&Grant> = made.iter().filter(|g| flat(g)).collect();
                    let g = flat[next(flat.len() as u64) as usize].clone();
                    Issue(prin(next, prins), Box::new(g))
                }
                k => {
                    let n = if res == 2 && next(2) == 0 {
                        0x80
                    } else {
                        next(2) as u8
                    };
                    Pack(k as u8 - 1, prin(next, prins), n)
                }
            }
        }
        fn flat(g: &Grant) -> bool {
            !matches!(g.head, Issue(..)) && g.conds.iter().all(|(_, c)| !matches!(c, Issue(..)))
        }
        let n = [0, 0, 1, 1, 2, 3, 4][next(7) as usize];
        let mut conds = vec![];
        for _ in 0..n {
            let q = prin(&mut next, prins);
            conds.push((q, con(&mut next, prins, res, &made)));
        }
        let head = con(&mut next, prins, res, &made);
        let g = grant(prins, res, conds, head);
        match next(4) {
            0 => b.trust(&g),
            k => {
                let p = next(3) as u8;
                match waits {
                    false => b.issue(p, &g),
                    true => b.wait(p, &g),
                }
                if waits && k == 1 {
                    b.confirm(p, &g);
                }
            }
        }
        if next(3) == 0 {
            b.issue(next(3) as u8, &g);
        }
        made.push(g);
    }
    b
}
