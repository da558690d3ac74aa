//! zigzag's text and ours through the same calls: the points are the same, bit for bit.

use beahcerot as ours;
use zigzag::{fill, geom, patterns, satin, stroke};

/// A small generator of its own: the same shapes on every machine.
struct Shapes(u64);

impl Shapes {
    fn next(&mut self) -> u64 {
        self.0 = self
            .0
            .wrapping_mul(6364136223846793005)
            .wrapping_add(1442695040888963407);
        self.0 >> 33
    }

    /// From 0 to n - 1.
    fn below(&mut self, n: u64) -> u64 {
        self.next() % n
    }

    /// From lo to hi, in steps of a quarter.
    fn number(&mut self, lo: i64, hi: i64) -> f64 {
        (lo * 4 + self.below(((hi - lo) * 4) as u64) as i64) as f64 / 4.0
    }

    fn line(&mut self, n: u64) -> Vec<ours::P> {
        (0..n)
            .map(|_| ours::P {
                x: self.number(-200, 200),
                y: self.number(-200, 200),
            })
            .collect()
    }

    fn rings(&mut self) -> Vec<Vec<ours::P>> {
        let n = self.below(4);
        (0..n)
            .map(|_| {
                let k = self.below(9);
                self.line(k)
            })
            .collect()
    }

    fn rule(&mut self) -> (ours::FillRule, geom::FillRule) {
        match self.below(2) {
            0 => (ours::FillRule::NonZero, geom::FillRule::NonZero),
            _ => (ours::FillRule::EvenOdd, geom::FillRule::EvenOdd),
        }
    }

    fn rails(&mut self) -> (ours::Rails, satin::Rails) {
        let (m, n) = (self.below(8), self.below(8));
        let (a, b) = (self.line(m), self.line(n));
        let k = self.below(4);
        let sync: Vec<(f64, f64)> = (0..k)
            .map(|_| (self.number(0, 300), self.number(0, 300)))
            .collect();
        let theirs = satin::Rails {
            a: theirs(&a),
            b: theirs(&b),
            sync: sync.clone(),
        };
        (ours::Rails { a, b, sync }, theirs)
    }
}

fn theirs(line: &[ours::P]) -> Vec<geom::P> {
    line.iter().map(|p| geom::P { x: p.x, y: p.y }).collect()
}

fn all_theirs(rings: &[Vec<ours::P>]) -> Vec<Vec<geom::P>> {
    rings.iter().map(|r| theirs(r)).collect()
}

/// The bits of every point.
fn bits(line: &[ours::P]) -> Vec<(u64, u64)> {
    line.iter()
        .map(|p| (p.x.to_bits(), p.y.to_bits()))
        .collect()
}

fn their_bits(line: &[geom::P]) -> Vec<(u64, u64)> {
    line.iter()
        .map(|p| (p.x.to_bits(), p.y.to_bits()))
        .collect()
}

fn same(ours: &[Vec<ours::P>], theirs: &[Vec<geom::P>]) {
    let ours: Vec<_> = ours.iter().map(|l| bits(l)).collect();
    let theirs: Vec<_> = theirs.iter().map(|l| their_bits(l)).collect();
    assert_eq!(ours, theirs);
}

const ROUNDS: usize = 2000;

/// Settings of a fill, in both forms, at an angle.
fn params(s: &mut Shapes, angle: f64) -> (ours::FillParams, fill::FillParams) {
    let p = ours::FillParams {
        angle,
        spacing: s.number(1, 30),
        len: s.number(2, 60),
        inset: s.number(-3, 3),
        pull: s.number(-3, 3),
        stagger: s.below(5) as u32,
        bottom_up: s.below(2) == 1,
    };
    let theirs = fill::FillParams {
        c: angle.cos(),
        s: angle.sin(),
        spacing: p.spacing,
        len: p.len,
        inset: p.inset,
        pull: p.pull,
        stagger: p.stagger,
        bottom_up: p.bottom_up,
    };
    (p, theirs)
}

/// Two fills over one table are zigzag's two lone fills; one may be refused.
#[test]
fn tatami_twice_is_two_of_zigzags() {
    let mut s = Shapes(6);
    let mut points = 0;
    for round in 0..ROUNDS {
        let rings = s.rings();
        let (rule, their_rule) = s.rule();
        let angle = s.number(-4, 4);
        let (p, their_p) = params(&mut s, angle);
        let (mut q, their_q) = params(&mut s, angle);
        let refused = round % 8 == 0;
        if refused {
            q.spacing = 0.0;
        }
        let [a, b] = ours::tatami_twice(&rings, rule, &p, &q);
        let a = a.unwrap();
        same(
            &a,
            &fill::tatami_merged(&all_theirs(&rings), their_rule, &their_p),
        );
        points += a.iter().map(|l| l.len()).sum::<usize>();
        if refused {
            assert_eq!(b, Err(ours::Refusal::Setting));
            continue;
        }
        same(
            &b.unwrap(),
            &fill::tatami_merged(&all_theirs(&rings), their_rule, &their_q),
        );
    }
    assert!(points > 100_000, "only {points} points were compared");
}

/// A version 2 job's bytes: the rule and the first fill; the second's own values; the rings.
fn job2(
    rings: &[Vec<ours::P>],
    rule: ours::FillRule,
    p: &ours::FillParams,
    q: &ours::FillParams,
) -> Vec<u8> {
    let rule = u8::from(rule == ours::FillRule::EvenOdd);
    let mut body = vec![2, rule, p.bottom_up.into(), rings.len() as u8];
    body.extend(p.stagger.to_be_bytes());
    for x in [p.angle.cos(), p.angle.sin()] {
        body.extend(x.to_be_bytes());
    }
    for x in [p.spacing, p.len, p.inset, p.pull] {
        body.extend(x.to_be_bytes());
    }
    body.push(q.bottom_up.into());
    body.extend(q.stagger.to_be_bytes());
    for x in [q.spacing, q.len, q.inset, q.pull] {
        body.extend(x.to_be_bytes());
    }
    for ring in rings {
        body.extend((ring.len() as u16).to_be_bytes());
        body.extend(
            ring.iter()
                .flat_map(|c| [c.x, c.y])
                .flat_map(f64::to_be_bytes),
        );
    }
    [&(body.len() as u32).to_be_bytes(), &body[..]].concat()
}

#[test]
fn a_version_2_job_is_two_fills() {
    let mut s = Shapes(7);
    let mut points = 0;
    for round in 0..ROUNDS {
        let (rings, (rule, _)) = (s.rings(), s.rule());
        let angle = s.number(-4, 4);
        let ((p, _), (mut q, _)) = (params(&mut s, angle), params(&mut s, angle));
        if round % 8 == 0 {
            q.spacing = 0.0;
        }
        let mut bytes = job2(&rings, rule, &p, &q);
        let sewn = ours::fill_job2(&bytes);
        assert_eq!(sewn, ours::tatami_twice(&rings, rule, &p, &q));
        points += sewn[0].iter().flatten().map(|l| l.len()).sum::<usize>();
        bytes.push(0);
        let refused = || Err(ours::Refusal::Layout);
        assert_eq!(ours::fill_job2(&bytes), [refused(), refused()]);
    }
    assert!(points > 100_000, "only {points} points were compared");
}

#[test]
fn tatami_is_zigzags() {
    let mut s = Shapes(1);
    let mut points = 0;
    for _ in 0..ROUNDS {
        let rings = s.rings();
        let (rule, their_rule) = s.rule();
        let angle = s.number(-4, 4);
        let (p, their_p) = params(&mut s, angle);
        let sewn = ours::tatami(&rings, rule, &p).unwrap();
        same(
            &sewn,
            &fill::tatami_merged(&all_theirs(&rings), their_rule, &their_p),
        );
        assert!(ours::cross_check(&rings, rule, &p), "the engines differ");
        points += sewn.iter().map(|l| l.len()).sum::<usize>();
        let pieces = ours::row_list(&rings, rule, &p).unwrap();
        let their_pieces = fill::row_list_merged(&all_theirs(&rings), their_rule, &their_p);
        let words =
            |k, y: f64, xa: f64, xb: f64, s| (k, y.to_bits(), xa.to_bits(), xb.to_bits(), s);
        let listed: Vec<_> = pieces
            .iter()
            .map(|p| words(p.row, p.y, p.xa, p.xb, p.section))
            .collect();
        let their_list: Vec<_> = their_pieces
            .iter()
            .map(|p| words(p.k, p.y, p.xa, p.xb, p.section))
            .collect();
        assert_eq!(listed, their_list);
    }
    assert!(points > 100_000, "only {points} points were compared");
}

#[test]
fn column_and_its_parts_are_zigzags() {
    let mut s = Shapes(2);
    let mut points = 0;
    for _ in 0..ROUNDS {
        let (rails, their_rails) = s.rails();
        let styles = [
            (ours::SatinStyle::Plain, satin::SatinStyle::Plain),
            (ours::SatinStyle::SStitch, satin::SatinStyle::SStitch),
            (ours::SatinStyle::Zigzag, satin::SatinStyle::Zigzag),
        ];
        let (style, their_style) = styles[s.below(3) as usize];
        let p = ours::SatinParams {
            spacing: s.number(1, 20),
            pull: s.number(-3, 3),
            underlay: s.below(8) as u8,
            run_len: s.number(5, 40),
            short_stitches: s.below(2) == 1,
            split: [None, Some(s.number(5, 60))][s.below(2) as usize],
            style,
        };
        let their_p = satin::SatinParams {
            spacing: p.spacing,
            pull: p.pull,
            underlay: p.underlay,
            run_len: p.run_len,
            short_stitches: p.short_stitches,
            split: p.split,
            style: their_style,
        };
        assert_eq!(
            bits(&ours::column(&rails, &p).unwrap()),
            their_bits(&satin::column(&their_rails, &their_p))
        );
        let (under, far) = ours::underlay(&rails, &p).unwrap();
        let (their_under, their_far) = satin::underlay(&their_rails, &their_p);
        assert_eq!(bits(&under), their_bits(&their_under));
        // zigzag turns the end for passes of no point too.
        let thread = rails.a.len() >= 2 && rails.b.len() >= 2;
        assert_eq!(far, their_far && thread);
        let top = ours::top(&rails, &p, far).unwrap();
        assert_eq!(
            bits(&[under, top].concat()),
            bits(&ours::column(&rails, &p).unwrap())
        );
        for far in [false, true] {
            assert_eq!(
                bits(&ours::top(&rails, &p, far).unwrap()),
                their_bits(&satin::top(&their_rails, &their_p, far))
            );
        }
        let pairs = ours::pairs(&rails, p.spacing).unwrap();
        let their_pairs = satin::pairs(&their_rails, p.spacing);
        let flat: Vec<ours::P> = pairs.iter().flat_map(|&(a, b)| [a, b]).collect();
        let their_flat: Vec<geom::P> = their_pairs.iter().flat_map(|&(a, b)| [a, b]).collect();
        assert_eq!(bits(&flat), their_bits(&their_flat));
        let line = &rails.a;
        assert_eq!(
            bits(&ours::split_long(line, p.run_len).unwrap()),
            their_bits(&satin::split_long(&theirs(line), p.run_len))
        );
        assert_eq!(
            bits(&ours::s_stitch(line).unwrap()),
            their_bits(&satin::s_stitch(&theirs(line)))
        );
        points += flat.len();
    }
    assert!(
        points > 10_000,
        "only {points} points of pairs were compared"
    );
}

/// A top of over 65,536 pairs is refused; the underlay beneath it is not.
#[test]
fn a_half_is_sewn_where_the_column_is_too_large() {
    let line = |y| [0.0, 40_000.0].map(|x| ours::P { x, y }).to_vec();
    let rails = ours::Rails {
        a: line(0.0),
        b: line(40.0),
        sync: vec![],
    };
    let p = ours::SatinParams {
        spacing: 0.5,
        pull: 0.0,
        underlay: 1,
        run_len: 40.0,
        short_stitches: false,
        split: None,
        style: ours::SatinStyle::Plain,
    };
    assert_eq!(ours::column(&rails, &p), Err(ours::Refusal::Size));
    assert_eq!(ours::top(&rails, &p, true), Err(ours::Refusal::Size));
    let (under, far) = ours::underlay(&rails, &p).unwrap();
    assert_eq!((under.len(), far), (1001, true));
}

#[test]
fn patterns_and_running_are_zigzags() {
    let mut s = Shapes(3);
    for _ in 0..ROUNDS {
        let (rings, (rule, their_rule)) = (s.rings(), s.rule());
        let cell = s.number(5, 60);
        same(
            &ours::cross_stitch(&rings, rule, cell).unwrap(),
            &patterns::cross_stitch(&all_theirs(&rings), their_rule, cell),
        );
        let (len, seed) = (s.number(1, 30), s.below(9));
        same(
            &ours::meander(&rings, rule, cell, len, seed).unwrap(),
            &patterns::meander_to_corners(&all_theirs(&rings), their_rule, cell, len, seed),
        );
        let n = s.below(30);
        let line = s.line(n);
        same(
            &ours::clip_inside(&line, &rings, rule).unwrap(),
            &patterns::clip_inside(&theirs(&line), &all_theirs(&rings), their_rule),
        );
        let (closed, len, passes) = (s.below(2) == 1, s.number(3, 50), s.below(4) as u32);
        assert_eq!(
            bits(&ours::running(&line, closed, len, passes).unwrap()),
            their_bits(&stroke::running_to_corners(
                &theirs(&line),
                closed,
                len,
                passes
            ))
        );
    }
}

#[test]
fn refusals_have_names() {
    let p = |x| ours::P { x, y: 0.0 };
    let rails = ours::Rails {
        a: vec![p(0.0), p(f64::NAN)],
        b: vec![p(0.0), p(1.0)],
        sync: vec![],
    };
    assert_eq!(ours::pairs(&rails, 5.0), Err(ours::Refusal::Number));
    assert_eq!(
        ours::running(&[p(0.0), p(1.0)], false, 0.5, 1),
        Err(ours::Refusal::Setting)
    );
    assert_eq!(
        ours::cross_stitch(&vec![vec![]; 256], ours::FillRule::NonZero, 10.0),
        Err(ours::Refusal::Layout)
    );
    let wide = vec![vec![p(-90000.0), p(90000.0), ours::P { x: 0.0, y: 9.0 }]];
    assert_eq!(
        ours::cross_stitch(&wide, ours::FillRule::NonZero, 1.0),
        Err(ours::Refusal::Size)
    );
}

#[test]
fn what_needs_much_room_gets_it() {
    let square = vec![
        [(0.0, 0.0), (4000.0, 0.0), (4000.0, 4000.0), (0.0, 4000.0)]
            .map(|(x, y)| ours::P { x, y })
            .to_vec(),
    ];
    let p = ours::FillParams {
        angle: 0.0,
        spacing: 1.0,
        len: 5.0,
        inset: 0.0,
        pull: 0.0,
        stagger: 4,
        bottom_up: false,
    };
    let sewn = ours::tatami(&square, ours::FillRule::NonZero, &p).unwrap();
    assert_eq!(sewn.len(), 1);
    assert!(sewn[0].len() > 3_000_000);
}
