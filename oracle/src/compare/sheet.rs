//! Document 01's sheet of checks, by name, at the head of the replay list.

use super::fill::replayed;
use super::geom::outline_call;
use super::records::{self, Call, List, Owed};
use crate::expect::DONE;
use crate::inputs::fills::Fill;
use crate::inputs::outlines::points;
use crate::inputs::rails::{Matched, Path, Rails};
use crate::owed::{fill, satin};
use zigzag::geom::{FillRule, P, point_inside};
use zigzag::patterns::cross_stitch;
use zigzag::stroke::running;

pub fn replay(list: &mut List) {
    fills(list);
    outlines(list);
    rails(list);
    run_only(list);
    list.name("end of the sheet");
}

fn named(list: &mut List, name: &str, record: Option<(Call, Owed)>) {
    list.name(name);
    list.add(&record.expect("a check of the sheet is no record"));
}

/// A fill that is lent so much.
fn lent(f: &Fill, lent: &[usize]) -> Option<(Call, Owed)> {
    let left = fill::tatami(f, lent, fill::Equal::Original);
    Some((replayed(0x50, f, lent)?, records::left(&left)))
}

fn k1_to_k6() -> [(&'static str, Fill); 6] {
    let with = |change: fn(&mut Fill)| {
        let mut fill = Fill::k1();
        change(&mut fill);
        fill
    };
    [
        ("K1 Q: one section", Fill::k1()),
        ("K2 bottom up", with(|f| f.bottom_up = true)),
        ("K3 len 5", with(|f| f.len = 5.0)),
        ("K4 stagger 2", with(|f| f.stagger = 2)),
        ("K5 inset 3.5 keeps 3.5 to 6.5", with(|f| f.inset = 3.5)),
        ("K6 inset 4 gives no section", with(|f| f.inset = 4.0)),
    ]
}

/// K1 to K6, each lent its need.
fn fills(list: &mut List) {
    for (name, f) in k1_to_k6() {
        let need = fill::tatami_need(&f).expect("a check of the sheet is refused");
        named(list, name, lent(&f, &need));
    }
}

fn outlines(list: &mut List) {
    let q = Fill::k1().outline;
    let rule = FillRule::NonZero;
    for (name, at) in [
        ("K7 (0,5) is inside Q", 0.0),
        ("K8 (10,5) is outside", 10.0),
    ] {
        let inside = point_inside(&q.rings(), rule, P::new(at, 5.0));
        let owed = records::values(DONE, 1, || Some(vec![inside.into()]));
        let call = outline_call(0x31, &q, rule, &[at, 5.0]);
        named(list, name, call.zip(owed));
    }
    let lines = cross_stitch(&q.rings(), rule, 10.0);
    let points = lines.concat();
    let call = outline_call(0x71, &q, rule, &[10.0]).map(|call| Call {
        lent: vec![2 * points.len(), lines.len()],
        ..call
    });
    let owed = Owed {
        words: vec![DONE, lines.len() as u64, points.len() as u64],
        slices: vec![flat(&points), vec![points.len() as u64]],
    };
    named(
        list,
        "K9 cross stitch, cell 10",
        call.map(|call| (call, owed)),
    );
}

fn flat(points: &[P]) -> Vec<u64> {
    let words = points.iter().flat_map(|p| [p.x.to_bits(), p.y.to_bits()]);
    words.collect()
}

/// Pairs of K10's rails.
fn matched(rails: Rails, step: f64, lent: &[usize]) -> Option<(Call, Owed)> {
    let bits = records::bits;
    let call = Call {
        function: 0x60,
        floats: vec![step],
        lent: lent.to_vec(),
        lists: vec![bits(&rails.a)?, bits(&rails.b)?, bits(&rails.sync)?],
        ..Call::default()
    };
    let left = satin::pairs(&Matched { rails, step }, lent);
    Some((call, records::left(&left)))
}

fn bar() -> Rails {
    Rails::bar(10.0, 10.0, 4.0)
}

fn rails(list: &mut List) {
    let name = "K10 pairs at x = 0, 5, 10";
    named(list, name, matched(bar(), 5.0, &[32, 12]));
    let bent = Path {
        line: vec![0.0, 0.0, 6.0, 0.0],
        max: 0.0,
    };
    let call = Call {
        function: 0x44,
        lent: vec![4],
        lists: vec![bent.line.iter().map(|x| x.to_bits()).collect()],
        ..Call::default()
    };
    let owed = records::left(&satin::s_stitch(&bent, &[4]));
    let name = "K11 an s form of length 6 stays straight";
    named(list, name, Some((call, owed)));
    let line = [0.0, 0.0, 10.0, 0.0];
    let made = running(&points(&line), false, 5.0, 2);
    let call = Call {
        function: 0x42,
        floats: vec![5.0],
        wholes: vec![0, 2],
        lent: vec![2 * made.len()],
        lists: vec![line.iter().map(|x| x.to_bits()).collect()],
    };
    let owed = Owed {
        words: vec![DONE, made.len() as u64],
        slices: vec![flat(&made)],
    };
    let name = "K12 running (0,0)-(10,0), len 5, 2 passes: x = 0, 5, 10, 5, 0";
    named(list, name, Some((call, owed)));
}

/// Those that are run only, and the same of K10's rails.
fn run_only(list: &mut List) {
    let need = [20, 20, 8, 1];
    let fine = Fill {
        spacing: 0.49,
        ..Fill::k1()
    };
    let checks = [
        (
            "no rings gives DONE with no section",
            Fill::new(&[]),
            [0; 4],
        ),
        ("spacing 0.49 gives SETTING", fine, need),
        (
            "one float short of the need gives WORK",
            Fill::k1(),
            [19, 20, 8, 1],
        ),
        (
            "output of 7 floats for K1 gives ROOM",
            Fill::k1(),
            [20, 20, 7, 1],
        ),
    ];
    for (name, f, words) in checks {
        named(list, name, lent(&f, &words));
    }
    let none = Rails::new(&[], &[]);
    let checks = [
        ("pairs of no rails: DONE and nothing", none, 5.0, [0, 0]),
        ("pairs at step 0.49: SETTING", bar(), 0.49, [32, 12]),
        ("pairs one float short: WORK", bar(), 5.0, [31, 12]),
        ("pairs to 11 floats: ROOM", bar(), 5.0, [32, 11]),
    ];
    for (name, rails, step, words) in checks {
        named(list, name, matched(rails, step, &words));
    }
}
