//! The listing of the largest file with each stretch counted anew. It would take hours, so it is timed
//! in smaller frames, and the time in the longest extrapolated by the ticks that are counted, whose
//! number is known exactly. How far that can be trusted stands in a line for each frame that was timed
//! but the first: its time, and the time which the frame before lets expect.

use second::editions::Edition;
use second::limits::{FRAME, PARTITIONS};
use second::service::Service;
use second::Answer;

use crate::apart;
use crate::files::Shape;
use crate::list::listed;
use crate::steps;
use crate::timing::{beside, print, quickest};

/// Those that can be waited for.
const FRAMES: [usize; 3] = [64, 128, 256];

/// The least service of t ticks, by counting them from every start.
fn least(ticks: &[u16], p: u16, t: usize) -> u64 {
    Service::new(Edition::One, ticks).least(p, t as u32)
}

/// The listing, and how many ticks are counted on the way to it: F·t for the least service of t ticks,
/// which is looked up in the curve here.
fn expected(file: &[u8]) -> (Result<String, Answer>, f64) {
    let mut curves = vec![Vec::new(); PARTITIONS + 1];
    let mut counted = 0;
    let text = apart::list(file, |ticks, p, t| {
        let curve = &mut curves[usize::from(p)];
        if curve.is_empty() {
            curve.resize(FRAME + 1, 0);
            steps::draw::<1>(ticks, p, curve);
        }
        counted += ticks.len() * t;
        curve[t].into()
    });
    (text, counted as f64)
}

/// A listing that was waited for.
struct Timed {
    frame: usize,
    counted: f64,
    time: f64,
}

impl Timed {
    fn new(shape: Shape) -> Timed {
        let file = shape.bytes::<1>();
        let (text, counted) = expected(&file);
        let anew = || apart::list(&file, least);
        assert_eq!(anew(), text);
        Timed {
            frame: shape.frame,
            counted,
            time: quickest(anew),
        }
    }

    /// The time of a listing for which so many ticks are counted.
    fn lets_expect(&self, counted: f64) -> f64 {
        self.time / self.counted * counted
    }
}

pub fn lines(name: &str, shape: Shape) {
    let timed = FRAMES.map(|frame| Timed::new(shape.within(frame)));
    for pair in timed.windows(2) {
        let name = format!(
            "list {name}, anew, F {} by F {}",
            pair[1].frame, pair[0].frame
        );
        print(&name, [pair[1].time, pair[0].lets_expect(pair[1].counted)]);
    }
    let file = shape.bytes::<1>();
    let (text, counted) = expected(&file);
    let [library, _] = beside(name, || listed(&file), || text.clone());
    let last = &timed[timed.len() - 1];
    let name = format!("list {name}, anew (extrapolated from F {})", last.frame);
    print(&name, [library, last.lets_expect(counted)]);
}
