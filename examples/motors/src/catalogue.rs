//! The catalogue: 200 invented motors, as rows of eight whole numbers. The same rows in every run.

/// The columns of a row, in order: name and unit, as the header of `motors.csv` has them.
pub const COLUMNS: [&str; 8] = [
    "voltage_V",
    "price_cents",
    "weight_g",
    "power_W",
    "speed_rpm",
    "torque_mNm",
    "efficiency_permille",
    "delivery_days",
];

pub type Row = [i32; 8];

/// A frame size, with what its motors cost and weigh before the differences of the single motor.
struct Frame {
    cents: i32,
    grams: i32,
    permille: i32,
    volts: [i32; 5],
    watts: [i32; 2],
    rpm: [i32; 2],
}

const SMALL: [i32; 5] = [6, 9, 12, 18, 24];
const MIDDLE: [i32; 5] = [12, 18, 24, 28, 36];
const LARGE: [i32; 5] = [12, 24, 36, 48, 60];

#[rustfmt::skip]
const FRAMES: [Frame; 10] = [
    Frame { cents:  2_400, grams:    60, permille: 560, volts: SMALL,  watts: [ 5,   8], rpm: [6000, 9000] },
    Frame { cents:  2_900, grams:    95, permille: 590, volts: SMALL,  watts: [ 8,  12], rpm: [4500, 6000] },
    Frame { cents:  3_500, grams:   150, permille: 620, volts: SMALL,  watts: [12,  20], rpm: [4500, 6000] },
    Frame { cents:  4_200, grams:   230, permille: 650, volts: MIDDLE, watts: [20,  30], rpm: [3000, 4500] },
    Frame { cents:  5_100, grams:   340, permille: 680, volts: MIDDLE, watts: [30,  45], rpm: [3000, 4500] },
    Frame { cents:  6_300, grams:   480, permille: 710, volts: MIDDLE, watts: [45,  60], rpm: [3000, 4500] },
    Frame { cents:  7_200, grams:   680, permille: 740, volts: MIDDLE, watts: [60,  75], rpm: [2000, 3000] },
    Frame { cents:  8_300, grams:   940, permille: 760, volts: LARGE,  watts: [60,  90], rpm: [2000, 3000] },
    Frame { cents:  9_900, grams: 1_350, permille: 780, volts: LARGE,  watts: [75,  90], rpm: [2000, 3000] },
    Frame { cents: 12_800, grams: 1_900, permille: 800, volts: LARGE,  watts: [90, 120], rpm: [1500, 3000] },
];

/// What a motor of the frame differs by. A linear congruential generator with the constants of Knuth's MMIX: no
/// randomness of the machine, so that every run writes the same bytes.
struct Differences(u64);

impl Differences {
    /// A number from 0 up to and without `count`.
    fn below(&mut self, count: i32) -> i32 {
        self.0 = self
            .0
            .wrapping_mul(6364136223846793005)
            .wrapping_add(1442695040888963407);
        ((self.0 >> 33) % count as u64) as i32
    }
}

/// All motors: frame by frame, in it by voltage, power and speed.
pub fn catalogue() -> Vec<Row> {
    let mut differences = Differences(24);
    let mut rows = Vec::new();
    for frame in &FRAMES {
        for volts in frame.volts {
            for watts in frame.watts {
                for rpm in frame.rpm {
                    rows.push(motor(frame, volts, watts, rpm, &mut differences));
                }
            }
        }
    }
    rows
}

/// Unusual voltages cost more, as do power and speed; torque follows from power and speed; most motors are in stock.
fn motor(frame: &Frame, volts: i32, watts: i32, rpm: i32, differences: &mut Differences) -> Row {
    let common = volts == 12 || volts == 24;
    let listed = frame.cents + 14 * watts + rpm / 10 + if common { 0 } else { 450 };
    let cents = listed * (880 + differences.below(241)) / 1000 / 10 * 10;
    let grams = (frame.grams + watts / 2) * (920 + differences.below(161)) / 1000;
    let torque = 9549 * watts / rpm;
    let permille = frame.permille + differences.below(61);
    let days = [3, 3, 3, 3, 3, 28, 28, 42][differences.below(8) as usize];
    [volts, cents, grams, watts, rpm, torque, permille, days]
}
