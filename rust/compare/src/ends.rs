// Ends by their places: the three of a lone pass, or the nine pairs of a frame, the second end turning first.
use plain::End;

pub const SINGLE: usize = 3;
pub const PAIRS: usize = 9;

// The numbers that depend on which paths there are.
const BY_PATHS: [usize; 3] = [12, 13, 14];

pub fn pair(place: usize) -> [End; 2] {
    [End::ALL[place / 3], End::ALL[place % 3]]
}

// There is no place where a number is no end.
pub fn place(ends: &[End]) -> Option<usize> {
    ends.iter().try_fold(0, |place, end| Some(3 * place + End::ALL.iter().position(|e| e == end)?))
}

fn at(places: usize, place: usize) -> Vec<End> {
    if places == SINGLE { vec![End::ALL[place]] } else { pair(place).to_vec() }
}

fn named(ends: &[End]) -> String {
    let names: Vec<String> = ends.iter().map(|end| format!("{end:?}").to_lowercase()).collect();
    names.join("/")
}

// `counts` are those of the numbers given at each place, and last of those given where a number is no end. Every place must be answered by 0 and,
// where the stage asks for `all`, by those of its numbers that depend on paths; but open ends alone never by these, since there is a path whatever
// the bits. What is no end must be answered by 2.
pub fn all_answered(stage: &str, numbers: &[u32], all: bool, counts: &[Vec<u64>]) -> bool {
    let mut good = true;
    let mut held = |right: bool, n: usize, given: &str, name: &str| {
        if !right {
            println!("{stage}: {n} was {given} for {name}");
            good = false;
        }
    };
    let (no_end, counts) = counts.split_last().expect("a place for what is no end");
    let mut told = Vec::new();
    for (place, given) in counts.iter().enumerate() {
        let ends = at(counts.len(), place);
        let name = named(&ends);
        let open = ends.iter().all(|&end| end == End::Open);
        held(given[0] > 0, 0, "never given", &name);
        for n in BY_PATHS.into_iter().filter(|&n| numbers.contains(&(n as u32))) {
            held(given[n] > 0 || open || !all, n, "never given", &name);
            held(given[n] == 0 || !open, n, "given", &name);
        }
        let by_paths = BY_PATHS.iter().filter(|&&n| given[n] > 0).map(|&n| format!(" {n}:{}", given[n]));
        told.push(format!("{name} 0:{}{}", given[0], by_paths.collect::<String>()));
    }
    held(no_end[2] > 0 || !all, 2, "never given", "what is no end");
    for n in (0..no_end.len()).filter(|&n| n != 2) {
        held(no_end[n] == 0, n, "given", "what is no end");
    }
    println!("{stage}: by ends {}, no end 2:{}", told.join(", "), no_end[2]);
    good
}
