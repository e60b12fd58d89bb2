//! Opens the player for ten timetables in a real browser, steps through each to the end and back, and compares what the page
//! shows with the second implementation's replay. Then takes README's screenshots, into the folder named.

use browser::cases::{self, Case};
use browser::driver::{Driver, Outcome, Screen};
use browser::json::Json;
use browser::replay::{replay, Shown};
use std::path::{Path, PathBuf};
use std::process::ExitCode;
use std::time::{Duration, Instant};
use wichteab_tool::{picture, player};

const LIMIT: Duration = Duration::from_secs(15 * 60);
const DESKTOP: Screen = Screen { width: 1200, height: 810, scale: 1 };
const PHONE: Screen = Screen { width: 360, height: 740, scale: 2 };
/// The same in fewer pixels, for README.
const PHONE_PICTURE: Screen = Screen { scale: 1, ..PHONE };
/// The smallest tile that can be read on a phone, in pixels.
const SMALLEST_TILE: f64 = 24.0;
/// What the page shows, read off the drawing and the words alone.
const READING: &str = include_str!("reading.js");

const LEFT: &str = "\u{e012}";
const RIGHT: &str = "\u{e014}";
const END: &str = "\u{e010}";
const HOME: &str = "\u{e011}";

fn main() -> ExitCode {
    let Some(pictures) = std::env::args_os().nth(1).map(PathBuf::from) else {
        eprintln!("usage: browser FOLDER-FOR-SCREENSHOTS");
        return ExitCode::from(2);
    };
    let folder = std::env::temp_dir().join(format!("wichteab-browser-{}", std::process::id()));
    let outcome = play_all(&folder, &pictures);
    let _ = std::fs::remove_dir_all(&folder);
    match outcome {
        Ok(floors) => {
            println!("10 timetables played, {floors} floors compared, 0 differ");
            ExitCode::SUCCESS
        }
        Err(fault) => {
            eprintln!("tests/browser: {fault}");
            ExitCode::FAILURE
        }
    }
}

fn written(path: &Path, text: &[u8]) -> Outcome<()> {
    std::fs::write(path, text).map_err(|fault| format!("{}: {fault}", path.display()))
}

fn play_all(folder: &Path, pictures: &Path) -> Outcome<usize> {
    std::fs::create_dir_all(folder).map_err(|fault| fault.to_string())?;
    std::fs::create_dir_all(pictures).map_err(|fault| fault.to_string())?;
    let cases = cases::all();
    let driver = Driver::start(folder, LIMIT)?;
    let mut floors = 0;
    for case in &cases {
        let path = folder.join(format!("{}.html", case.name));
        written(&path, player::page(case.title, &case.order, &case.timetable).as_bytes())?;
        let mut play = Play { driver: &driver, case, path, shown: replay(case), floors: 0 };
        play.whole().map_err(|fault| format!("{}: {fault}", case.name))?;
        println!("{}: {} steps, {} floors compared", case.name, play.shown.len() - 1, play.floors);
        floors += play.floors;
    }
    take_pictures(&driver, &cases, folder, pictures)?;
    Ok(floors)
}

/// A timetable in the player.
struct Play<'a> {
    driver: &'a Driver,
    case: &'a Case,
    path: PathBuf,
    /// What has to be shown, at the start and after each step.
    shown: Vec<Shown>,
    /// How many floors were compared.
    floors: usize,
}

fn expect(holds: bool, what: impl FnOnce() -> String) -> Outcome<()> {
    if holds {
        Ok(())
    } else {
        Err(what())
    }
}

impl Play<'_> {
    fn whole(&mut self) -> Outcome<()> {
        self.open(DESKTOP, true)?;
        self.there_and_back()?;
        self.by_keys_and_slider()?;
        self.by_itself()?;
        self.in_motion()?;
        self.on_a_phone()?;
        let complaints = self.driver.complaints()?;
        expect(complaints.is_empty(), || format!("the browser complains: {}", complaints.join("; ")))
    }

    fn open(&self, screen: Screen, still: bool) -> Outcome<()> {
        self.driver.emulate(screen, false, still)?;
        self.driver.open(&self.path)
    }

    fn last(&self) -> usize {
        self.shown.len() - 1
    }

    /// Forward to the end and one further, then back to the start and one further, by buttons and keys in turn.
    fn there_and_back(&mut self) -> Outcome<()> {
        self.compare(0)?;
        for step in 1..=self.last() + 1 {
            if step % 2 == 0 {
                self.driver.click("#forward")?
            } else {
                self.driver.press("body", RIGHT)?
            }
            self.compare(step.min(self.last()))?;
        }
        for step in (0..self.last()).rev() {
            if step % 2 == 0 {
                self.driver.click("#back")?
            } else {
                self.driver.press("body", LEFT)?
            }
            self.compare(step)?;
        }
        self.driver.press("body", LEFT)?;
        self.compare(0)
    }

    fn by_keys_and_slider(&mut self) -> Outcome<()> {
        let last = self.last();
        for (selector, key, step) in
            [("body", END, last), ("body", HOME, 0), ("#slider", RIGHT, last.min(1)), ("#slider", END, last)]
        {
            self.driver.press(selector, key)?;
            self.compare(step)?;
        }
        self.driver.click("#first")?;
        self.compare(0)?;
        self.driver.click("#last")?;
        self.compare(last)?;
        self.driver.drag("#slider", 0, -400)?;
        self.compare(0)?;
        self.driver.drag("#slider", -300, 400)?;
        self.compare(last)
    }

    /// Plays at the greatest speed, from the start to the end; a long timetable is paused and let go on first.
    fn by_itself(&mut self) -> Outcome<()> {
        self.driver.press("body", HOME)?;
        self.driver.press("body", "++++++ ")?;
        if self.last() > 40 {
            self.await_step(5)?;
            self.driver.press("body", " ")?;
            let paused = self.step()?;
            std::thread::sleep(Duration::from_millis(250));
            expect(self.step()? == paused && paused < self.last(), || format!("no pause at step {paused}"))?;
            self.compare(paused)?;
            self.driver.press("body", " ")?;
        }
        self.await_step(self.last())?;
        self.compare(self.last())?;
        let label =
            self.driver.evaluate("return document.getElementById('play').getAttribute('aria-label')")?;
        expect(label.text() == "Play", || "it plays on after the end".to_string())
    }

    fn step(&self) -> Outcome<usize> {
        let step = self.driver.evaluate("return Number(document.getElementById('step').textContent)")?;
        step.whole().ok_or("no step".to_string())
    }

    fn await_step(&self, wanted: usize) -> Outcome<()> {
        let begun = Instant::now();
        while self.step()? < wanted {
            expect(begun.elapsed() < Duration::from_secs(30), || format!("step {wanted} is not reached"))?;
            std::thread::sleep(Duration::from_millis(20));
        }
        Ok(())
    }

    /// With motion: the racks arrive where they belong.
    fn in_motion(&mut self) -> Outcome<()> {
        self.open(DESKTOP, false)?;
        self.driver.click("#forward")?;
        let begun = Instant::now();
        while let Err(fault) = self.compare(self.last().min(1)) {
            expect(begun.elapsed() < Duration::from_secs(5), || format!("in motion: {fault}"))?;
        }
        Ok(())
    }

    /// Nothing sticks out of a phone's screen but a wide floor in its own frame, and tiles can be read.
    fn on_a_phone(&mut self) -> Outcome<()> {
        self.open(PHONE, true)?;
        self.compare(0)?;
        let width = "return Math.max(document.documentElement.scrollWidth, ...Array.from(document.querySelectorAll('button, \
                     input, section, p, h1'), (part) => part.getBoundingClientRect().right))";
        let tile = "return document.querySelector('[data-tile]').getBoundingClientRect().width";
        let (Json::Number(width), Json::Number(tile)) =
            (self.driver.evaluate(width)?, self.driver.evaluate(tile)?)
        else {
            return Err("no widths".to_string());
        };
        expect(width <= f64::from(PHONE.width), || format!("the page is {width} wide on a phone"))?;
        expect(tile >= SMALLEST_TILE, || format!("a tile is {tile} wide on a phone"))
    }

    /// Reads the page, and compares it with the floor after so many steps.
    fn compare(&mut self, step: usize) -> Outcome<()> {
        let page = self.driver.evaluate(READING)?;
        let shown = &self.shown[step];
        let wanted = wanted(self.case, shown, step, self.last());
        for (name, value) in wanted {
            let read = page.field(name);
            expect(read == &value, || format!("step {step}, {name}: {read:?} instead of {value:?}"))?;
        }
        self.floors += 1;
        Ok(())
    }
}

/// What the reading of the page has to give.
fn wanted(case: &Case, shown: &Shown, step: usize, last: usize) -> Vec<(&'static str, Json)> {
    let number = |number: usize| Json::Number(number as f64);
    let list = |items: &mut dyn Iterator<Item = Json>| Json::List(items.collect());
    let racks = shown.places.iter().zip(&case.order.goals).enumerate().map(|(index, (&place, &goal))| {
        let home = Json::Truth(place == goal);
        // Its number as it is written, its place by the attribute, the tiles that it is drawn on, its goal, its marks.
        Json::List(vec![
            Json::Text((index + 1).to_string()),
            number(place),
            Json::List(vec![number(place)]),
            number(goal),
            home.clone(),
            home,
        ])
    });
    // A train by its positions, where its line is drawn from and to, and how many heads it has.
    let trains = shown.trains.iter().map(|train| {
        let names: Vec<String> = train.iter().map(usize::to_string).collect();
        let (first, last) = (train[0], train[train.len() - 1]);
        Json::List(vec![Json::Text(names.join(">")), number(first), number(last), number(train.len() - 1)])
    });
    vec![
        ("step", Json::Text(format!("{step} of {last}"))),
        ("moves", Json::Text(format!("{} of {}", shown.moves_made, total(case)))),
        ("home", Json::Text(format!("{} of {}", shown.racks_home, shown.places.len()))),
        ("slider", Json::Text(step.to_string())),
        ("racks", list(&mut racks.into_iter())),
        ("trains", list(&mut trains.into_iter())),
        ("said", Json::Text(words(shown, step, last))),
        ("loaded", number(0)),
    ]
}

fn total(case: &Case) -> usize {
    case.timetable.steps.iter().map(Vec::len).sum()
}

fn words(shown: &Shown, step: usize, last: usize) -> String {
    let home = if shown.racks_home == shown.places.len() { " Every rack is at its goal." } else { "" };
    let moves =
        shown.moves.iter().map(|(rack, left, entered)| format!("rack {rack} from {left} to {entered}"));
    match (step, last) {
        (_, 0) => format!("There are no steps.{home}"),
        (0, 1) => format!("Start. 1 step to come.{home}"),
        (0, _) => format!("Start. {last} steps to come.{home}"),
        _ => format!("Step {step} of {last}: {}.{home}", moves.collect::<Vec<_>>().join(", ")),
    }
}

/// README's screenshots: name, timetable, steps made, screen, whether it is dark.
const PICTURES: [(&str, &str, usize, Screen, bool); 5] = [
    ("player", "four_by_four", 4, DESKTOP, false),
    ("player_dark", "half_vacant", 3, DESKTOP, true),
    ("player_handles", "handles", 3, DESKTOP, false),
    ("player_phone", "eight_by_eight", 7, PHONE_PICTURE, false),
    ("player_phone_dark", "ring_of_ten", 1, PHONE_PICTURE, true),
];

fn take_pictures(driver: &Driver, cases: &[Case], folder: &Path, pictures: &Path) -> Outcome<()> {
    for (name, case, steps, screen, dark) in PICTURES {
        driver.emulate(screen, dark, true)?;
        driver.open(&folder.join(format!("{case}.html")))?;
        for _ in 0..steps {
            driver.press("body", RIGHT)?;
        }
        written(&pictures.join(format!("{name}.png")), &driver.screenshot()?)?;
    }
    let depot = cases.iter().find(|case| case.name == "depot").ok_or("no depot")?;
    let drawn = folder.join("depot.svg");
    written(&drawn, picture::picture(&depot.order).as_bytes())?;
    driver.open(&drawn)?;
    let size = |name: &str| {
        driver.evaluate(&format!("return Number(document.documentElement.getAttribute('{name}'))"))
    };
    let (width, height) =
        (size("width")?.whole().ok_or("no width")?, size("height")?.whole().ok_or("no height")?);
    driver.emulate(Screen { width: width as u32, height: height as u32, scale: 1 }, false, true)?;
    written(&pictures.join("picture.png"), &driver.screenshot()?)
}
