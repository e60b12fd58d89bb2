//! The player's page without a browser: its data, its words and what it begins with.

use browser::cases::{self, Case};
use browser::json::{self, Json};
use browser::markup::{elements, Tag};
use browser::replay::replay;
use wichteab_tool::player::page;
use wichteab_tool::records::{Order, Timetable};

fn page_of(case: &Case) -> String {
    page(case.title, &case.order, &case.timetable)
}

/// What stands between the two in the text, the first time.
fn between<'a>(text: &'a str, before: &str, after: &str) -> &'a str {
    let (_, behind) = text.split_once(before).expect("its begin is there");
    behind.split_once(after).expect("its end is there").0
}

fn data(page: &str) -> Json {
    json::read(between(page, "<script type=\"application/json\" id=\"data\">", "</script>"))
        .expect("the data are JSON")
}

fn numbers(list: &Json) -> Vec<usize> {
    list.list().iter().map(|number| number.whole().expect("a whole number")).collect()
}

fn pairs(list: &Json) -> Vec<(usize, usize)> {
    let pair = |pair: &Json| match numbers(pair)[..] {
        [a, b] => (a, b),
        _ => panic!("no pair: {pair:?}"),
    };
    list.list().iter().map(pair).collect()
}

/// Order and timetable as a page's data give them.
fn read_back(page: &str) -> (Order, Timetable) {
    let data = data(page);
    let order = Order {
        positions: data.field("positions").whole().expect("a whole number"),
        edges: pairs(data.field("edges")),
        starts: numbers(data.field("starts")),
        goals: numbers(data.field("goals")),
    };
    (order, Timetable { steps: data.field("steps").list().iter().map(pairs).collect() })
}

#[test]
fn the_ten_timetables() {
    let cases = cases::all();
    let racks_and_positions: Vec<(usize, usize)> =
        cases.iter().map(|case| (case.order.starts.len(), case.order.positions)).collect();
    let wanted =
        [(4, 6), (10, 12), (14, 16), (18, 20), (62, 64), (9, 10), (16, 18), (14, 28), (7, 9), (8, 27)];
    assert_eq!(racks_and_positions, wanted);
    let longest =
        |case: &Case| replay(case).iter().flat_map(|shown| &shown.trains).map(|train| train.len() - 1).max();
    assert_eq!(longest(&cases[9]), Some(8));
    let without_steps: Vec<&str> =
        cases.iter().filter(|case| case.timetable.steps.is_empty()).map(|case| case.name).collect();
    assert_eq!(without_steps, ["no_steps"]);
}

#[test]
fn the_data_are_order_and_timetable() {
    for case in cases::all() {
        let (order, timetable) = read_back(&page_of(&case));
        assert_eq!((order, timetable), (case.order, case.timetable), "{}", case.name);
    }
}

/// The steps of the data, made one after another on the starts of the data, against the second implementation's replay.
#[test]
fn the_data_replayed() {
    for case in cases::all() {
        let (order, timetable) = read_back(&page_of(&case));
        let mut places = order.starts.clone();
        let shown = replay(&case);
        assert_eq!(shown.len(), timetable.steps.len() + 1);
        assert_eq!(shown[0].places, places);
        for (step, wanted) in timetable.steps.iter().zip(&shown[1..]) {
            for place in &mut places {
                *place =
                    step.iter().find(|&&(left, _)| left == *place).map_or(*place, |&(_, entered)| entered);
            }
            assert_eq!(places, wanted.places, "{}", case.name);
        }
        assert_eq!(places, order.goals);
    }
}

#[test]
fn every_step_is_there_as_text() {
    for case in cases::all() {
        let page = page_of(&case);
        let lines: Vec<&str> = between(&page, "<details id=\"steps\">", "</details>")
            .lines()
            .filter_map(|line| line.strip_prefix("<li>")?.strip_suffix("</li>"))
            .collect();
        let words =
            |(rack, left, entered): &(usize, usize, usize)| format!("rack {rack} from {left} to {entered}");
        let shown = replay(&case);
        let wanted =
            shown[1..].iter().map(|shown| shown.moves.iter().map(words).collect::<Vec<_>>().join(", "));
        assert_eq!(lines, wanted.collect::<Vec<_>>(), "{}", case.name);
    }
}

#[test]
fn a_step_without_moves_is_told() {
    let order = Order { positions: 2, edges: vec![(0, 1)], starts: vec![0], goals: vec![1] };
    let timetable = Timetable { steps: vec![vec![], vec![(0, 1)]] };
    let page = page("Waiting", &order, &timetable);
    assert!(page.contains("<li>no rack moves</li>\n<li>rack 1 from 0 to 1</li>"));
    assert_eq!(read_back(&page), (order, timetable));
}

/// The drawing that the page begins with.
fn floor(page: &str) -> Vec<Tag> {
    let drawing = between(page, "<svg class=\"floor\" id=\"floor\"", "</svg>");
    elements(&format!("<svg class=\"floor\" id=\"floor\"{drawing}</svg>")).expect("the drawing is sound XML")
}

#[test]
fn the_page_begins_at_the_start() {
    for case in cases::all() {
        let tags = floor(&page_of(&case));
        let racks: Vec<&Tag> = tags.iter().filter(|tag| tag.is("rack")).collect();
        assert_eq!(racks.len(), case.order.starts.len());
        for (index, rack) in racks.iter().enumerate() {
            let (number, start) = ((index + 1).to_string(), case.order.starts[index].to_string());
            assert_eq!(
                (rack.attribute("data-rack"), rack.attribute("data-position")),
                (Some(&*number), Some(&*start))
            );
        }
        assert_eq!(tags.iter().filter(|tag| tag.is("tile")).count(), case.order.positions);
        assert_eq!(tags.iter().filter(|tag| tag.is("goal")).count(), case.order.goals.len());
    }
}

#[test]
fn the_smallest_floors_have_pages() {
    let none = Order { positions: 1, edges: vec![], starts: vec![], goals: vec![] };
    let apart = Order { positions: 64, starts: vec![63], goals: vec![63], ..none.clone() };
    for order in [none, apart] {
        let timetable = Timetable { steps: vec![] };
        let page = page("", &order, &timetable);
        assert_eq!(floor(&page).iter().filter(|tag| tag.is("tile")).count(), order.positions);
        assert_eq!(read_back(&page), (order, timetable));
    }
}

#[test]
fn titles_are_escaped() {
    let case = &cases::all()[0];
    let title = "</title><script>alert(\"1\")</script> & 'two' {{data}} {{title}}";
    let written = "&lt;/title&gt;&lt;script&gt;alert(&quot;1&quot;)&lt;/script&gt; &amp; &#39;two&#39; {{data}} {{title}}";
    let page = page(title, &case.order, &case.timetable);
    assert_eq!(between(&page, "<title>", "</title>"), written);
    assert_eq!(between(&page, "<h1>", "</h1>"), written);
    assert!(!page.contains("<script>alert"));
    assert_eq!(page.matches(written).count(), 2);
    assert_eq!(read_back(&page), (case.order.clone(), case.timetable.clone()));
}

#[test]
fn nothing_is_loaded_from_elsewhere() {
    for case in cases::all() {
        let page = page_of(&case);
        for foreign in
            ["http:", "https:", "src=", "href", "url(", "@import", "fetch(", "XMLHttp", "innerHTML", "<link"]
        {
            assert!(!page.contains(foreign), "{foreign}");
        }
        // And the browser is told to load nothing.
        assert!(page.contains(
            "content=\"default-src 'none'; style-src 'unsafe-inline'; script-src 'unsafe-inline'\""
        ));
    }
}

#[test]
fn one_timetable_has_one_page() {
    for (first, second) in cases::all().iter().zip(&cases::all()) {
        assert_eq!(page_of(first), page_of(second));
    }
}

/// What a screen reader and the keyboard need.
#[test]
fn controls_have_names() {
    let page = page_of(&cases::all()[0]);
    for part in page.split("<button ").skip(1) {
        let name = between(part, "aria-label=\"", "\"");
        assert!(part.starts_with("type=\"button\"") && !name.is_empty());
    }
    for wanted in [
        "<label for=\"slider\">",
        "<input type=\"range\" id=\"slider\"",
        "id=\"said\" aria-live=\"polite\"",
        "<html lang=\"en\">",
    ] {
        assert!(page.contains(wanted), "{wanted}");
    }
}
