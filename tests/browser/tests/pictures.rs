//! Pictures of orders: sound SVG, each rack once at its start and once at its goal.

use browser::cases::order_fields;
use browser::markup::{elements, Tag};
use compare::floors::{floor_of_shape, SHAPES};
use compare::random::Random;
use compare::write;
use wichteab_tool::picture::picture;
use wichteab_tool::records::Order;

/// Orders on floors of every shape, with any number of racks.
fn orders(seed: u64, of_each: usize) -> Vec<Order> {
    let mut random = Random::new(seed);
    let mut orders = Vec::new();
    for shape in SHAPES {
        for _ in 0..of_each {
            let floor = floor_of_shape(&mut random, shape);
            let racks = random.between(0, floor.n);
            let (starts, goals) = (random.distinct(racks, floor.n), random.distinct(racks, floor.n));
            let order = write::Order { n: floor.n, edges: floor.edges, starts, goals, ..Default::default() };
            orders.push(order_fields(&order.record()));
        }
    }
    orders
}

/// The elements of a panel of a picture.
fn panel<'a>(tags: &'a [Tag], name: &str) -> Vec<&'a Tag> {
    let place =
        tags.iter().position(|tag| tag.attribute("data-panel") == Some(name)).expect("the panel is there");
    tags.iter().filter(|tag| tag.inside.contains(&place)).collect()
}

/// The number in an attribute.
fn number(tag: &Tag, attribute: &str) -> usize {
    tag.attribute(attribute).and_then(|value| value.parse().ok()).expect("a number")
}

fn assert_panel(order: &Order, tags: &[Tag], name: &str, places: &[usize]) {
    let panel = panel(tags, name);
    let racks: Vec<&&Tag> = panel.iter().filter(|tag| tag.is("rack")).collect();
    assert_eq!(racks.len(), places.len());
    let tiles: Vec<&&Tag> = panel.iter().filter(|tag| tag.is("tile")).collect();
    assert_eq!(tiles.len(), order.positions);
    for (index, (rack, &place)) in racks.iter().zip(places).enumerate() {
        assert_eq!((number(rack, "data-rack"), number(rack, "data-position")), (index + 1, place));
        assert_eq!(rack.is("home"), place == order.goals[index]);
        // A tile is 80 wide, and the rack is drawn from its middle.
        let tile = tiles[place];
        assert_eq!(number(tile, "data-tile"), place);
        let middle = (number(tile, "x") + 40, number(tile, "y") + 40);
        assert_eq!(
            rack.attribute("transform"),
            Some(format!("translate({} {})", middle.0, middle.1).as_str())
        );
    }
    let goals = panel.iter().filter(|tag| tag.is("goal")).map(|tag| number(tag, "data-position"));
    assert_eq!(goals.collect::<Vec<_>>(), order.goals);
}

#[test]
fn each_rack_once_at_its_start_and_once_at_its_goal() {
    for order in orders(41, 20) {
        let tags = elements(&picture(&order)).expect("the picture is sound XML");
        assert_eq!(
            (tags[0].name.as_str(), tags[0].attribute("xmlns")),
            ("svg", Some("http://www.w3.org/2000/svg"))
        );
        assert_panel(&order, &tags, "start", &order.starts);
        assert_panel(&order, &tags, "goal", &order.goals);
    }
}

#[test]
fn the_smallest_orders_have_pictures() {
    let none = Order { positions: 1, edges: vec![], starts: vec![], goals: vec![] };
    let one = Order { starts: vec![0], goals: vec![0], ..none.clone() };
    let apart = Order { positions: 64, ..none.clone() };
    for order in [none, one, apart] {
        let tags = elements(&picture(&order)).expect("the picture is sound XML");
        assert_panel(&order, &tags, "start", &order.starts);
    }
}

#[test]
fn one_order_has_one_picture() {
    for order in orders(42, 2) {
        assert_eq!(picture(&order), picture(&order.clone()));
    }
}

#[test]
fn nothing_is_loaded_by_a_picture() {
    for order in orders(43, 1) {
        let picture = picture(&order).replace("xmlns=\"http://www.w3.org/2000/svg\"", "");
        for foreign in ["http:", "https:", "href", "src=", "url(", "@import", "<script", "<image"] {
            assert!(!picture.contains(foreign), "{foreign}");
        }
    }
}
