//! Makes records: good ones of every type, and from them such as are damaged in the tree, in a value or in the bytes.

use crate::faults::{FLAVORS, MOST_BYTES, PART_TYPES, QUALIFIERS, TYPES};
use crate::markup::{write, Element, Spelling, MOST_OPEN};
use crate::random::Random;
use crate::tick::{self, Calendar};
use crate::units;

/// What records are made with: bounds of intervals are put in order by their ticks at the agreed offset.
pub struct Maker<'a> {
    pub random: &'a mut Random,
    pub offset: i64,
    pub calendar: &'a Calendar,
}

/// The longest record that is made, in bytes.
pub const LONGEST: usize = 2 * MOST_BYTES;

pub const SET_TYPES: [&str; 3] = ["QSU_TS", "QSI_TS", "QSD_TS"];

/// Names of elements that stand in records.
const ELEMENT_NAMES: [&str; 9] = ["low", "high", "term", "minuend", "subtrahend", "displayName", "part", "width", "value"];

/// Names of attributes that stand in records, or nearly.
const ATTRIBUTE_NAMES: [&str; 24] = [
    "xsi:type", "nullFlavor", "value", "lowClosed", "highClosed", "currency", "root", "extension", "code", "codeSystem",
    "codeSystemName", "codeSystemVersion", "type", "qualifier", "xmlns", "xmlns:xsi", "xmlnsx", "xmln", "Value", "nullflavor",
    "xsi:Type", "displayName", "use", "_",
];

/// Characters that texts are made of.
const CHARACTERS: [char; 28] = [
    'a', 'b', 'C', 'z', '0', '9', ' ', '.', '-', '&', '<', '>', '"', '\'', ';', '=', '/', '\u{7F}', '\u{80}', '\u{EB}', '\u{7FF}',
    '\u{800}', '\u{D7FF}', '\u{E000}', '\u{FFFD}', '\u{10000}', '\u{1F335}', '\u{10FFFF}',
];

// ---- Texts of attributes -------------------------------------------------------------------------------------------

fn digits(random: &mut Random, least: usize, most: usize) -> String {
    (0..random.from(least, most)).map(|_| (b'0' + random.below(10) as u8) as char).collect()
}

/// A text that is not empty.
pub fn text(random: &mut Random) -> String {
    (0..random.from(1, 6)).map(|_| random.one_of(&CHARACTERS)).collect()
}

/// A timestamp. Half of them lie within three days, so that many are equal, or overlap.
pub fn timestamp(random: &mut Random) -> String {
    let near = random.once_in(2);
    let year = if near { 2024 } else { tick::year(random) };
    let parts = match near {
        true => [5, random.from(1, 3), random.one_of(&[0, 1, 12, 23]), random.one_of(&[0, 30, 59]), random.one_of(&[0, 59])],
        false => tick::parts(random, year),
    };
    let count = random.from(0, 5);
    let mut text = format!("{year:04}");
    for part in &parts[..count] {
        text += &format!("{part:02}");
    }
    if count == 5 && random.once_in(2) {
        text.push('.');
        text += &if near { random.one_of(&["0", "00", "0000", "0001", "5", "9999"]).to_string() } else { digits(random, 1, 4) };
    }
    if count >= 3 && random.once_in(2) {
        text += &if near { random.one_of(&["+00", "-0000", "+01", "-0130", "+1400", "-14"]).to_string() } else { tick::zone(random) };
    }
    text
}

pub fn oid(random: &mut Random) -> String {
    let first = random.below(3);
    let second = if first < 2 { random.one_of(&[0, 1, 9, 10, 39]) } else { random.one_of(&[0, 39, 40, 999]) };
    let mut oid = format!("{first}.{second}");
    for _ in 0..random.below(5) {
        oid += &format!(".{}", random.next() >> random.below(64));
    }
    if random.once_in(12) {
        oid += ".";
        while oid.len() < 128 {
            oid.push('7');
        }
    }
    oid
}

pub fn amount(random: &mut Random) -> String {
    let sign = if random.once_in(3) { "-" } else { "" };
    let most = if random.once_in(3) { 12 } else { 3 };
    let whole = if random.once_in(8) { "999999999999".to_string() } else { digits(random, 1, most) };
    let fraction = if random.once_in(2) { format!(".{}", digits(random, 1, 4)) } else { String::new() };
    format!("{sign}{whole}{fraction}")
}

pub fn currency(random: &mut Random) -> String {
    (0..3).map(|_| (b'A' + random.below(26) as u8) as char).collect()
}

pub fn qualifiers(random: &mut Random) -> String {
    let without = random.one_of(&["PFX", "SFX"]);
    let mut chosen = Vec::new();
    while chosen.is_empty() || random.once_in(2) {
        chosen.extend(Some(random.one_of(&QUALIFIERS)).filter(|q| *q != without));
    }
    chosen.join(" ")
}

pub fn flavor(random: &mut Random) -> &'static str {
    random.one_of(&FLAVORS)
}

/// A text for an attribute, good for one of the types that have it.
fn value_for(random: &mut Random, attribute: &str) -> String {
    match attribute {
        "xsi:type" => random.one_of(&TYPES).to_string(),
        "nullFlavor" => flavor(random).to_string(),
        "value" => match random.below(3) {
            0 => timestamp(random),
            1 => amount(random),
            _ => text(random),
        },
        "lowClosed" | "highClosed" => random.one_of(&["true", "false"]).to_string(),
        "currency" => currency(random),
        "root" | "codeSystem" => oid(random),
        "type" => random.one_of(&PART_TYPES).to_string(),
        "qualifier" => qualifiers(random),
        _ => text(random),
    }
}

// ---- Good records --------------------------------------------------------------------------------------------------

impl Maker<'_> {
    /// An element of one of two flags: true, false or none.
    fn flag(&mut self, element: Element, name: &str, texts: &[Option<&str>]) -> Element {
        match self.random.one_of(texts) {
            Some(text) => element.with(name, text),
            None => element,
        }
    }

    /// A good bound, if any, and the flags that may go with it.
    fn bound(&mut self, name: &str, unbounded: &str) -> (Option<Element>, &'static [Option<&'static str>]) {
        const ANY: &[Option<&str>] = &[None, Some("true"), Some("false")];
        let never = if unbounded == "NINF" { "PINF" } else { "NINF" };
        match self.random.below(8) {
            0 => (None, ANY),
            1 => match flavor(self.random) {
                f if f == unbounded || f == never => (None, ANY),
                f => (Some(Element::new(name).with("nullFlavor", f)), ANY),
            },
            2 => (Some(Element::new(name).with("nullFlavor", unbounded)), &[None, Some("false")]),
            _ => (Some(Element::new(name).with("value", &timestamp(self.random))), &[Some("true"), Some("false")]),
        }
    }

    /// The tick of a bound that has a value.
    pub fn tick(&self, bound: &Element) -> Option<i64> {
        let text = bound.get("value")?;
        tick::read(text, self.offset.clamp(-840, 840), self.calendar).ok().map(|(tick, _)| tick)
    }

    /// An interval: one of three about a unit, the others with any bounds.
    pub fn interval(&mut self, name: &str) -> Element {
        let mut element = Element::new(name).with("xsi:type", "IVL_TS");
        if self.random.once_in(24) {
            return element.with("nullFlavor", flavor(self.random));
        }
        if self.random.once_in(3) {
            let (edge, flags) = (units::edge(self.random), self.flags());
            return self.uncrossed_about(name, &edge, flags);
        }
        let (mut low, low_flags) = self.bound("low", "NINF");
        let (mut high, high_flags) = self.bound("high", "PINF");
        let ticks = [&low, &high].map(|bound| bound.as_ref().and_then(|b| self.tick(b)));
        if ticks[0].zip(ticks[1]).is_some_and(|(l, h)| l > h) {
            std::mem::swap(&mut low, &mut high);
            low.as_mut().unwrap().name = "low".to_string();
            high.as_mut().unwrap().name = "high".to_string();
        }
        element = self.flag(element, "lowClosed", low_flags);
        element = self.flag(element, "highClosed", high_flags);
        element.children.extend(low);
        element.children.extend(high);
        element
    }

    /// An interval or a set, of so many levels at most, with sets in it once in `rare` times.
    pub fn set(&mut self, name: &str, levels: usize, rare: usize) -> Element {
        if levels <= 3 || !self.random.once_in(rare) {
            return self.interval(name);
        }
        let of_type = self.random.one_of(&SET_TYPES);
        self.set_of(name, of_type, levels, rare)
    }

    pub fn set_of(&mut self, name: &str, of_type: &str, levels: usize, rare: usize) -> Element {
        let mut element = Element::new(name).with("xsi:type", of_type);
        if self.random.once_in(24) {
            return element.with("nullFlavor", flavor(self.random));
        }
        if of_type == "QSD_TS" {
            element = element.holding(self.set("minuend", levels - 1, rare));
            return element.holding(self.set("subtrahend", levels - 1, rare));
        }
        let count = match self.random.below(100) {
            // Many stand at the top alone, so that a record seldom is over the limit by chance.
            0..=2 if levels == MOST_OPEN => self.random.from(9, 40),
            3..=5 => self.random.from(4, 8),
            _ => self.random.from(1, 3),
        };
        for _ in 0..count {
            element = element.holding(self.set("term", levels - 1, rare));
        }
        element
    }

    /// A good record of a type.
    pub fn good_of(&mut self, of_type: &str) -> Element {
        let name = self.random.one_of(&["t", "stay", "_a.b-c:d"]);
        let element = Element::new(name).with("xsi:type", of_type);
        if self.random.once_in(16) {
            return element.with("nullFlavor", flavor(self.random));
        }
        match of_type {
            "TS" => element.with("value", &timestamp(self.random)),
            "IVL_TS" => self.interval(name),
            "MO" => element.with("value", &amount(self.random)).with("currency", &currency(self.random)),
            "II" => self.identifier(element),
            "CD" => self.code(element),
            "EN" => self.name(element),
            _ => {
                let rare = self.random.one_of(&[2, 3, 6]);
                self.set_of(name, of_type, MOST_OPEN, rare)
            }
        }
    }

    fn identifier(&mut self, element: Element) -> Element {
        let element = element.with("root", &oid(self.random));
        if self.random.once_in(3) { element } else { element.with("extension", &text(self.random)) }
    }

    fn code(&mut self, element: Element) -> Element {
        let mut element = element.with("codeSystem", &oid(self.random));
        for name in ["codeSystemName", "codeSystemVersion"] {
            if self.random.once_in(3) {
                element = element.with(name, &text(self.random));
            }
        }
        if self.random.once_in(4) {
            return element;
        }
        element = element.with("code", &text(self.random));
        match self.random.once_in(2) {
            true => element,
            false => element.holding(Element::new("displayName").with("value", &text(self.random))),
        }
    }

    fn name(&mut self, mut element: Element) -> Element {
        for _ in 0..self.random.from(1, 4) {
            let part = Element::new("part");
            element = element.holding(self.part(part));
        }
        element
    }

    fn part(&mut self, part: Element) -> Element {
        if self.random.once_in(12) {
            return part.with("nullFlavor", flavor(self.random));
        }
        let mut part = part.with("value", &text(self.random));
        if !self.random.once_in(3) {
            part = part.with("type", self.random.one_of(&PART_TYPES));
        }
        if self.random.once_in(3) {
            part = part.with("qualifier", &qualifiers(self.random));
        }
        part
    }

    /// A good record: its attributes in any order, and `xmlns` among them now and then.
    pub fn good(&mut self) -> Element {
        let of_type = self.random.one_of(&TYPES);
        let mut record = self.good_of(of_type);
        if self.random.once_in(6) {
            record = record.with("xmlns:xsi", "http://www.w3.org/2001/XMLSchema-instance");
        }
        if self.random.once_in(12) {
            record = record.with(self.random.one_of(&["xmlns", "xmlnsx", "xmlns.a"]), &text(self.random));
        }
        self.shuffle(&mut record);
        record
    }

    fn shuffle(&mut self, element: &mut Element) {
        if self.random.once_in(2) && !element.attributes.is_empty() {
            let by = self.random.below(element.attributes.len());
            element.attributes.rotate_left(by);
        }
        for child in &mut element.children {
            self.shuffle(child);
        }
    }

    // ---- Damage --------------------------------------------------------------------------------------------------------

    /// Some element of a record.
    fn pick<'e>(&mut self, record: &'e mut Element) -> &'e mut Element {
        let mut n = self.random.below(record.count());
        record.nth_mut(&mut n).unwrap()
    }

    /// Changes an attribute, or adds one.
    fn damage_attributes(&mut self, record: &mut Element) {
        let element = self.pick(record);
        let names = if self.random.once_in(3) { &ATTRIBUTE_NAMES[..] } else { &ATTRIBUTE_NAMES[..14] };
        let other = self.random.one_of(names);
        let value = value_for(self.random, other);
        if element.attributes.is_empty() || self.random.once_in(4) {
            return element.attributes.push((other.to_string(), value));
        }
        let at = self.random.below(element.attributes.len());
        match self.random.below(6) {
            0 | 1 => drop(element.attributes.remove(at)),
            2 => element.attributes[at].0 = other.to_string(),
            3 => {
                let twice = element.attributes[at].clone();
                element.attributes.push(twice);
            }
            4 => element.attributes[at].1 = value,
            _ => element.attributes.push(("nullFlavor".to_string(), flavor(self.random).to_string())),
        }
    }

    /// Changes the text of an attribute: to none, to one that is nearly good, or by a character.
    fn damage_value(&mut self, record: &mut Element) {
        let element = self.pick(record);
        if element.attributes.is_empty() {
            return;
        }
        let at = self.random.below(element.attributes.len());
        let (name, value) = &mut element.attributes[at];
        match self.random.below(8) {
            0 => value.clear(),
            1..=4 => *value = odd_value(self.random, name),
            _ => {
                let mut characters: Vec<char> = value.chars().collect();
                damage_list(self.random, &mut characters, |random| random.one_of(&CHARACTERS));
                *value = characters.into_iter().collect();
            }
        }
    }

    /// Has times of a record be impossible, one or several; another value is damaged where it has none.
    pub fn damage_times(&mut self, record: &mut Element) {
        let mut times = Vec::new();
        find_times(record, &mut times);
        if times.is_empty() {
            return self.damage_value(record);
        }
        let at = self.random.below(times.len());
        *times[at] = tick::impossible(self.random);
        while self.random.once_in(3) {
            let at = self.random.below(times.len());
            *times[at] = tick::impossible(self.random);
        }
    }

    /// Changes the children of an element, or moves or renames one.
    fn damage_children(&mut self, record: &mut Element) {
        let stranger = match self.random.below(4) {
            0 => Element::new(self.random.one_of(&ELEMENT_NAMES)),
            1 => self.interval("term"),
            2 => Element::new("low").with("nullFlavor", flavor(self.random)),
            _ => {
                let part = Element::new(self.random.one_of(&ELEMENT_NAMES));
                part.with("value", &timestamp(self.random))
            }
        };
        let mut element = self.pick(record);
        // An element with children is changed more often than by chance.
        if element.children.is_empty() && !self.random.once_in(4) {
            element = record;
        }
        if element.children.is_empty() {
            return element.children.push(stranger);
        }
        let at = self.random.below(element.children.len());
        match self.random.below(7) {
            0 | 1 => drop(element.children.remove(at)),
            2 => element.children.insert(at, stranger),
            3 => element.children.swap(at, 0),
            4 => {
                let mut twice = element.children[at].clone();
                if self.random.once_in(2) {
                    twice.attributes.clear();
                }
                let to = self.random.below(element.children.len() + 1);
                element.children.insert(to, twice);
            }
            5 => element.children[at].name = self.random.one_of(&ELEMENT_NAMES).to_string(),
            _ => element.children[at].children.push(stranger),
        }
    }

    /// Gives an element another type, or one to an element that has none.
    fn damage_type(&mut self, record: &mut Element) {
        let element = self.pick(record);
        let other = match self.random.below(4) {
            0 => odd_value(self.random, "xsi:type"),
            1 => self.random.one_of(&SET_TYPES).to_string(),
            _ => self.random.one_of(&TYPES).to_string(),
        };
        match element.attributes.iter_mut().find(|(name, _)| name == "xsi:type") {
            Some((_, value)) => *value = other,
            None => element.attributes.push(("xsi:type".to_string(), other)),
        }
    }

    /// Breaks an invariant, where the element that is picked has one that can be broken so.
    fn damage_invariant(&mut self, record: &mut Element) {
        let null = ("nullFlavor".to_string(), flavor(self.random).to_string());
        let name_of = self.random.one_of(&["value", "currency", "root", "codeSystem", "code", "lowClosed", "highClosed"]);
        let element = self.pick(record);
        let drop_all = |element: &mut Element, name: &str| element.attributes.retain(|(n, _)| n != name);
        match self.random.below(8) {
            0 => drop_all(element, name_of),
            1 | 2 => element.attributes.retain(|(name, _)| ["xsi:type", "type", "qualifier", "extension"].contains(&name.as_str())),
            3 if element.get("nullFlavor").is_none() => element.attributes.push(null),
            4 if element.name == "low" || element.name == "high" => {
                drop_all(element, "value");
                drop_all(element, "nullFlavor");
                let text = self.random.one_of(&["NINF", "PINF"]);
                element.attributes.push(("nullFlavor".to_string(), text.to_string()));
            }
            5 if element.name == "part" => {
                let mixed = if self.random.once_in(2) { "PFX SFX" } else { "SFX NB PFX LS" };
                drop_all(element, "qualifier");
                element.attributes.push(("qualifier".to_string(), mixed.to_string()));
            }
            6 if element.name == "part" => drop_all(element, "value"),
            _ => self.cross(element),
        }
    }

    /// Gives an interval bounds that may be crossed: two of three times such as lie about a unit, else any two.
    fn cross(&mut self, element: &mut Element) {
        if element.get("xsi:type") != Some("IVL_TS") {
            return;
        }
        if !self.random.once_in(3) {
            let (name, edge, flags) = (element.name.clone(), units::edge(self.random), self.flags());
            *element = self.interval_about(&name, &edge, flags);
        } else {
            element.attributes.retain(|(name, _)| name == "xsi:type");
            element.attributes.extend(["lowClosed", "highClosed"].map(|flag| (flag.to_string(), "true".to_string())));
            element.children = ["low", "high"].map(|bound| Element::new(bound).with("value", &timestamp(self.random))).to_vec();
        }
    }

    pub fn damage(&mut self, record: &mut Element) {
        match self.random.below(44) {
            0..=4 => self.damage_attributes(record),
            5..=15 => self.damage_value(record),
            16..=19 => self.damage_children(record),
            20..=21 => self.damage_type(record),
            22..=29 => self.damage_times(record),
            _ => self.damage_invariant(record),
        }
    }

    /// Sets around a set, or elements around another, so that as many are open at once as the limit allows, or one more.
    fn deep(&mut self) -> Element {
        let due = self.random.from(MOST_OPEN - 1, MOST_OPEN + 1);
        let of_sets = !self.random.once_in(8);
        let mut record = if of_sets { self.set("term", 5, 2) } else { Element::new("a") };
        while record.depth() < due {
            let kind = self.random.one_of(&SET_TYPES);
            let outer = Element::new("term").with("xsi:type", kind);
            record = match kind {
                _ if !of_sets => Element::new("a").holding(record),
                "QSD_TS" => {
                    record.name = "minuend".to_string();
                    outer.holding(record).holding(self.interval("subtrahend"))
                }
                _ => {
                    record.name = "term".to_string();
                    outer.holding(record)
                }
            };
        }
        record
    }

    // ---- Records ---------------------------------------------------------------------------------------------------------

    /// A record as bytes: good, damaged in the tree or in the bytes, deep, about as long as the limit, or without a plan.
    pub fn record(&mut self) -> Vec<u8> {
        let mut record = self.any_record();
        record.truncate(LONGEST);
        record
    }

    fn any_record(&mut self) -> Vec<u8> {
        let kind = self.random.below(1000);
        let mut tree = if (250..300).contains(&kind) { self.deep() } else { self.good() };
        if (300..850).contains(&kind) || self.random.once_in(16) {
            self.damage(&mut tree);
            while self.random.once_in(6) {
                self.damage(&mut tree);
            }
        }
        let spelling = Spelling::any(self.random);
        let mut record = match kind {
            0..=9 => return self.long(tree),
            10..=29 => return pieces(self.random),
            _ => write(&tree, spelling, self.random),
        };
        if (850..1000).contains(&kind) {
            damage_bytes(self.random, &mut record);
            while self.random.once_in(6) {
                damage_bytes(self.random, &mut record);
            }
        }
        record
    }

    /// A record about as long as the limit: by white space at an end or between tags, or by a text.
    pub fn long(&mut self, mut tree: Element) -> Vec<u8> {
        let length = self.random.from(MOST_BYTES - 2, MOST_BYTES + 2);
        let mut record = write(&tree, Spelling::PLAIN, self.random);
        let missing = length.saturating_sub(record.len());
        let spaces = vec![self.random.one_of(b" \t\r\n"); missing];
        match self.random.below(4) {
            0 => record.extend(spaces),
            1 => drop(record.splice(0..0, spaces)),
            2 => {
                let after_name = record.iter().position(|b| *b == b' ').unwrap_or(record.len());
                record.splice(after_name..after_name, spaces);
            }
            _ => {
                let element = self.pick(&mut tree);
                if let Some((_, value)) = element.attributes.last_mut() {
                    value.extend(std::iter::repeat_n('7', missing));
                }
                record = write(&tree, Spelling::PLAIN, self.random);
            }
        }
        record
    }
}

/// Collects the texts of a record that are times: the values of timestamps and of bounds.
fn find_times<'e>(element: &'e mut Element, times: &mut Vec<&'e mut String>) {
    let is_time = element.get("xsi:type") == Some("TS") || ["low", "high"].contains(&element.name.as_str());
    let values = element.attributes.iter_mut().filter(|(name, _)| is_time && name == "value");
    times.extend(values.map(|(_, value)| value));
    element.children.iter_mut().for_each(|child| find_times(child, times));
}

/// A text that is nearly good for an attribute, or is.
fn odd_value(random: &mut Random, attribute: &str) -> String {
    if ["root", "codeSystem"].contains(&attribute) && random.once_in(8) {
        return format!("2.{}", "1".repeat(random.from(125, 128)));
    }
    let texts: &[&str] = match attribute {
        "xsi:type" => &["", "ts", "TS ", "IVL", "QSP_TS", "QSS_TS", "PQ", "AD", "ED", "PN", "ANY", "QSU_T", "QSU_TSS", "<TS"],
        "nullFlavor" => &["", "ni", "NI ", "N", "UNKN", "NP", "NINF", "PINF", "UNK"],
        "lowClosed" | "highClosed" => &["", "1", "0", "True", "true ", "true", "false"],
        "currency" => &["", "EU", "EURO", "eur", "E1R", "@AB", "AB[", "\u{C4}A", "EUR"],
        "type" => &["", "fam", "PFX", "FAM ", "TITL", "FAM", "DEL"],
        "qualifier" => &["", " ", "LS ", " LS", "LS  AC", "LS,AC", "LSAC", "PFX SFX", "SFX LS PFX", "PFX PFX", "MID FAM", "IN"],
        "root" | "codeSystem" => &[
            "", "1", "1.", ".1", "1..2", "3.1", "0.40", "1.40", "2.40", "01.2", "1.02", "1.2.0", "1.2.00", "1.2.3a", " 1.2", "0.39", "1.100",
        ],
        "value" => &[
            "", "-", ".", "1.", ".5", "-.5", "+1", "1,5", "0.00000", "0000000000001", "1000000000000", "-0", "12.50", "0000", "9999",
            "20230229", "20240229", "19000229", "2024022924", "202402292360", "20240229235960", "20240229235959.", "20240229235959.99999",
            "2024022923Z", "2024022923+1401", "2024022923+15", "2024022923+0060", "2024022923-1400", "20240229+01", " 2024", "202413",
        ],
        _ => &["", " ", "a"],
    };
    random.one_of(texts).to_string()
}

/// Changes a list in one place.
fn damage_list<T: Copy>(random: &mut Random, list: &mut Vec<T>, other: impl Fn(&mut Random) -> T) {
    let at = random.below(list.len() + 1);
    match random.below(6) {
        0 => list.insert(at, other(random)),
        1 => list.push(other(random)),
        2 => list.truncate(at),
        _ if at == list.len() => {}
        3 => list[at] = other(random),
        4 => drop(list.remove(at)),
        _ => list.swap(at, 0),
    }
}

/// Bytes that mean something in markup or in UTF-8.
const BYTES: &[u8] = b"<>/=\"'&; \t\r\n\0\x1F\x7F\x80\xBF\xC2\xE0\xED\xF0\xFFaz09._-:!?#[]";

/// Pieces of records, and of what XML has and records do not.
const PIECES: [&str; 42] = [
    "<", ">", "/>", "</", "<t", "</t>", "<t/>", " ", "\n", "\t", "=", "\"", "'", "&", "&amp;", "&lt;", "&amp", "&#65;", "&x;", "<!-- a -->",
    "<![CDATA[a]]>", "<?xml version=\"1.0\"?>", "<!DOCTYPE t>", "\u{FEFF}", "\u{FFFE}", "\u{FFFF}", "\u{FFFD}", "\u{A0}", "x", "< ", "/ >",
    " xsi:type=\"TS\"", " value=\"2024\"", " value=\"2024\"", " xsi:type=\"IVL_TS\"", "<low value=\"2024\"/>", "<high", "<term",
    " nullFlavor=\"NI\"", " a = \"\"", " a=\"\"", "</ t>",
];

pub fn damage_bytes(random: &mut Random, record: &mut Vec<u8>) {
    let at = random.below(record.len() + 1);
    match random.below(10) {
        0..=3 => damage_list(random, record, |random| random.one_of(BYTES)),
        4 => damage_list(random, record, |random| random.byte()),
        5 if at < record.len() => record[at] ^= 1 << random.below(8),
        6 => {
            let end = random.from(at, record.len().min(at + 12));
            record.drain(at..end);
        }
        7 => {
            let copied: Vec<u8> = record[at..record.len().min(at + 12)].to_vec();
            let to = random.below(record.len() + 1);
            record.splice(to..to, copied);
        }
        _ => {
            let piece = random.one_of(&PIECES).bytes();
            record.splice(at..at, piece);
        }
    }
}

/// A row of pieces.
fn pieces(random: &mut Random) -> Vec<u8> {
    let count = random.below(12);
    (0..count).flat_map(|_| random.one_of(&PIECES).bytes()).collect()
}
