//! Records as values of the Rust's own, which it traces by derived calls, and the commands that stand for them.

use serde::Serialize;

use crate::shapes::Batch;

#[derive(Serialize)]
pub struct Port {
    code: String,
    latitude: f64,
    longitude: f64,
}

/// What an operator sends of one sailing: 20 fields.
#[derive(Serialize)]
pub struct Sailing {
    operator: String,
    vessel: String,
    imo: u32,
    route: String,
    departure: String,
    arrival: Option<String>,
    berth: Option<u16>,
    origin: Port,
    destination: Port,
    passengers: u32,
    crew: u16,
    cars: u16,
    lorries: u16,
    cabins: Option<u16>,
    length: f64,
    draught: f64,
    wind: Option<f32>,
    cancelled: bool,
    stops: Vec<u16>,
    remarks: Option<String>,
}

/// A record with a list of numbers.
#[derive(Serialize)]
pub struct Soundings {
    depths: Vec<f64>,
}

fn optional(b: &mut Batch, is_there: bool, value: impl FnOnce(&mut Batch)) {
    if is_there {
        b.value(0x10);
        value(b);
    } else {
        b.value(0x0F);
    }
}

impl Port {
    fn new(i: usize) -> Self {
        Port {
            code: format!("PORT{}", i % 9),
            latitude: 54.0,
            longitude: 10.0,
        }
    }

    fn write(&self, b: &mut Batch) {
        b.structure();
        b.field("code");
        b.text(&self.code);
        b.field("latitude");
        b.value(0x0B);
        b.field("longitude");
        b.value(0x0B);
        b.end();
    }
}

impl Sailing {
    pub fn new(i: usize) -> Self {
        Sailing {
            operator: String::from("Sound Line"),
            vessel: format!("Vessel {}", i % 30),
            imo: 9_000_000,
            route: format!("R{}", i % 40),
            departure: format!("2024-05-{:02}T08:15:00Z", 1 + i % 28),
            arrival: (i % 5 != 0).then(|| format!("2024-05-{:02}T11:40:00Z", 1 + i % 28)),
            berth: (i % 3 != 0).then_some(4),
            origin: Port::new(i),
            destination: Port::new(i + 1),
            passengers: 400,
            crew: 40,
            cars: 120,
            lorries: 12,
            cabins: (i % 2 == 0).then_some(60),
            length: 180.5,
            draught: 6.1,
            wind: (i % 4 != 0).then_some(8.5),
            cancelled: false,
            stops: vec![1; i % 4],
            remarks: (i % 10 == 0).then(|| String::from("ramp repaired")),
        }
    }

    pub fn write(&self, b: &mut Batch) {
        b.structure();
        b.field("operator");
        b.text(&self.operator);
        b.field("vessel");
        b.text(&self.vessel);
        b.field("imo");
        b.value(0x08);
        b.field("route");
        b.text(&self.route);
        b.field("departure");
        b.text(&self.departure);
        b.field("arrival");
        optional(b, self.arrival.is_some(), |b| b.text(self.arrival.as_ref().unwrap()));
        b.field("berth");
        optional(b, self.berth.is_some(), |b| b.value(0x07));
        b.field("origin");
        self.origin.write(b);
        b.field("destination");
        self.destination.write(b);
        b.field("passengers");
        b.value(0x08);
        for name in ["crew", "cars", "lorries"] {
            b.field(name);
            b.value(0x07);
        }
        b.field("cabins");
        optional(b, self.cabins.is_some(), |b| b.value(0x07));
        for name in ["length", "draught"] {
            b.field(name);
            b.value(0x0B);
        }
        b.field("wind");
        optional(b, self.wind.is_some(), |b| b.value(0x0A));
        b.field("cancelled");
        b.value(0x01);
        b.field("stops");
        b.sequence();
        self.stops.iter().for_each(|_| b.value(0x07));
        b.end();
        b.field("remarks");
        optional(b, self.remarks.is_some(), |b| b.text(self.remarks.as_ref().unwrap()));
        b.end();
    }
}

impl Soundings {
    pub fn new(_: usize) -> Self {
        Soundings { depths: vec![6.5; 100] }
    }

    pub fn write(&self, b: &mut Batch) {
        b.structure();
        b.field("depths");
        b.sequence();
        self.depths.iter().for_each(|_| b.value(0x0B));
        b.end();
        b.end();
    }
}
