//! What a card says of itself: whose month it is, when it was issued, and by what.

use crate::common::visible;
use crate::score::civil::Date;
use clap::Args;
use serde_json::{json, Value};
use std::borrow::Cow;

/// The version with its commit.
pub const VERSION: &str = env!("EGRETFOLD_VERSION");

/// The SHA-256 of the proved archive that this command is linked with.
pub const ARCHIVE: &str = env!("EGRETFOLD_ARCHIVE_SHA256");

// Named otherwise than the subcommand's own options: clap takes the name for a group
// of arguments, and each must be unique in a line.
#[derive(Args)]
pub struct IssueOptions {
    /// The station's name, for the card
    #[arg(long, value_name = "NAME")]
    station: Option<String>,
    /// The lessee's name, for the card
    #[arg(long, value_name = "NAME")]
    lessee: Option<String>,
    /// The lease's number, for the card
    #[arg(long, value_name = "NUMBER")]
    lease: Option<String>,
    /// The time zone whose midnights part the days, for the card; where none is given, it says that the station counts them
    #[arg(long, value_name = "ZONE")]
    time_zone: Option<String>,
    /// The card's date of issue; today (UTC) where none is given
    #[arg(long, value_name = "YYYY-MM-DD", value_parser = Date::parse)]
    issued: Option<Date>,
}

#[derive(Clone)]
pub struct Issue {
    pub station: Option<String>,
    pub lessee: Option<String>,
    /// The lease's number.
    pub lease: Option<String>,
    /// The time zone of the days.
    pub zone: Option<String>,
    pub date: Date,
    /// Of the command that scored.
    pub version: Cow<'static, str>,
    /// The SHA-256 of the proved archive that it is linked with; earlier versions told of none.
    pub archive: Option<Cow<'static, str>>,
}

impl Issue {
    pub fn new(options: &IssueOptions) -> Issue {
        let date = day_of(options.issued);
        let names = [
            &options.station,
            &options.lessee,
            &options.lease,
            &options.time_zone,
        ];
        Issue::of(names, date)
    }

    /// By the station's name, the lessee's, the lease's number and the time zone.
    pub fn of(names: [&Option<String>; 4], date: Date) -> Issue {
        let [station, lessee, lease, zone] = names.map(|text| name(text.as_deref()));
        Issue {
            station,
            lessee,
            lease,
            zone,
            date,
            version: VERSION.into(),
            archive: Some(ARCHIVE.into()),
        }
    }

    /// When and by what it is issued, as a card says that.
    pub fn is_said_by(&mut self, card: &Issue) {
        self.date = card.date;
        self.version = card.version.clone();
        self.archive = card.archive.clone();
    }

    /// Whether this is its lessee's name, as a user may write it.
    pub fn is_leased_to(&self, lessee: &str) -> bool {
        self.lessee.is_some() && self.lessee == name(Some(lessee))
    }

    /// The card of the sample, which is nobody's.
    pub fn nobody() -> Issue {
        Issue::of([&None; 4], Date::today())
    }

    /// "Station 14, leased to the harbour", as far as they are given.
    pub fn whose(&self) -> Option<String> {
        match (&self.station, &self.lessee) {
            (Some(station), Some(lessee)) => Some(format!("Station {station}, leased to {lessee}")),
            (Some(station), None) => Some(format!("Station {station}")),
            (None, Some(lessee)) => Some(format!("Leased to {lessee}")),
            (None, None) => None,
        }
    }

    /// The same in one text, or where that has more letters, in one for the station and one for the lessee.
    pub fn whose_within(&self, most: usize) -> Vec<String> {
        let parts = [
            self.station
                .as_ref()
                .map(|station| format!("Station {station}")),
            self.lessee
                .as_ref()
                .map(|lessee| format!("Leased to {lessee}")),
        ];
        match self.whose() {
            Some(whose) if whose.chars().count() <= most => vec![whose],
            _ => parts.into_iter().flatten().collect(),
        }
    }

    /// "Lease L-17", where it has a number.
    pub fn lease(&self) -> Option<String> {
        self.lease.as_ref().map(|number| format!("Lease {number}"))
    }

    /// Whose midnights part the days.
    pub fn days(&self) -> String {
        match &self.zone {
            Some(zone) => format!("days in the time zone {zone}"),
            None => "days as the station counts them".to_string(),
        }
    }

    /// "Issued 2026-05-02 by egretfold 0.1.0".
    pub fn told(&self) -> String {
        format!("Issued {} by egretfold {}", self.date, self.version)
    }

    pub fn put(&self, summary: &mut Value) {
        summary["station"] = json!(self.station);
        summary["lessee"] = json!(self.lessee);
        summary["lease_number"] = json!(self.lease);
        summary["time_zone"] = json!(self.zone);
        summary["issued"] = json!(self.date.to_string());
        summary["version"] = json!(self.version);
        summary["archive"] = json!(self.archive);
    }
}

/// A name without blanks around it, where anything is left, and with nothing that a terminal would obey.
fn name(text: Option<&str>) -> Option<String> {
    let text = text.map(str::trim).unwrap_or_default();
    (!text.is_empty()).then(|| visible::line(text))
}

/// The date of issue that was asked for; the one place that asks for today.
pub fn day_of(issued: Option<Date>) -> Date {
    issued.unwrap_or_else(Date::today)
}
