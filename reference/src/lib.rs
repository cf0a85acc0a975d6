//! A second reading of paper 01 by hand: what a recording of a display panel's wires tells about the panel's chip.
//!
//! Knowledge holds each fact of a chip as known or unknown, and memory, LED and port bit by bit (M-107).
//! A replay moves it in place, so that after each event a fact, or such a bit, is known exactly when every chip that
//! fits the earlier knowledge comes out of the event with the same value.
//!
//! An update, which is paper 02's (M-102), sends a panel only those wanted cells that it is not known to have.
//! A temperature (M-103) is what five cells in a row are known to show.
//! A recording may come in packets (M-100), and its tail is what stands behind its last gap.

pub mod answer;
pub mod bench_input;
pub mod bits;
pub mod cells;
pub mod character_panel;
pub mod checksum;
pub mod damage;
pub mod example_character_panels;
pub mod example_halves;
pub mod example_key_panels;
pub mod example_known;
pub mod example_lines;
pub mod example_packets;
pub mod example_recordings;
pub mod example_sections;
pub mod example_temperatures;
pub mod example_updates;
pub mod fact;
pub mod input;
pub mod key_panel;
pub mod knowledge;
pub mod packets;
pub mod painting;
pub mod random;
pub mod record;
pub mod recording;
pub mod replay;
pub mod show;
pub mod tail;
pub mod temperature;
pub mod thermo_input;
pub mod trial_bits;
pub mod trial_field_recordings;
pub mod trial_fields;
pub mod trial_inputs;
pub mod trial_openings;
pub mod trial_packet_lines;
pub mod trial_recording_lines;
pub mod trial_recordings;
pub mod trial_short_recordings;
pub mod trial_temperatures;
pub mod trial_thermo_inputs;
pub mod trial_updates;
pub mod update;
pub mod work_load_starts;
pub mod work_loads;
