//! Samples of a radio as channel values, by Rust's own products and rounding.
use crate::rules::{self, CHANNEL_LIMIT};

#[derive(Clone, Copy, Debug)]
pub enum Channel {
    Steady { ratio: f32 },
    Fading { amplitude: f32, ratio: f32 },
    Silent,
}

#[derive(Clone, Copy, Debug)]
pub struct Setting {
    pub scale: f32,
    pub channel: Channel,
}

impl Setting {
    /// What every sample is multiplied by: reliability times scale. A silent channel has none.
    pub fn factor(&self) -> Option<f32> {
        let reliability = match self.channel {
            Channel::Steady { ratio } => 4.0 * ratio,
            Channel::Fading { amplitude, ratio } => (4.0 * amplitude) * ratio,
            Channel::Silent => return None,
        };
        Some(reliability * self.scale)
    }
}

// An infinite product is limited as any other.
fn limited(product: f32) -> i16 {
    let limit = CHANNEL_LIMIT as f32;
    product.round_ties_even().clamp(-limit, limit) as i16
}

/// The values of the samples, for a list of this length.
pub fn values(setting: &Setting, samples: &[f32], length: usize) -> Result<Vec<i16>, u32> {
    let applying = [
        (5, rules::lists(&[(length, samples.len() as u128)])),
        (17, rules::setting(setting)),
        (18, rules::samples(samples)),
    ];
    if let Some(number) = rules::lowest(&applying) {
        return Err(number);
    }
    Ok(match setting.factor() {
        Some(factor) => samples.iter().map(|sample| limited(factor * sample)).collect(),
        None => vec![0; samples.len()],
    })
}
