use crate::{raw, told, Refusal};

/// What lies between the sender and the samples. `ratio` is document 001's Ec/N0, the energy of a sent bit to the noise: where -1 and 1 are sent and
/// the noise has variance v, it is 1/(2·v).
#[derive(Clone, Copy, Debug, PartialEq)]
pub enum Channel {
    /// What was sent arrives as it is: the reliability is 4·ratio.
    Steady { ratio: f32 },
    /// What was sent arrives times the amplitude: the reliability is (4·amplitude)·ratio.
    Fading { amplitude: f32, ratio: f32 },
    /// Nothing of what was sent arrives.
    Silent,
}

/// A receiver's setting. Each of its numbers must be within 0..1,024, -0.0 included; the scale also where the channel is silent.
#[derive(Clone, Copy, Debug, PartialEq)]
pub struct Setting {
    /// The channel value of a sample of 1 where the reliability is 1.
    pub scale: f32,
    pub channel: Channel,
}

/// The channel values of a radio's samples, for [`decode`](crate::decode) or [`lone_decode`](crate::lone_decode). A sample above 0 speaks for bit 1.
///
/// A value is (reliability·scale)·sample, each multiplication rounded once in `f32`; then the nearest whole number, halves to even, limited to
/// -1,023..1,023. An infinite product is limited by its sign. A silent channel's values are 0. No value is out of range, so
/// [`Refusal::Value`] never comes of them.
///
/// What is refused is [`Refusal::Setting`], then [`Refusal::Sample`] for a sample that is infinite or not a number, also on a silent channel.
pub fn sample_values(setting: Setting, samples: &[f32]) -> Result<Vec<i16>, Refusal> {
    let mut values = vec![0; samples.len()];
    let scale = setting.scale;
    let number = match setting.channel {
        Channel::Steady { ratio } => raw::steady_values(ratio, scale, samples, &mut values),
        Channel::Fading { amplitude, ratio } => raw::fading_values(amplitude, ratio, scale, samples, &mut values),
        Channel::Silent => raw::silent_values(scale, samples, &mut values),
    };
    told(number, 0)?;
    Ok(values)
}
