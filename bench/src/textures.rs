//! The mosaics that are timed.

#[derive(Clone, Copy, Debug)]
pub enum Texture {
    Noise,
    Smooth,
    Glaze,
    Flat,
}

pub const TEXTURES: [Texture; 4] = [
    Texture::Noise,
    Texture::Smooth,
    Texture::Glaze,
    Texture::Flat,
];

/// A number below `bound` that follows from the site alone.
fn noise(site: usize, bound: u64) -> usize {
    let mut mixed = (site as u64).wrapping_mul(0x9e37_79b9_7f4a_7c15);
    mixed = (mixed ^ (mixed >> 30)).wrapping_mul(0xbf58_476d_1ce4_e5b9);
    mixed = (mixed ^ (mixed >> 27)).wrapping_mul(0x94d0_49bb_1331_11eb);
    ((mixed ^ (mixed >> 31)) % bound) as usize
}

/// Up to `height` and down again, over and over.
fn wave(position: usize, height: usize) -> usize {
    let within = position % (2 * height);
    within.min(2 * height - within)
}

impl Texture {
    fn sample(self, site: usize, row: usize, column: usize) -> usize {
        match self {
            Texture::Noise => noise(site, 1024),
            Texture::Smooth => 200 + wave(2 * row, 331) + wave(3 * column, 277) + noise(site, 4),
            Texture::Glaze => 500 + noise(site, 3),
            Texture::Flat => 500,
        }
    }

    pub fn mosaic(self, width: usize, height: usize) -> Vec<u16> {
        (0..width * height)
            .map(|site| self.sample(site, site / width, site % width) as u16)
            .collect()
    }
}
