//! A lane or a log as it goes through a pipe: between two fences, to see that nothing outside it is touched.

/// Entries before a slice, and behind it: as many as `c/pipes.h` says.
pub const FENCE: usize = 16;

/// Numbers that can stand in a fence.
pub trait Post: Copy {
    const POST: Self;
    const WIDTH: usize;
    fn write(self, bytes: &mut Vec<u8>);
}

macro_rules! post {
    ($number:ty, $post:expr) => {
        impl Post for $number {
            const POST: $number = $post;
            const WIDTH: usize = size_of::<$number>();
            fn write(self, bytes: &mut Vec<u8>) {
                bytes.extend_from_slice(&self.to_le_bytes());
            }
        }
    };
}

post!(u8, 0xA5);
post!(u16, 0xA55A);
post!(u32, 0xA55A_5AA5);

/// Writes a slice between its fences.
pub fn write_fenced<T: Post>(slice: &[T], bytes: &mut Vec<u8>) {
    write_between(slice, T::POST, bytes);
}

/// Writes a slice between fences of these posts.
pub fn write_between<T: Post>(slice: &[T], post: T, bytes: &mut Vec<u8>) {
    let fence = [post; FENCE];
    for &entry in fence.iter().chain(slice).chain(&fence) {
        entry.write(bytes);
    }
}

/// The bytes of a slice's fences and of its own entries, which are `width` bytes each.
pub fn parted(fenced: &[u8], width: usize) -> ([&[u8]; 2], &[u8]) {
    let (before, rest) = fenced.split_at(FENCE * width);
    let (inside, behind) = rest.split_at(rest.len() - FENCE * width);
    ([before, behind], inside)
}

#[cfg(test)]
mod tests {
    use super::*;

    #[test]
    fn a_store_outside_is_in_a_fence() {
        let mut wanted = Vec::new();
        write_fenced(&[1u16, 2, 3], &mut wanted);
        for (entry, outside) in [(FENCE - 1, true), (FENCE, false), (FENCE + 2, false), (FENCE + 3, true)] {
            let mut got = wanted.clone();
            got[2 * entry] ^= 7;
            assert_eq!(parted(&got, 2).0 != parted(&wanted, 2).0, outside);
            assert_eq!(parted(&got, 2).1 != parted(&wanted, 2).1, !outside);
        }
    }
}
