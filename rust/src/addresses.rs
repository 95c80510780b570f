//! Addresses that a packet has one after the other.

use std::iter::FusedIterator;
use std::marker::PhantomData;
use std::net::{Ipv4Addr, Ipv6Addr};

/// An address of one version of IP.
pub trait Address: Sized {
    /// How many bytes it has.
    const LEN: usize;

    /// The address, which these bytes begin with.
    fn of(bytes: [u8; 16]) -> Self;
}

impl Address for Ipv4Addr {
    const LEN: usize = 4;

    fn of([a, b, c, d, ..]: [u8; 16]) -> Ipv4Addr {
        Ipv4Addr::new(a, b, c, d)
    }
}

impl Address for Ipv6Addr {
    const LEN: usize = 16;

    fn of(bytes: [u8; 16]) -> Ipv6Addr {
        bytes.into()
    }
}

/// Addresses one after the other: of IPv4 where `A` is [`Ipv4Addr`], of IPv6 where it is [`Ipv6Addr`].
#[derive(Clone, Debug, PartialEq, Eq, Hash)]
pub struct Addresses<'a, A> {
    bytes: &'a [u8],
    kind: PhantomData<A>,
}

impl<'a, A> Addresses<'a, A> {
    pub(crate) fn new(bytes: &'a [u8]) -> Addresses<'a, A> {
        Addresses { bytes, kind: PhantomData }
    }
}

impl<A: Address> Iterator for Addresses<'_, A> {
    type Item = A;

    fn next(&mut self) -> Option<A> {
        if self.bytes.len() < A::LEN {
            return None;
        }
        let (first, rest) = self.bytes.split_at(A::LEN);
        self.bytes = rest;
        let mut bytes = [0; 16];
        bytes[..A::LEN].copy_from_slice(first);
        Some(A::of(bytes))
    }

    fn size_hint(&self) -> (usize, Option<usize>) {
        let count = self.bytes.len() / A::LEN;
        (count, Some(count))
    }
}

impl<A: Address> ExactSizeIterator for Addresses<'_, A> {}

impl<A: Address> FusedIterator for Addresses<'_, A> {}
