// Stand-in for src/detail/schema.rs. common_properties.rs names these for properties that SysEx7 and SysEx8 do
// not use, so they are declared and never implemented.
#![allow(dead_code)]
pub trait UmpSchema {}
pub struct Ump<const A: u32, const B: u32, const C: u32, const D: u32>;
impl<const A: u32, const B: u32, const C: u32, const D: u32> UmpSchema for Ump<A, B, C, D> {}

pub trait BytesSchema {}
pub struct Bytes<const A: u8, const B: u8, const C: u8>;
impl<const A: u8, const B: u8, const C: u8> BytesSchema for Bytes<A, B, C> {}

pub trait UmpSchemaRepr<T: UmpSchema>: Sized {
    fn read(buffer: &[u32]) -> Self;
    fn write(buffer: &mut [u32], v: Self);
}
pub trait BytesSchemaRepr<T: BytesSchema>: Sized {
    fn read(buffer: &[u8]) -> Self;
    fn write(buffer: &mut [u8], v: Self);
}
