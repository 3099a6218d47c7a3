//! Calls of the Rattle libraries and of the C peers, as functions of slices.

use crate::records::*;

macro_rules! calls {
    ($($name:ident ( $($extra:ident),* ) : $from:ty => $to:ty;)*) => {
        mod raw {
            use crate::records::*;
            extern "C" {
                $(pub fn $name(from: *const $from, n: usize, $($extra: usize,)* to: *mut $to, m: usize) -> bool;)*
            }
        }
        $(pub fn $name(from: &[$from], $($extra: usize,)* to: &mut [$to]) -> bool {
            unsafe { raw::$name(from.as_ptr(), from.len(), $($extra,)* to.as_mut_ptr(), to.len()) }
        })*
    };
}

calls! {
    dk_heads_read(): u8 => Head;
    dk_heads_write(): Head => u8;
    dk_inlined_heads_read(): u8 => Head;
    dk_inlined_heads_write(): Head => u8;
    dk_lone_heads_read(): u8 => Head;
    dk_lone_heads_write(): Head => u8;
    dk_quads_read(): u8 => Quad;
    dk_quads_write(): Quad => u8;
    dk_signals_read(): u8 => Signals;
    dk_signals_write(): Signals => u8;
    dk_samples_read(): u8 => u16;
    dk_samples_write(): u16 => u8;
    dk_signed_samples_read(): u8 => i16;
    dk_signed_samples_write(): i16 => u8;
    dk_words_read(): u8 => Wide;
    dk_words_write(): Wide => u8;
    dk_hundreds_read(): u8 => Wide;
    dk_hundreds_write(): Wide => u8;
    dk_runs_read(behind, run): u8 => u8;
    dk_exact_read(run): u8 => u8;
    dk_runs_write(behind, run): u8 => u8;
    dk_counted_read(): u8 => u16;
    dk_counted_write(): u16 => u8;
    dk_fives_read(): u8 => Five;
    dk_fives_write(): Five => u8;
    dk_fields_read(): u8 => Head;
    dk_fields_write(): Head => u8;
    dk_lone_fields_read(): u8 => Head;
    dk_lone_fields_write(): Head => u8;
    dk_plan_read(): u8 => Head;
    dk_rows_sum(): u8 => u64;
    dk_columns_sum(): u8 => u64;
    dk_plan_write(): Head => u8;
    dk_udp_unpack(): u8 => UdpFields;
    dk_udp_pack(): UdpFields => u8;
    dk_udp_read(): u8 => UdpFields;
    dk_udp_write(): UdpFields => u8;
    dk_udp_grow(): UdpFields => u8;
    dk_udp_counted(): u8 => UdpFields;
    dk_udp_counted_round(count): u8 => u8;
    dk_ipv4_unpack(): u8 => Ipv4Fields;
    dk_ipv4_pack(): Ipv4Fields => u8;
    dk_ipv4_read(): u8 => Ipv4Fields;
    dk_ipv4_write(): Ipv4Fields => u8;
    dk_can_unpack(): u8 => CanFields;
    dk_can_pack(): CanFields => u8;
    dk_can_read(): u8 => CanFields;
    dk_can_write(): CanFields => u8;
    dk_counted_bytes_read(): u8 => u16;
    dk_counted_bytes_round(count): u8 => u8;
    dk_counted_udps_read(): u8 => u16;
    dk_counted_udps_round(count): u8 => u8;
    dk_message_read(): u8 => MessageFields;
    dk_message_write(): MessageFields => u8;
    dk_query_unpack(each): u8 => QueryFields;
    dk_query_round(count): u8 => u8;
    dk_elf_unpack(): u8 => ElfFields;
    dk_elf_round(count): u8 => u8;
    dk_flags_read(): u8 => [bool; 8];
    dk_flags_write(): [bool; 8] => u8;
    dk_ones_read(): u8 => [u8; 8];
    dk_ones_write(): [u8; 8] => u8;
    dk_i24_read(): u8 => i32;
    dk_i24_write(): i32 => u8;
    dk_i16le_read(): u8 => i16;
    dk_i16le_write(): i16 => u8;
    dk_u61_read(): u8 => u64;
    dk_u61_write(): u64 => u8;
    dk_u65_read(): u8 => Wide;
    dk_u65_write(): Wide => u8;
    dk_u127_read(): u8 => Wide;
    dk_u127_write(): Wide => u8;
    dk_skip_bytes(): u8 => u8;
    dk_skip_few(): u8 => u8;
    dk_seeks(): u8 => u16;
    dk_u16_grow(): u16 => u8;
    dk_part_read(part): u8 => PartFields;
    dk_part_write(part): PartFields => u8;
    dk_part_round(part, count): u8 => u8;
    dk_rest_read(each): u8 => PartFields;
    dk_rest_round(each): u8 => u8;
    c_heads_read(): u8 => Head;
    c_heads_write(): Head => u8;
    c_signals_read(): u8 => Signals;
    c_signals_write(): Signals => u8;
    c_samples_read(): u8 => u16;
    c_samples_write(): u16 => u8;
}
