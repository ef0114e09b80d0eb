ppc64 i32(pointer, {u8, u8, u8}, {u8, u8, u8, u8, u8, u8, u8, u8, u8}, i16, i64, i64, {u8, u8, u8, u8, u8, u8, u8, u8, u8}, {u8, u8, u8})
