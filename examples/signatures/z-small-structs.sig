z i32(pointer, {single, single}, single, {double}, {double}, {u8, u8, u8}, {u8, u8, u8}, i16, u32, {u8, u8, u8})
