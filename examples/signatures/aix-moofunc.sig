aix void(i32, single, double, i16, double, u8, u16, single, i32)
