z i32(i32, i32, double, i32, i32, i64, double, double, i32)
