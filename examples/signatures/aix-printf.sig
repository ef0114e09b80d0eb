aix i32(pointer, i32, double, i64, i32, double, double, ...)
