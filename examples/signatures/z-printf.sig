z i32(pointer, i32, double, longdouble, double, ...)
