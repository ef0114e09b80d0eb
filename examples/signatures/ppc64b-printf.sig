ppc64b i32(pointer, i32, i32, i32, longdouble, i32, longdouble, ...)
