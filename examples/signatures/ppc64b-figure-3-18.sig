ppc64b i32(i32, double, i32, longdouble, {i32, double}, double, {i32, double}, i32, double)
