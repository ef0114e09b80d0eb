ppc64 void(i32, i32, i32, i32, i32, i32, double, pointer, i32, pointer, i32, double, pointer, i32)
