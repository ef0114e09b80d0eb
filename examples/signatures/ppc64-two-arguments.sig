ppc64 void(i32, double)
