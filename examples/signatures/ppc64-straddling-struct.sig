ppc64 void(pointer, {double, double, double, double}, single, {double, double, double, double}, i32)
