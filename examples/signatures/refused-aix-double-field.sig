aix void({i32, double})
