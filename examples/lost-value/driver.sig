# int set_valve(double pressure, int valve, long seconds)
ppc64 i32(double, i32, i64)
