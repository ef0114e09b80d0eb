z void({i64, longdouble})
