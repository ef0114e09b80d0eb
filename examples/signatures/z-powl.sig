z longdouble(longdouble, longdouble)
