ppc64b void(longdouble, longdouble, longdouble, longdouble, longdouble, longdouble, longdouble)
