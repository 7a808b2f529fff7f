"""Where the floats of a beam stand, by the names of include/curve.h; the last is the time."""

RAY_O = slice(0, 3)
RAY_D = slice(3, 6)
RAY_T_MAX = 6
RAY_FLOATS = 8
