"""Code 128 in its character set B, as ISO/IEC 15417 defines it."""

# The widths of bar, space, bar, space, bar and space of each value, in modules; the last is the stop, which ends with a bar of its own.
PATTERNS = """
212222 222122 222221 121223 121322 131222 122213 122312 132212 221213 221312 231212 112232 122132 122231 113222 123122 123221 223211 221132 221231
213212 223112 312131 311222 321122 321221 312212 322112 322211 212123 212321 232121 111323 131123 131321 112313 132113 132311 211313 231113 231311
112133 112331 132131 113123 113321 133121 313121 211331 231131 213113 213311 213131 311123 311321 331121 312113 312311 332111 314111 221411 431111
111224 111422 121124 121421 141122 141221 112214 112412 122114 122411 142112 142211 241211 221114 413111 241112 134111 111242 121142 121241 114212
124112 124211 411212 421112 421211 212141 214121 412121 111143 111341 131141 114113 114311 411113 411311 113141 114131 311141 411131 211412 211214
211232 2331112
""".split()
START_B, STOP = 104, 106


def check_value(values):
    """Returns the check value of a start value and the values after it, each of which is weighed by its place."""
    return sum(max(place, 1) * value for place, value in enumerate(values)) % 103


def bar_widths(text):
    """Returns the widths of the first bar, the first space, the second bar and so on, in modules, for a text of ASCII characters from blank to tilde."""
    if not text or not all(" " <= it <= "~" for it in text):
        raise ValueError(f"set B has no such text: {text!r}")
    values = [START_B, *(ord(it) - ord(" ") for it in text)]
    return [int(width) for value in (*values, check_value(values), STOP) for width in PATTERNS[value]]
