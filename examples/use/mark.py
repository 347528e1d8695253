# Marks the first path of the gasket in gasket.txt: prints cut.
from ctypes import CDLL, byref, c_char_p, c_double, c_size_t, c_uint8, c_void_p
from struct import pack

mark = CDLL("target/libbisquefern.so").bf_view_mark
mark.argtypes = [c_void_p, c_size_t, c_uint8, c_char_p, c_size_t, c_double, c_void_p, c_size_t]
mark.restype = c_uint8

outline = (c_double * 12)(20, 0, 0, 80, 0, 1, 80, 40, 0, 20, 40, 1)
path = pack("<2I6d2I", 0, 2, 50, 0, 0, 0, 50, 40, 0, 17)
cut = c_uint8(0)
refusal = mark(outline, 12, 1, path, 64, 1e-8, byref(cut), 1)
print("cut" if refusal == 0 and cut.value == 1 else "hold")
