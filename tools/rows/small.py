"""The texts of the small case, which is the manual's example: the board, the microprogram, the machine and the relation."""

SMALL_BOARD = b"""version = 1
width = 4
microword = 36
fill = "0"
address = 4
[fields]
src = [0, 3]
fun = [3, 3]
dst = [6, 3]
a = [9, 4]
b = [13, 4]
cin = [17, 1]
seq = [18, 4]
br = [22, 12]
off = [34, 1]
[control]
alu_source = "src"
alu_function = "fun"
alu_destination = "dst"
a_address = "a"
b_address = "b"
carry_in = "cin"
sequencer = "seq"
branch = "br"
test_disable = "off"
[select]
carry_in = ["zero", "one"]
"""
SMALL_MICRO = b"""def CONT = seq=14
def JUMP = seq=3, off=1
LOOP: src=1, fun=0, dst=3, a=1, b=0, CONT
dst=1, JUMP, br=LOOP
"""
SMALL_MACHINE = b"memory 4 4\nregister X 4\nregister Y 4\nstep\nX := X + Y\n"
SMALL_RELATION = b"boundary LOOP 2\nsp 0\nb.upc = 1#12\nb.r0 = m.X\nb.r1 = m.Y\nend\n"
