"""A board for case_words.py beside those of cycle_cases.py, its states, and its cases in the same form. Memory's addresses
have the width of its words, and the map takes all bits of the instruction register, so that parts are whole words. The
lists of bits stand out of order."""

WHOLE = """\
version = 1
width = 4
microword = 60
address = 4
fill = "0"
vector = 0x321
map = { low = 0, bits = 4, entries = [1, 2, 4, 8, 16, 32, 64, 128, 256, 512, 1024, 2048, 4095, 7, 6, 5] }
flipflop = [
{ name = "z", control = "fz", load = ["ir:3", "carry", "overflow", "f_zero", "sign", "f_high", "f_low", "invert"] },
{ name = "p", control = "fp", load = ["ff:z", "hold", "xor_carry", "ir:0", "q_low", "q_high", "full", "line"] },
{ name = "a", control = "fa", load = ["zero", "one", "ff:p", "xor_carry", "f_zero", "ir:2"] },
]
[fields]
src = [0, 3]
fun = [3, 3]
dst = [6, 3]
a = [9, 4]
b = [13, 4]
d = [17, 3]
cin = [20, 3]
cond = [23, 4]
pol = [27, 1]
off = [28, 1]
link = [29, 4]
seq = [33, 4]
br = [37, 12]
rld = [49, 1]
mar = [50, 1]
fz = [51, 3]
fp = [54, 3]
fa = [57, 3]
[control]
alu_source = "src"
alu_function = "fun"
alu_destination = "dst"
a_address = "a"
b_address = "b"
d = "d"
carry_in = "cin"
condition = "cond"
polarity = "pol"
test_disable = "off"
link = "link"
sequencer = "seq"
branch = "br"
rld = "rld"
mar_load = "mar"
[select]
carry_in = ["zero", "q_low", "ir:2", "q_high", "full", "ir:1", "ff:p", "line"]
condition = ["q_high", "ir:1", "f_low", "ir:3", "zero", "overflow", "carry", "sign", "one", "q_low", "full", "ff:a"]
ram_link = ["ir:2", "f_high", "f_zero", "q_low"]
q_link = ["ff:z", "line", "one", "zero", "ff:a", "full", "f_low", "sign", "carry", "ir:1", "overflow", "q_low"]
d = ["mar", "mar&0b0110", "zero&9", "memory&15", "ff:p", "field:br&3"]
"""

WHOLE_STARTS = {
    "two": "r1=9 r2=c r3=7 q=b mar=5 ir=e flips=5 pc=7fe r=3 sp=2 stack=a01,a02,a03,0,0 mem5=6",
    "full": "r1=8 r2=8 r3=f q=4 mar=f ir=9 flips=2 pc=fff sp=5 stack=101,202,303,404,505 memf=3",
    "empty": "r2=5 r3=a q=d ir=c flips=7 pc=1 r=fff stack=777,0,0,0,0",
}

WHOLE_CASES = [
    ("a mar as wide as D, read and loaded", "two", "src=DA fun=ADD dst=RAMF a=1 b=2 d=mar mar=1 seq=CONT off=1", ""),
    ("a map over the whole ir", "two", "src=DA fun=SUBS dst=RAMF a=1 b=2 d=mar&0b0110 cin=line seq=JMAP rld=1", "line=1"),
    ("a map that R isn't given", "full", "src=AB fun=SUBR dst=QREG a=1 b=2 seq=JMAP off=1", ""),
    ("many bits at once, out of order", "two",
     "src=DQ fun=ADD dst=RAMQD b=3 d=mar cin=q_high cond=ir:3 link=2 fz=f_high fp=ir:0 fa=xor_carry seq=CJP br=0x5a5", ""),
    ("the same many bits where noise carries", "empty",
     "src=DQ fun=EXNOR dst=RAMQU b=3 d=memory&15 cin=q_high cond=ir:3 link=2 fz=f_high fp=ir:0 fa=xor_carry seq=CJS br=0x5a5", "noise=0x1000"),
    ("a bit that the carry in has made", "two", "src=AB fun=SUBR dst=RAMQD a=1 b=2 cin=q_low cond=q_low link=q_low fp=q_low seq=CJPP br=0x800", ""),
    ("a bit of ir that the carry in has made, behind another", "two",
     "src=AB fun=OR dst=RAMU a=1 b=2 cin=ir:2 cond=ir:1 link=0 fz=ir:3 fp=ir:0 fa=ir:2 seq=CJV", ""),
    ("one word for F is zero, and one for the carry", "full",
     "src=AB fun=ADD dst=RAMQU a=1 b=2 cond=carry link=2 fz=f_zero fp=xor_carry fa=xor_carry seq=JRP", ""),
    ("the sign and F's high bit", "full", "src=0A fun=NOTRS dst=RAMQD a=3 b=1 cond=sign link=1 fz=sign fp=full seq=LOOP", ""),
    ("a mask on zero; a constant turned over", "empty", "src=D0 fun=EXOR dst=RAMA a=2 b=3 d=zero&9 cond=one pol=1 mar=1 seq=CRTN", ""),
    ("a constant turned over where nothing is decided", "empty",
     "src=0Q fun=SUBR dst=NOP cond=zero pol=1 fp=xor_carry fz=invert fa=one seq=TWB off=1", ""),
    ("TWB that fails to a word of the stack", "two", "src=0A fun=AND dst=RAMD a=2 b=1 cond=zero link=q_low fp=line seq=TWB br=0x123", "line=1"),
    ("TWB at 0 that passes", "full", "src=0B fun=ADD dst=NOP b=2 cond=one fz=overflow fp=q_high seq=TWB", ""),
    ("RFCT to noise, and R-1", "empty", "src=AQ fun=SUBS dst=RAMQU a=3 b=2 cond=overflow link=8 fa=f_zero seq=RFCT", "noise=0x2fff"),
    ("RFCT at 0", "full", "src=D0 fun=SUBR dst=RAMF b=0 d=ff:p cond=f_low seq=RFCT off=1", ""),
    ("RPCT at 0, where R takes the branch", "full", "src=D0 fun=AND dst=RAMF b=0 d=field:br&3 cond=full pol=1 seq=RPCT br=0xfed rld=1", ""),
    ("RPCT where the test is disabled; R takes the branch", "two", "src=D0 fun=OR dst=NOP d=mar cond=ff:a seq=RPCT br=0xfed rld=1 off=1", ""),
    ("LDCT; Q links the overflow", "two", "src=AB fun=SUBS dst=RAMQD a=2 b=3 cin=ff:p link=10 fz=carry seq=LDCT br=0xabc off=1", ""),
    ("PUSH where the test is disabled", "empty", "src=AB fun=NOTRS dst=RAMQU a=2 b=3 link=1 seq=PUSH br=0xabc off=1 fp=ir:0 fa=ir:2", ""),
    ("CJS where the test is disabled", "two", "src=AB fun=EXNOR dst=RAMQD a=2 b=3 link=2 fz=f_low seq=CJS br=0xabc off=1", ""),
    ("JSRP where the test is disabled", "two", "src=AB fun=EXOR dst=RAMQU a=2 b=3 link=3 fz=overflow seq=JSRP br=0xabc off=1", "noise=0x2000"),
    ("JRP where the test is disabled", "full", "src=AB fun=AND dst=RAMQD a=2 b=3 link=7 seq=JRP br=0xabc off=1 pol=1", ""),
    ("CJPP where the test is disabled", "full", "src=AB fun=OR dst=RAMQU a=2 b=3 link=5 seq=CJPP br=0xabc off=1", ""),
    ("LOOP where the test is disabled", "two", "src=AB fun=ADD dst=RAMQD a=2 b=3 link=9 cond=ir:1 seq=LOOP off=1", ""),
    ("LOOP that fails to noise", "empty", "src=AB fun=SUBR dst=RAMD a=2 b=3 link=1 cond=zero seq=LOOP", "noise=0x0842"),
]
