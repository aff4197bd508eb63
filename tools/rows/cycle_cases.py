"""The data of cycles.py: five boards, states of theirs, and the cycles that it works out."""

# Board files by their width.
BOARDS = {
    # The board of the manual's example.
    4: """\
version = 1
width = 4
microword = 36
fill = "0"
address = 4
[fields]
src = [0, 3]
fun = [3, 3]
dst = [6, 3]
a = [9, 4]
b = [13, 4]
cin = [17, 1]
seq = [18, 4]
br = [22, 12]
off = [34, 1]
[control]
alu_source = "src"
alu_function = "fun"
alu_destination = "dst"
a_address = "a"
b_address = "b"
carry_in = "cin"
sequencer = "seq"
branch = "br"
test_disable = "off"
[select]
carry_in = ["zero", "one"]
""",
    # Every D source; a sequencer field of two bits; mar has five bits of Y.
    8: """\
version = 1
width = 8
microword = 41
address = 5
fill = "0x1f9e2ae4386"
flipflop = [{ name = "busy", control = 1, load = ["hold", "invert"] }]
[fields]
src = [0, 3]
fun = [3, 3]
dst = [6, 3]
a = [9, 4]
b = [13, 4]
d = [17, 4]
seq = [21, 2]
br = [23, 12]
off = [35, 1]
cin = [36, 1]
mar = [37, 1]
ir = [38, 1]
write = [39, 1]
out = [40, 1]
[control]
alu_source = "src"
alu_function = "fun"
alu_destination = "dst"
a_address = "a"
b_address = "b"
d = "d"
sequencer = "seq"
branch = "br"
test_disable = "off"
carry_in = "cin"
mar_load = "mar"
ir_load = "ir"
memory_write = "write"
out = "out"
[select]
carry_in = ["zero", "one"]
d = ["memory", "memory&0x0f", "zero", "ir", "ir&0b10101010", "mar", "mar&6", "input", "input&0x3c", "field:br",
"field:br&0xf0", "field:a", "ff:busy", "ff:busy&0xfe"]
""",
    # Every link of the registers, fewer of Q; a branch field of eight bits; ir is loaded and memory written in every cycle.
    16: """\
version = 1
width = 16
microword = 39
address = 12
fill = "0x698cf48351"
flipflop = [
{ name = "c", control = "fc", load = ["hold", "carry", "overflow", "xor_carry"] },
{ name = "s", control = "fs", load = ["ff:c", "f_low", "invert"] },
]
[fields]
src = [0, 3]
fun = [3, 3]
dst = [6, 3]
a = [9, 4]
b = [13, 4]
link = [17, 4]
cond = [21, 2]
pol = [23, 1]
br = [24, 8]
mar = [32, 1]
fc = [35, 2]
fs = [37, 2]
[control]
alu_source = "src"
alu_function = "fun"
alu_destination = "dst"
a_address = "a"
b_address = "b"
d = 1
sequencer = 3
branch = "br"
condition = "cond"
polarity = "pol"
link = "link"
mar_load = "mar"
ir_load = 1
memory_write = 1
[select]
carry_in = ["ff:c"]
d = ["zero", "memory&0xff0f"]
condition = ["f_zero", "carry", "overflow", "sign"]
ram_link = ["one", "zero", "carry", "overflow", "f_zero", "sign", "f_low", "f_high", "q_low", "q_high", "line", "full",
"ir:0x9", "ff:c"]
q_link = ["q_high", "f_low", "carry", "overflow", "f_zero", "f_high", "sign", "q_low"]
""",
    # Every sequencer code, condition and carry in; one field is both register addresses; no shifts.
    20: """\
version = 1
width = 20
microword = 50
address = 9
fill = "0x2013579e398b9"
vector = 0xdef
map = { low = 5, bits = 3, entries = [0x100, 0x211, 0x322, 0x433, 0x544, 0x655, 0x766, 0xfff] }
flipflop = [{ name = "t", control = "ft", load = ["one", "line", "full", "hold"] }]
[fields]
fun = [0, 3]
dst = [3, 2]
r = [5, 4]
d = [9, 2]
cin = [11, 4]
cond = [15, 4]
pol = [19, 1]
off = [20, 1]
seq = [21, 4]
br = [25, 12]
ci = [37, 1]
rld = [38, 1]
ir = [39, 1]
out = [40, 1]
ft = [48, 2]
[control]
alu_source = 5
alu_function = "fun"
alu_destination = "dst"
a_address = "r"
b_address = "r"
d = "d"
carry_in = "cin"
condition = "cond"
polarity = "pol"
test_disable = "off"
sequencer = "seq"
branch = "br"
ci = "ci"
rld = "rld"
ir_load = "ir"
out = "out"
[select]
carry_in = ["one", "zero", "q_low", "q_high", "line", "full", "ir:0", "ff:t"]
condition = ["one", "zero", "carry", "overflow", "f_zero", "sign", "f_low", "f_high", "q_low", "q_high", "line", "full",
"ir:19", "ff:t"]
d = ["input", "field:br", "ir"]
""",
    # Every load and the other links of Q, more than of the registers; fields that overlap; the test is disabled for good.
    32: """\
version = 1
width = 32
microword = 128
address = 16
fill = "0xb2c3d4e500000006900000022d2db185"
flipflop = [
{ name = "c", control = "fc", load = ["xor_carry", "carry", "overflow", "f_zero", "sign", "f_low"] },
{ name = "v", control = "fv", load = ["ff:c", "hold", "q_low", "q_high", "line", "full", "ir:31", "f_high"] },
{ name = "n", control = "fn", load = ["ff:k", "ff:n", "zero", "one"] },
{ name = "k", control = 1, load = ["hold", "invert"] },
]
[fields]
src = [0, 3]
fun = [3, 3]
dst = [6, 3]
d = [9, 3]
link = [12, 3]
seq = [15, 4]
br = [19, 12]
mar = [31, 1]
ir = [32, 1]
write = [33, 1]
fc = [60, 3]
fv = [62, 3]
fn = [65, 2]
imm = [96, 32]
a = [120, 4]
b = [124, 4]
[control]
alu_source = "src"
alu_function = "fun"
alu_destination = "dst"
a_address = "a"
b_address = "b"
d = "d"
link = "link"
sequencer = "seq"
branch = "br"
test_disable = 1
polarity = 1
ci = 0
mar_load = "mar"
ir_load = "ir"
memory_write = "write"
out = 1
[select]
d = ["field:imm", "memory", "input&0xffff0000", "ff:v", "mar"]
ram_link = ["ff:v", "ir:31"]
q_link = ["one", "zero", "q_high", "line", "full", "ir:0", "ff:n"]
""",
}

# States, each of the board of its number. Numbers are hexadecimal; what isn't there is 0.
STARTS = {
    "4 small": "r0=9 r1=8 pc=1",
    "4 full": "r2=d r3=7 r15=a q=b mar=c ir=6 pc=fff r=3 sp=5 stack=101,102,103,104,105 memc=d",
    "4 empty": "r2=6 r3=9 r4=f q=6 pc=7ff stack=222,0,0,0,888",
    "8 two": "r1=5a r2=f r3=81 r15=ff q=36 mar=13 ir=c5 flips=1 "
             "pc=41 r=a sp=2 stack=111,222,333,0,0 mem5=77 mem13=9e mem1f=1",
    "8 full": "r0=1 r4=fe r9=80 q=80 mar=1f ir=aa pc=ffe sp=5 stack=101,102,103,104,105 mem0=22 mem1f=f3",
    "16 full": "r1=8001 r2=7fff r3=1 r4=fffe q=8002 mar=123 ir=200 flips=1 "
               "pc=100 r=5 sp=5 stack=101,102,103,104,105 mem123=beef",
    "16 four": "r1=c000 r2=4000 r3=1234 r4=3 q=4001 mar=fff ir=fdff flips=2 "
               "pc=200 sp=4 stack=101,102,103,104,105 mem1=1111 memfff=5aa5",
    "20 two": "r3=7ffff r5=80001 r6=fffff q=80000 mar=1ab ir=800a1 flips=1 "
              "pc=300 r=7 sp=2 stack=111,222,333,444,555 mem1ab=abcde",
    "20 full": "r3=1 r5=f0f0 r7=12345 q=1 ir=7ff5e pc=301 sp=5 stack=111,222,333,444,555",
    "20 empty": "r3=40000 r6=2 q=80001 mar=1ff ir=40 flips=1 pc=fff r=1 stack=111,222,0,0,0 mem1ff=1",
    "32 odd": "r2=80000000 r10=7fffffff r11=1 q=80000000 mar=ffff ir=80000000 flips=5 "
              "pc=123 r=2 sp=1 stack=321,0,0,0,0 mem0=11111111 memffff=deadbeef",
    "32 even": "r2=ffff r10=ffffffff r11=2 q=1 mar=8000 ir=7fffffff flips=a "
               "pc=456 sp=5 stack=101,102,103,104,105 mem8000=12345678",
}

# A case is a name, its state, the settings of its microword, and what is given from outside. Words stand in the store of
# their board in the order of its cases; a case without settings stands at an address of its own.
CASES = [
    ("X takes X and Y", "4 small", "src=AB fun=ADD dst=RAMF a=1 b=0 seq=CONT", ""),
    ("a jump to address 0", "4 small", "dst=NOP seq=CJP off=1 br=0", ""),
    ("a push on a full stack; PC wraps", "4 full",
     "src=AB fun=SUBR dst=QREG a=2 b=3 cin=one seq=PUSH off=1 br=0x123", ""),
    ("a push on a full stack that goes to R", "4 full",
     "src=0A fun=EXNOR dst=RAMA a=3 b=15 seq=JSRP br=0xfff", "noise=0x1000"),
    ("F of an empty stack is noise, and a pop leaves it empty", "4 empty",
     "src=AB fun=OR dst=RAMD a=2 b=3 seq=CRTN off=1", "noise=0x3abc"),
    ("a pop of an empty stack, overflow alone", "4 empty",
     "src=0B fun=NOTRS dst=RAMU b=4 seq=TWB", "noise=0x2001 line=1 input=5"),
    ("JMAP without a map", "4 empty", "src=D0 fun=EXNOR dst=RAMF b=7 cin=one seq=JMAP br=0x456", ""),
    ("CJV without a vector", "4 full", "src=DA fun=SUBS dst=NOP a=3 seq=CJV br=0x456 off=1", ""),
    ("the fill word of zeros", "4 full", "", "at=0x8"),

    ("memory at the old mar, read and written; mar takes low bits", "8 two",
     "src=DA fun=ADD dst=RAMF a=2 b=4 d=memory mar=1 write=1 seq=CJP off=1 br=0x7ff", "noise=0x3000"),
    ("RAMA: mar, ir and memory take A, and so does the output", "8 two",
     "src=AB fun=ADD dst=RAMA a=3 b=2 d=zero cin=one mar=1 ir=1 write=1 out=1 seq=CJP", ""),
    ("ir is read before it is loaded", "8 two",
     "src=DA fun=EXOR dst=RAMF a=1 b=1 d=ir ir=1 seq=CJS off=1 br=0x123", ""),
    ("a mask on the input leaves the event, and an input goes before an output", "8 two",
     "src=D0 fun=OR dst=RAMF b=5 d=input&0x3c out=1 seq=CJP", "input=0xe7"),
    ("an input is taken where nothing reads D, and be it 0", "8 full",
     "src=0B fun=SUBR dst=NOP b=4 cin=one d=input out=1 seq=CJS", ""),
    ("a field wider than the width gives its low bits", "8 two",
     "src=DQ fun=AND dst=QREG d=field:br br=0xabc seq=CJP off=1", ""),
    ("a wide field under a mask", "8 two",
     "src=D0 fun=EXNOR dst=RAMF b=0 d=field:br&0xf0 br=0x5a7 seq=CJP out=1", "noise=0x1000"),
    ("a narrow field as D, which is an address too", "8 full",
     "src=DA fun=SUBS dst=RAMU a=9 b=9 d=field:a cin=one seq=JMAP", ""),
    ("a flip-flop as D is its old value", "8 two", "src=DA fun=SUBR dst=RAMD a=15 b=15 d=ff:busy seq=JZ off=1", ""),
    ("a flip-flop under a mask without its bit", "8 two",
     "src=DQ fun=OR dst=RAMQD b=3 d=ff:busy&0xfe seq=JZ", "noise=0x2000"),
    ("mar as D is the old one", "8 full", "src=DA fun=ADD dst=RAMF a=4 b=4 d=mar mar=1 seq=CJP", ""),
    ("mar under a mask", "8 two",
     "src=DQ fun=NOTRS dst=RAMQU b=1 d=mar&6 mar=1 ir=1 write=1 seq=CJP br=0xfff off=1", ""),
    ("memory under a mask", "8 full", "src=DA fun=EXOR dst=RAMA a=4 b=0 d=memory&0x0f write=1 seq=CJP", ""),
    ("ir under a mask", "8 two", "src=D0 fun=SUBS dst=RAMF b=6 cin=one d=ir&0b10101010 ir=1 out=1 seq=CJP", ""),
    ("D past its list is entry 0; the last assembled word", "8 two",
     "src=D0 fun=OR dst=RAMF b=8 d=15 out=1 seq=CJP", ""),
    ("the word past the last one is the fill word", "8 full", "", "at=0xf input=0x42"),

    ("link of one, down", "16 full",
     "src=AB fun=ADD dst=RAMQD a=1 b=2 link=one cond=carry br=0x77 fc=carry fs=ff:c", ""),
    ("link of zero, up; Q links F's low bit", "16 full",
     "src=AB fun=SUBS dst=RAMQU a=2 b=4 link=zero cond=overflow br=0x76 fc=overflow fs=f_low", ""),
    ("link of a carry, down", "16 four",
     "src=AB fun=ADD dst=RAMQD a=1 b=2 link=carry cond=f_zero fc=xor_carry fs=invert br=0x10", ""),
    ("link of noise for a carry, up", "16 four",
     "src=AB fun=OR dst=RAMQU a=3 b=4 link=carry cond=carry br=0xff fc=carry", "noise=0x1000"),
    ("link of noise for an overflow, down", "16 full",
     "src=0A fun=EXNOR dst=RAMQD a=4 b=1 link=overflow cond=overflow br=0xfe fc=overflow fs=f_low", "noise=0x2000"),
    ("link of an overflow, up; polarity turns it over", "16 four",
     "src=AB fun=ADD dst=RAMQU a=2 b=2 link=overflow cond=overflow pol=1 br=0x80 fc=overflow fs=f_low", "noise=0x1000"),
    ("link of F is zero, down", "16 full",
     "src=AB fun=AND dst=RAMQD a=3 b=4 link=f_zero cond=f_zero br=0x81 mar=1", ""),
    ("link of the sign, up; Q links F's high bit", "16 full",
     "src=0B fun=SUBR dst=RAMQU b=4 link=sign cond=sign br=0x82 fs=invert", ""),
    ("link of F's low bit, down; Q links the sign", "16 four",
     "src=0B fun=EXNOR dst=RAMQD b=2 link=f_low cond=sign br=0x83 fc=xor_carry", "noise=0x1fff"),
    ("link of F's high bit, up; Q links its own low bit", "16 four",
     "src=0A fun=NOTRS dst=RAMQU a=1 b=3 link=f_high cond=carry pol=1 br=0x84", "noise=0x2fff"),
    ("link of Q's low bit; Q's list is shorter", "16 four",
     "src=DQ fun=SUBR dst=RAMQD b=2 link=q_low cond=carry pol=1 br=0x85 fc=carry", ""),
    ("link of Q's high bit, up", "16 full",
     "src=0Q fun=EXOR dst=RAMQU b=4 link=q_high cond=overflow pol=1 br=0x86 fc=xor_carry fs=f_low", "noise=0x3000"),
    ("link of the line, down", "16 four",
     "src=DA fun=ADD dst=RAMD a=1 b=2 link=line cond=f_zero pol=1 br=0x87 fs=invert mar=1", "line=1"),
    ("link of a full stack, up", "16 full",
     "src=D0 fun=OR dst=RAMU b=3 link=full cond=sign br=0x88 fc=overflow", "noise=0x1000"),
    ("link of the old ir, up", "16 full",
     "src=0A fun=ADD dst=RAMU a=2 b=5 link=ir:0x9 cond=f_zero br=0x89 fc=xor_carry fs=3", ""),
    ("link of a flip-flop, down", "16 full",
     "src=0B fun=AND dst=RAMD b=1 link=ff:c cond=carry br=0x8a fc=carry fs=ff:c", "noise=0x0fff"),
    ("a link past both lists", "16 full",
     "src=AQ fun=ADD dst=RAMQU a=1 b=1 link=15 cond=carry br=0x8b fc=hold fs=3", ""),
    ("four words are no full stack", "16 four",
     "src=0Q fun=SUBR dst=RAMD a=3 b=1 link=full cond=f_zero mar=1 fs=3", ""),
    ("the fill word; a load past its list is entry 0", "16 four", "", "at=0x345"),

    ("JZ clears the stack and leaves its words", "20 two",
     "fun=ADD dst=RAMF r=3 d=field:br br=0x801 cin=line cond=overflow seq=JZ ci=1 ft=hold", ""),
    ("CJS on a flip-flop; d past its list takes an input", "20 two",
     "fun=EXOR dst=RAMF r=5 d=3 cond=ff:t seq=CJS br=0x123 ci=1 ft=line out=1", "input=0xabcde"),
    ("JMAP by the old ir, which is loaded; R takes the map's address", "20 two",
     "fun=OR dst=RAMF r=6 d=field:br br=0x456 cond=zero seq=JMAP rld=1 ir=1", "noise=0x1000"),
    ("JMAP of the other bits; without rld R stays", "20 full",
     "fun=AND dst=NOP r=7 d=ir cin=ff:t cond=full seq=JMAP br=0x456 ci=1 ir=1 ft=full", ""),
    ("CJP with polarity 1 and a bit that holds", "20 two",
     "fun=SUBR dst=RAMF r=3 d=ir cin=ff:t cond=ir:19 pol=1 seq=CJP br=0x222 ci=1", ""),
    ("CJP with the test disabled and polarity 1", "20 full",
     "fun=ADD dst=QREG r=5 d=ir cin=full cond=one pol=1 off=1 seq=CJP br=0x333 ci=1", ""),
    ("PUSH and R, where noise carries", "20 two",
     "fun=OR dst=NOP r=5 d=ir cin=q_low cond=carry seq=PUSH br=0x444 ci=1 ft=full", "noise=0x1000"),
    ("JSRP where F is zero", "20 empty",
     "fun=EXOR dst=NOP r=6 d=field:br br=2 cin=ir:0 cond=f_zero seq=JSRP ci=1 ft=hold", ""),
    ("CJV to the vector, which R takes", "20 empty",
     "fun=ADD dst=RAMA r=3 d=ir cin=line cond=line seq=CJV br=0x666 rld=1 ir=1 out=1", "line=1"),
    ("JRP passes on F's low bit", "20 two", "fun=ADD dst=RAMF r=5 d=field:br br=0x110 cin=full cond=f_low seq=JRP", ""),
    ("JRP fails to R while R takes the branch", "20 two",
     "fun=ADD dst=QREG r=3 d=ir cin=q_high cond=sign seq=JRP br=0x777 rld=1", ""),
    ("RFCT, R not 0; the test has a value", "20 two",
     "fun=SUBS dst=RAMA r=6 d=field:br br=7 cin=ir:0 cond=q_high seq=RFCT ci=1", ""),
    ("RPCT, R not 0; rld wins over its count", "20 empty",
     "fun=EXNOR dst=RAMF r=6 d=ir cond=q_low seq=RPCT br=0x999 ci=1 rld=1", "noise=0x3fff"),
    ("CRTN where the stack is full", "20 full",
     "fun=ADD dst=NOP r=7 d=ir cin=q_high cond=full seq=CRTN ci=1 ft=line", "line=1"),
    ("CJPP; a condition past its list is entry 0", "20 two",
     "fun=ADD dst=NOP r=3 d=field:br br=0xbbb cin=15 cond=15 seq=CJPP ft=hold", ""),
    ("LDCT with the test that fails; carry in past its list", "20 two",
     "fun=ADD dst=QREG r=5 d=ir cin=8 cond=carry pol=1 seq=LDCT br=0xccc", ""),
    ("LOOP fails and goes to F", "20 two", "fun=ADD dst=NOP r=6 d=ir cin=zero cond=f_zero seq=LOOP ci=1 ft=full", ""),
    ("CONT from 4095", "20 empty", "fun=SUBR dst=RAMA r=6 d=ir cin=q_low cond=f_high seq=CONT ci=1", ""),
    ("TWB, R not 0, fails to F of the empty stack", "20 empty",
     "fun=EXNOR dst=NOP r=3 d=input cond=full seq=TWB br=0xddd ci=1", "noise=0x3000 input=0xfffff"),
    ("TWB, R is 0, fails to the branch, which R takes", "20 full",
     "fun=NOTRS dst=RAMF r=7 d=ir cond=overflow seq=TWB br=0xeee ci=1 rld=1", "noise=0x1fff"),
    ("the fill word at the last address", "20 two", "", "at=0xfff input=0x13579"),

    ("xor_carry turns over; v reads the old c", "32 odd",
     "src=DA fun=ADD dst=RAMQD d=field:imm imm=0xba800001 link=2 seq=CJP br=0xabc fc=xor_carry fv=ff:c fn=ff:k", ""),
    ("xor_carry of noise; mar takes low bits", "32 even",
     "src=DA fun=OR dst=RAMQU d=field:imm imm=0x2b000000 link=one seq=CJS br=0x123 mar=1 write=1 fc=xor_carry fv=q_low fn=ff:n",
     "noise=0x1000"),
    ("an overflow is loaded", "32 odd",
     "src=AB fun=ADD dst=RAMQU a=10 b=11 link=zero seq=CRTN fc=overflow fv=line fn=zero", "noise=0x1000"),
    ("F is zero is loaded; a full stack is linked", "32 even",
     "src=AB fun=AND dst=RAMQD a=2 b=0 link=full seq=LOOP fc=f_zero fv=line fn=one", "line=1"),
    ("the sign is loaded", "32 even",
     "src=DQ fun=SUBR dst=RAMQU d=memory b=2 link=line seq=JSRP br=0xfff fc=sign fv=full fn=ff:k", "line=1"),
    ("ir's bits are loaded before it takes Y", "32 odd",
     "src=D0 fun=OR dst=RAMQD d=ff:v a=0 b=3 link=q_high ir=1 seq=RPCT br=0x321 fc=carry fv=ir:31", "noise=0x1fff"),
    ("an input under a mask is taken and not put out", "32 even",
     "src=DA fun=EXNOR dst=RAMQU d=input&0xffff0000 a=10 b=11 link=ir:0 seq=PUSH br=0x654 write=1 fc=f_low fv=f_high",
     "input=0x89abcdef"),
    ("mar as D before it is loaded; Y of RAMA is put out", "32 odd",
     "src=DQ fun=SUBR dst=RAMA d=mar a=10 b=2 mar=1 ir=1 write=1 seq=JRP br=0x777 fc=7 fv=q_high fn=ff:n", ""),
    ("d past its list is the field that overlaps", "32 even",
     "src=D0 fun=EXOR dst=RAMQD d=7 imm=0x4a123457 link=7 seq=TWB br=0x888 fc=sign fv=hold", ""),
    ("Q links a flip-flop; registers choose entry 0", "32 odd",
     "src=AQ fun=NOTRS dst=RAMQD a=11 b=11 link=ff:n seq=JZ fc=6 fv=hold fn=ff:n", ""),
    ("a fill word of 128 bits", "32 even", "", "at=0xa"),
]
