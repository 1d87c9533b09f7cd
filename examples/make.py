#!/usr/bin/env python3
"""make.py: write the example executables, and the example machine, beside this file.

An executable is four words, magic 0xC0DEF00D, bss, entry, data start, then the body (document 01, "The record and the loaded
program"). An instruction is a word: its opcode in the low eight bits, imm in the upper 24.
"""
import struct
from pathlib import Path

HERE = Path(__file__).resolve().parent
OPCODES = {
    "HALT": 0x00, "LEV": 0x02, "JMP": 0x03, "JSR": 0x05, "MCPY": 0x0A, "LL": 0x0E, "LG": 0x15, "LX": 0x1C, "LI": 0x23, "LHI": 0x24,
    "LBL": 0x26, "LBG": 0x2D, "LBI": 0x3B, "LBA": 0x3E, "SL": 0x40, "SG": 0x45, "SX": 0x4A, "ADDI": 0x54, "MULI": 0x5A, "DVU": 0x5F,
    "DVUI": 0x60, "MDUI": 0x66, "BZ": 0x84, "BE": 0x88, "CLI": 0x96, "STI": 0x97, "RTI": 0x98, "BIN": 0x99, "BOUT": 0x9A, "PSHA": 0x9D, "POPA": 0xA3,
    "IVEC": 0xA4, "PDIR": 0xA5, "SPAG": 0xA6, "TIME": 0xA7, "LVAD": 0xA8, "TRAP": 0xA9, "SUSP": 0xAB, "LCA": 0xAD, "IDLE": 0xD1,
    # document 02, item 7
    "LGD": 0x1A, "LBGD": 0x32, "LBIF": 0x3D, "LBAD": 0x3F, "SGD": 0x48, "SGF": 0x49, "ADDF": 0x4F, "SUBF": 0x50, "MULF": 0x51, "BLTF": 0x8E,
    "CUD": 0x93, "CDU": 0x95,
}
# whose imm is added to the pc that has moved on
RELATIVE = {"JMP", "JSR", "LG", "LBG", "SG", "BZ", "BE", "LGD", "LBGD", "SGD", "SGF", "BLTF"}


def halves(line):
    """A line, or the two words of a double, the low one first."""
    name, _, operand = line.partition(" ")
    if name != "DOUBLE":
        return [line]
    return [f"WORD {half}" for half in struct.unpack("<2I", struct.pack("<d", float(operand)))]


def assemble(lines):
    """The words of a program, and its labels: each line an opcode, and a number or a label; `WORD n` is the number itself; a line `name:` sets a label.
    `DOUBLE x` is two words; its label, which begins with `double_`, must be a multiple of eight."""
    lines = [half for line in lines for half in halves(line)]
    labels, at = {}, 0
    for line in lines:
        if line.endswith(":"):
            labels[line[:-1]] = at
            assert not line.startswith("double_") or at % 8 == 0, line
        else:
            at += 4
    words, at = [], 0
    for line in lines:
        if line.endswith(":"):
            continue
        at += 4
        name, _, operand = line.partition(" ")
        if not operand:
            imm = 0
        elif operand not in labels:
            imm = int(operand, 0)
        elif name in RELATIVE:
            imm = labels[operand] - at
        else:
            imm = labels[operand]
        words.append(imm if name == "WORD" else (imm & 0xFFFFFF) << 8 | OPCODES[name])
    return words, labels


def assembled(program):
    """The words and labels of a program. A comment runs from `;` to the end of its line."""
    lines = (line.partition(";")[0].strip() for line in program.splitlines())
    return assemble([line for line in lines if line])


def write(name, program, entry=0):
    """Writes a program; data start at the label `data`, or at the end."""
    words, labels = assembled(program)
    header = [0xC0DEF00D, 0, entry, labels.get("data", 4 * len(words))]
    (HERE / name).write_bytes(struct.pack(f"<{4 + len(words)}I", *header, *words))


def write_machine(name, program):
    """Writes the machine of a program in the mode with doubles, as it is before its first step: document 02, item 5, of 32,768 bytes."""
    words, _ = assembled(program)
    memory = struct.pack(f"<{len(words)}I", *words).ljust(32768, b"\0")
    # sp, the fourth, is M; kbchar, the thirteenth, has no key; user to cause are 0; then step count, mode, f, g
    numbers = [0, 0, 0, len(memory), *[0] * 8, 0xFFFFFFFF, *[0] * 8]
    registers = struct.pack("<21IQIQQ", *numbers, 0, 1, 0, 0)
    entries = 28 + len(registers)
    header = [len(memory) // 4096, 0, 0, 28, entries, entries, entries]
    (HERE / name).write_bytes(struct.pack("<7I", *header) + registers + memory)


# P1: a = 9,600,000, the bench's pellet rate
write("rate.v9", """
    LI 0
    LHI 0x927C00
    HALT
""")

# three bytes on the console
write("console.v9", """
    LBI 0x76
    BOUT
    LBI 0x39
    BOUT
    LBI 0x0A
    BOUT
    HALT
""")

# paging: a read of page 16, which is absent; the handler maps it to frame 5 and has the read done again
write("paging.v9", """
    LI handler
    IVEC
    LI 0x2007
    LBI 0x1000
    SX 0
    LI 0x0007
    LBI 0x2000
    SX 0
    LI 0x2007
    SX 8
    LI 0x7007
    SX 28
    LI 42
    LBI 0x5000
    SX 0
    LI 0x1000
    PDIR
    LI 1
    SPAG
    STI
    LI 0x10000
    LX 0
    HALT
    handler:
    PSHA
    LI 0x5007
    LBI 0x2000
    SX 64
    LL 16
    ADDI -4
    SL 16
    POPA
    RTI
""")

# a system call from user mode, and HALT there, which is privileged
write("trap.v9", """
    LI handler
    IVEC
    LI 0x6000
    SUSP
    LI user
    PSHA
    LI 16
    PSHA
    RTI
    user:
    LI 7
    TRAP
    ADDI 1
    HALT
    handler:
    PSHA
    LL 8
    LBI 21
    BE call
    POPA
    HALT
    call:
    POPA
    ADDI 100
    RTI
""")

# a feed rate: grams and seconds are data; the rate in grams an hour stays in c and goes to the console in decimal
write("feed.v9", """
    LG grams
    MULI 3600
    LBG seconds
    DVU
    LCA
    JSR decimal
    LBI 10              ; a newline
    BOUT
    HALT
    decimal:            ; a in decimal: the quotient by ten first, then the remainder's digit
    PSHA
    DVUI 10
    BZ last
    JSR decimal
    last:
    POPA
    MDUI 10
    ADDI 0x30
    LBA
    BOUT
    LEV 0
    data:
    grams:
    WORD 40
    seconds:
    WORD 15
""")

# a timer and the keyboard: the program waits, and the handler does the work. It saves no register, since the program keeps none
write("ticks.v9", """
    LI handler
    IVEC
    LI 99               ; the timer fires every 100 steps: at timer + 1 > 99
    TIME
    STI
    wait:
    IDLE
    JMP wait
    handler:
    LL 0                ; the trap's code: 1 the timer, 2 a key
    LBI 2
    BE key
    LBI 0x2E            ; a tick: a dot on the console, and one more in `ticks`
    BOUT
    LG ticks
    ADDI 1
    SG ticks
    LBI 5
    BE enough
    RTI
    key:                ; a key: its byte on the console, and no tick
    BIN
    LBA
    BOUT
    RTI
    enough:
    HALT
    data:
    ticks:
    WORD 0
""")

# the panel: no tick may show a rate of which one word is new and the other old, so it masks interrupts while it writes the two. The timer fires in between,
# and the tick comes after STI. (Before item 1 of document 02 it was lost: `stop 1 steps 19 a 0 b 15 c 0 sp 32768 pc 76`.) The handler saves no register,
# since the program keeps none past STI
write("panel.v9", """
    LI handler
    IVEC
    LI 10               ; the timer fires 11 steps after TIME
    TIME
    STI
    CLI
    LG grams            ; 40 grams in 15 seconds are 9,600 grams an hour
    MULI 3600
    LBG seconds
    DVU
    PSHA
    DVUI 1000
    SG whole            ; 9 kilograms
    POPA
    MDUI 1000           ; the timer fires in this step
    SG rest             ; and 600 grams
    STI
    LG ticks            ; the tick comes in this step, before LG is fetched
    HALT
    handler:            ; a tick: the kilograms' digit on the console
    LI 0                ; one tick is enough
    TIME
    LG whole
    ADDI 0x30
    LBA
    BOUT
    SG ticks            ; BOUT gave 1
    RTI
    data:
    grams:
    WORD 40
    seconds:
    WORD 15
    whole:
    WORD 0
    rest:
    WORD 0
    ticks:
    WORD 0
""")

# user mode under paging: a recipe on a page of its own prints a byte by a system call, and is stopped where it writes to the controller's stack
write("recipe.v9", """
    LI handler
    IVEC
    LI 20               ; the recipe's five words go to frame 3
    LCA
    LI 0x3000
    LBI recipe
    MCPY
    LI 0x2007           ; the directory at 0x1000: its first word leads to the table at 0x2000
    LBI 0x1000
    SX 0
    LBI 0x2000
    LI 0x0003           ; page 0, this program: P and W, and no U
    SX 0
    LI 0x7003           ; page 7, its stack: the same
    SX 28
    LI 0x3007           ; page 16, the recipe: P, W and U
    SX 64
    LI 0x1000
    PDIR
    LI 1
    SPAG
    LI 0x11000          ; the recipe's stack is the end of its page
    SUSP
    LI 0x10000          ; RTI takes the mark 16 and this pc from the stack, and is in user mode
    PSHA
    LI 16
    PSHA
    RTI
    handler:
    PSHA
    LL 8                ; the code: 21 is TRAP from user mode
    LBI 21
    BE print
    LVAD                ; anything else ends the recipe: a is the address, b the code
    LBL 8
    HALT
    print:
    POPA
    LBA
    BOUT
    RTI
    recipe:             ; runs at 0x10000
    LI 0x52
    TRAP                ; `R` on the console
    LBI 0x7FF8
    SX 0                ; a write to page 7: FWPAGE 8, and 16 from user mode
    HALT
""")

# a jump to itself: the budget ends the run
write("endless.v9", """
    again:
    JMP again
""")

# a ration of 60 kilograms, three grams a turn, counted in a page of its own: longer than the budget of one run
write("ration.v9", """
    LI 0x2007
    LBI 0x1000
    SX 0                ; the directory's first word: the table at 0x2000
    LI 0x0007
    LBI 0x2000
    SX 0                ; page 0: the program
    LI 0x5007
    SX 64               ; page 16: frame 5, the count
    LBI 0x52
    BOUT                ; R
    LI 0x1000
    PDIR
    LI 1
    SPAG
    again:
    LI 0x10000
    LX 0
    ADDI 3
    LBI 0x10000
    SX 0
    LBI 60000
    BE done
    JMP again
    done:
    HALT
""")

# refused: the entry lies beyond the program
write("refused.v9", """
    HALT
""", entry=4)

# doubles: a flow meter's pulses, made litres and added up
write_machine("flow.machine", """
    next:
    LG at
    LX 0                ; the pulses of an interval; 0 ends the table
    BZ done
    CUD                 ; f = pulses
    LBGD double_factor
    MULF                ; their litres
    LBGD double_total
    ADDF
    SGD double_total
    LBGD double_limit
    BLTF on
    LG over             ; an interval that ends at the limit or above
    ADDI 1
    SG over
    on:
    LG at
    ADDI 4
    SG at
    JMP next
    done:
    LGD double_total
    SGF single          ; the total as a single, for the radio
    CDU                 ; whole litres
    LCA
    JSR decimal
    LBI 0x2E
    BOUT                ; a point
    LGD double_total
    CDU
    CUD
    LBAD                ; g = whole litres
    LGD double_total
    SUBF
    LBIF 10
    MULF
    CDU                 ; tenths
    JSR decimal
    LBI 0x0A
    BOUT
    LG single
    LBG over
    HALT
    decimal:            ; prints a, the quotient by ten first
    PSHA
    DVUI 10
    BZ digit
    JSR decimal
    digit:
    POPA
    MDUI 10
    ADDI 0x30
    LBA
    BOUT
    LEV 0
    at:
    WORD pulses
    over:
    WORD 0
    single:
    WORD 0
    WORD 0              ; doubles stand at multiples of eight
    double_factor:
    DOUBLE 0.0125       ; litres a pulse
    double_total:
    DOUBLE 0
    double_limit:
    DOUBLE 80
    pulses:
    WORD 1200
    WORD 1315
    WORD 1287
    WORD 990
    WORD 1402
    WORD 1100
    WORD 0
""")
