"""The names of the PDP-11/40's instructions and of the calls of the kernel, as as(I) writes them.

The words are those of docs/manual/instructions.md, the numbers those of docs/manual/calls.md.
"""

REGISTERS = {**{f"r{n}": n for n in range(8)}, "sp": 6, "pc": 7}

# A form says which operands follow the name: `s,d` a source and a destination, `d` a destination, `j` a destination that is
# no register, `r,d` and `r,j` a register before one, `s,r` a source and a register, `r` a register, `b` an address within
# reach of a branch, `r,b` a register and one further back, `n6` and `n8` a number of so many bits, `call`
# a call of the kernel by its name or its number, and `` nothing.
WORDS = {
    "s,d": {"mov": 0o010000, "cmp": 0o020000, "bit": 0o030000, "bic": 0o040000, "bis": 0o050000},
    "d": {"clr": 0o005000, "com": 0o005100, "inc": 0o005200, "dec": 0o005300, "neg": 0o005400, "adc": 0o005500,
          "sbc": 0o005600, "tst": 0o005700, "ror": 0o006000, "rol": 0o006100, "asr": 0o006200, "asl": 0o006300},
}
BYTES = {form: {name + "b": 0o100000 | word for name, word in table.items()} for form, table in WORDS.items()}
OTHERS = {
    "s,d": {"add": 0o060000, "sub": 0o160000},
    "d": {"swab": 0o000300, "sxt": 0o006700},
    "s,r": {"mul": 0o070000, "div": 0o071000, "ash": 0o072000, "ashc": 0o073000},
    "r,d": {"xor": 0o074000},
    "r,b": {"sob": 0o077000},
    "b": {"br": 0o000400, "bne": 0o001000, "beq": 0o001400, "bge": 0o002000, "blt": 0o002400, "bgt": 0o003000,
          "ble": 0o003400, "bpl": 0o100000, "bmi": 0o100400, "bhi": 0o101000, "blos": 0o101400, "bvc": 0o102000,
          "bvs": 0o102400, "bcc": 0o103000, "bcs": 0o103400},
    "j": {"jmp": 0o000100},
    "r,j": {"jsr": 0o004000},
    "r": {"rts": 0o000200},
    "n6": {"mark": 0o006400},
    "n8": {"emt": 0o104000},
    "call": {"sys": 0o104400},
    "": {"wait": 0o000001, "rti": 0o000002, "bpt": 0o000003, "iot": 0o000004, "reset": 0o000005, "rtt": 0o000006},
}
SECOND_NAMES = {"bec": "bcc", "bes": "bcs", "bhis": "bcc", "blo": "bcs", "mpy": "mul", "dvd": "div", "als": "ash",
                "alsc": "ashc"}
# Jumps that are branches where the target is near: by their names the opposite branch, if they have a condition.
JUMPS = {"jbr": None, "jne": "beq", "jeq": "bne", "jge": "blt", "jlt": "bge", "jgt": "ble", "jle": "bgt", "jpl": "bmi",
         "jmi": "bpl", "jhi": "blos", "jlos": "bhi", "jvc": "bvs", "jvs": "bvc", "jcc": "bcs", "jec": "bcs", "jhis": "bcs",
         "jcs": "bcc", "jes": "bcc", "jlo": "bcc"}
INSTRUCTIONS = {name: (form, word) for part in (WORDS, BYTES, OTHERS) for form, table in part.items()
                for name, word in table.items()}

# The condition codes are constants: `clc|clv` clears both.
CODES = {"nop": 0o240, "clc": 0o241, "clv": 0o242, "clz": 0o244, "cln": 0o250,
         "sec": 0o261, "sev": 0o262, "sez": 0o264, "sen": 0o270}

CALLS = {"indir": 0, "exit": 1, "fork": 2, "read": 3, "write": 4, "open": 5, "close": 6, "wait": 7, "creat": 8, "link": 9,
         "unlink": 10, "exec": 11, "chdir": 12, "time": 13, "mknod": 14, "chmod": 15, "chown": 16, "break": 17, "stat": 18,
         "seek": 19, "getpid": 20, "mount": 21, "umount": 22, "setuid": 23, "getuid": 24, "stime": 25, "ptrace": 26,
         "fstat": 28, "smdate": 30, "stty": 31, "gtty": 32, "nice": 34, "sleep": 35, "sync": 36, "kill": 37, "csw": 38,
         "dup": 41, "pipe": 42, "times": 43, "profil": 44, "setgid": 46, "getgid": 47, "signal": 48}
ARGUMENTS = {"indir": 1, "read": 2, "write": 2, "open": 2, "creat": 2, "link": 2, "unlink": 1, "exec": 2, "chdir": 1,
             "mknod": 3, "chmod": 2, "chown": 2, "break": 1, "stat": 2, "seek": 2, "mount": 3, "umount": 1, "fstat": 1,
             "smdate": 1, "stty": 1, "gtty": 1, "kill": 1, "times": 1, "ptrace": 3, "profil": 4,
             "signal": 2}

MAGIC, SHARED = 0o407, 0o410  # of a.out(V): docs/manual/a-out.md
SEGMENT = 8192


def signed(value, bits=16):
    """The value of the low bits as a signed number."""
    value &= (1 << bits) - 1
    return value - (1 << bits) if value >> (bits - 1) else value
