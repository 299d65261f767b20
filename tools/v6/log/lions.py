"""Where procedures stand in the Source Code document of Lions' book, in which all lines are numbered, sheet after sheet."""
from collections import namedtuple

Procedure = namedtuple("Procedure", "name file line")

# Each file with its first line, and its procedures in the book's order with theirs: those alone whose line is certain.
SHEETS = """
low.s 0500:
m40.s 0600: start 0612, savu 0725, aretu 0734, retu 0740
main.c 1500: icode 1516, main 1550, estabur 1650, sureg 1739
slp.c 1800: newproc 1826, sched 1940, sleep 2066, wakeup 2113, setrun 2134, setpri 2156, swtch 2178, expand 2268
prf.c 2300: printf 2340, printn 2369, putchar 2386, panic 2419, prdev 2433, deverror 2447
malloc.c 2500: malloc 2528, mfree 2556
reg.h 2600:
trap.c 2650: trap 2693, trap1 2841, nosys 2855, nullsys 2864
sysent.c 2900:
sys1.c 3000: exec 3020, rexit 3205, exit 3219, wait 3270, fork 3322, sbreak 3354
sys4.c 3400: getswit 3413, gtime 3420, stime 3428, setuid 3439, getuid 3452, setgid 3460, getgid 3472, getpid 3480, sync 3486
sys4.c 3400: nice 3493, unlink 3510, chdir 3538, chmod 3560, chown 3575, ssig 3614, kill 3630, times 3656, profil 3667
clock.c 3700: clock 3725, timeout 3845
sig.c 3900: signal 3949, psignal 3963, issig 3991, stop 4016, psig 4043, core 4094, grow 4136, ptrace 4164, procxmt 4204
text.h 4300:
text.c 4350: xswap 4368, xfree 4398, xalloc 4433, xccdec 4490
buf.h 4500:
conf.h 4600:
conf.c 4650:
bio.c 4700: bread 4754, breada 4773, bwrite 4809, bdwrite 4836, bawrite 4856, brelse 4869, incore 4899, getblk 4921, iowait 4982
bio.c 4700: notavail 4999, iodone 5018, clrbuf 5038, binit 5055, devstart 5096, swap 5196, bflush 5229, physio 5259
rk.c 5350: rkstrategy 5389, rkaddr 5420, rkstart 5440, rkintr 5451
file.h 5500:
filsys.h 5550:
ino.h 5600:
inode.h 5650:
sys2.c 5700: read 5711, write 5720, rdwr 5731, open 5763, creat 5781, open1 5804, close 5846, seek 5861, link 5909, mknod 5952
sys2.c 5700: sslep 5979
sys3.c 6000: fstat 6014, stat 6028, stat1 6045, dup 6069, smount 6086, sumount 6144, getmdev 6177
rdwri.c 6200: readi 6221, writei 6276, iomove 6364
subr.c 6400: bmap 6415, passc 6517, cpass 6542, nodev 6577
fio.c 6600: getf 6619, closef 6643, closei 6672, openi 6702, access 6746, owner 6791, suser 6811, ufalloc 6824, falloc 6847
alloc.c 6900: iinit 6922, alloc 6956, free 7000, badblock 7040, ialloc 7072, ifree 7134, getfs 7167, update 7201
iget.c 7250: iget 7276, iput 7344, iupdat 7374, itrunc 7414, maknode 7455, wdir 7477
nami.c 7500: namei 7518, schar 7679, uchar 7689
pipe.c 7700: pipe 7723, readp 7758, writep 7805, plock 7862, prele 7882
tty.h 7900:
kl.c 8000: klopen 8023, klclose 8055, klread 8062, klwrite 8066, klxint 8070, klrint 8078, klsgtty 8090
tty.c 8100: gtty 8165, stty 8183, sgtty 8201, wflushtty 8217, cinit 8234, flushtty 8252, canon 8274, ttyinput 8333
tty.c 8100: ttyoutput 8373, ttrstrt 8486, ttstart 8505, ttread 8535, ttwrite 8550, ttystty 8577
pc.c 8600:
"""
# What the lessons name of the book and the table leaves out: its line isn't certain.
WITHOUT = ("sysent", "fuword")
# Of each word of a log: the procedure that does what the line tells.
OF_WORDS = {
    "boot": "main", "go": "swtch", "idle": "swtch", "trap": "trap", "tick": "clock", "sleep": "sleep", "wake": "wakeup",
    "signal": "psignal", "nice": "nice", "time": "stime", "size": "expand", "fork": "newproc", "drop": "xfree", "bare": "exec",
    "text": "xalloc", "share": "xalloc", "image": "exec", "in": "sched", "out": "xswap", "exit": "exit", "reap": "wait",
    "panic": "panic",
}


def read(sheets):
    """The first line of each file, and the procedures by name."""
    files, procedures = {}, {}
    for sheet in sheets.split("\n"):
        head, _, rest = sheet.partition(":")
        if head:
            file, first = head.split()
            files[file] = int(first)
            for one in filter(None, rest.split(",")):
                name, line = one.split()
                procedures[name] = Procedure(name, file, int(line))
    return files, procedures


FILES, PROCEDURES = read(SHEETS)


def line_of(name):
    """The line at which a procedure begins, or None where it isn't certain."""
    found = PROCEDURES.get(name)
    return found.line if found else None


def told(name):
    """A procedure with its line, of four digits as in the book: `sleep (2066)`."""
    line = line_of(name)
    return name if line is None else f"{name} ({line:04})"
