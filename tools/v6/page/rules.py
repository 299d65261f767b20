"""The rule that gives a line of a log, and the procedures of Lions' book that it comes from, with their place in this repository.

The rules restate docs/manual/log.md, clock.md, swapper.md, core.md, processes.md, signals.md and texts.md in a sentence each."""
import re

from v6.log import lions

# Of each word of a line: the rule, the procedures of the book, and where they are here.
RULES = {
    "boot": ("The first line of each log: the machine begins, and process 1 is made by hand.",
             [("main", "unix_core: Kernel::boot"), ("newproc", "proc_tab: new_slot")]),
    "go": ("A choice: of the processes that can run and are in core the first of the least priority, from the entry after the one that "
           "was chosen last on.", [("swtch", "pick_rules: Table::pick")]),
    "idle": ("A choice: no process that can run is in core, so nobody runs.", [("swtch", "pick_rules: Table::pick")]),
    "trap": ("A call or a fault of the program has ended: the priority of the process is set anew, to 100 + nice + cpu / 16, "
             "and 127 at most.", [("trap", "unix_core: Kernel::turn"), ("setpri", "pick_rules: setpri")]),
    "tick": ("The clock ticks: the process that runs is counted 1 more tick. With each sixtieth tick a second ends: times grow, use falls "
             "by 10, and processes that wait for the second are woken.", [("clock", "unix_core: Kernel::tick")]),
    "sleep": ("What it asks for isn't there: it sleeps for a channel, with the priority of that channel, until a wakeup of it. From 0 on "
              "a signal wakes it too.", [("sleep", "pick_rules: sleep")]),
    "wake": ("All that sleep for the channel can run again, and look once more whether what they wait for is there.",
             [("wakeup", "pick_rules: wakeup"), ("setrun", "pick_rules: setrun")]),
    "signal": ("The signal is kept for the process, and comes to it when it next leaves the kernel; a process that sleeps at 0 or above is "
               "woken.", [("psignal", "sig_core: post")]),
    "nice": ("The call nice: what it sets is added to the priority from then on.", [("nice", "sys_procs: nice_to")]),
    "time": ("The call stime.", [("stime", "sys_procs: set_time")]),
    "size": ("An image grows, and takes a new place by first fit: in core where there is room, else in the swap area; or it becomes "
             "smaller, and stays.", [("expand", "image_keep: resize"), ("malloc", "map_fit: take")]),
    "fork": ("A child gets the lowest free entry, the next number that is free, and a copy of the image: by first fit in core where there "
             "is room, else in the swap area.",
             [("newproc", "proc_tab: new_slot"), ("malloc", "map_fit: take")]),
    "drop": ("A process leaves its text. With its last user a text goes; a sticky one stays in the swap area.",
             [("xfree", "sys_procs/texts: leave_text")]),
    "bare": ("exec has tested the file, and gives back the old image before it takes one for the new program.",
             [("exec", "image_keep: bare"), ("expand", "image_keep: replace")]),
    "text": ("The program has a text that no process has yet: it is made, with a copy in the swap area.",
             [("xalloc", "sys_procs/texts: take_text")]),
    "share": ("The program's text is there already: it has one user more.", [("xalloc", "sys_procs/texts: take_text")]),
    "image": ("exec takes an image for the new program, by first fit in core, else in the swap area.",
              [("exec", "sys_procs: exec_file"), ("malloc", "map_fit: take")]),
    "in": ("The swapper, rule 1: of the processes that can run and are out of core the one that has been out for longest, the lowest "
           "entry of equals. Rule 2: it comes in where there is room by first fit.",
           [("sched", "swap_sched: pass"), ("malloc", "map_fit: take")]),
    "out": ("The swapper, rules 3 and 5: where there is no room, a process goes out, to the first place in the swap area where it fits.", [("xswap", "image_keep: swap_out")]),
    "exit": ("A process ends: its files are closed, its image is given back, and one block keeps its status and times until its parent "
             "waits. Its children become those of process 1.", [("exit", "unix_core/process: exit")]),
    "reap": ("The parent's wait finds a child that has ended: entry and block are free again.",
             [("wait", "sys_procs: wait_child")]),
    "panic": ("The kernel finds no room where it can't do without, and stops.", [("panic", "abstract_unix: Turned::Panic")]),
    "end": ("The script has no more slots.", []),
}
SWAPPER = {  # of the swapper's own sleeps
    "runout": ("The swapper, rule 1: no process that can run is out of core.", [("sched", "swap_sched: pass")]),
    "runin": ("The swapper, rules 4 and 5: there is no room, no process in core waits, and either the one that wants to come in has "
              "been out for less than three seconds, or the one that would go out has been in for less than two.", [("sched", "swap_sched: pass")]),
}
ENTRY = re.compile(r"\bentry (\d+)")


def rule_of(entry, table, text):
    """The rule of a line and its procedures, by the table before it, which knows the priorities; of a choice also why it is this one."""
    word = entry["word"]
    rule, procedures = SWAPPER[entry["W"]] if word == "sleep" and entry["W"] in SWAPPER else RULES[word]
    if word == "out":
        procedures = [("sched", "swap_sched: pass"), *procedures]
    line, why = table.foretold(entry) or (None, "")
    return f"{rule} Here: {ENTRY.sub(lambda found: numbered(found, table), why)}." if line == text else rule, procedures


def numbered(found, table):
    """An entry that is named, and the number of its process, where that is another."""
    slot = int(found[1])
    return found[0] if slot not in table.rows or table.rows[slot].number == slot else f"{found[0]} (process {table.rows[slot].number})"


def told(procedures):
    """The procedures of a line as text: the book's name, file and line, and the place here."""
    return [f"{lions.told(name)}{file_of(name)}; here {place}" for name, place in procedures]


def file_of(name):
    found = lions.PROCEDURES.get(name)
    return f" of {found.file}" if found else ""
