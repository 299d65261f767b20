"""What the lines of a log tell, in words: docs/manual/log.md."""
from v6.log.processes import TICKS_OF_A_SECOND

CHANNELS = {"keys": "for keys", "show": "for room to write on the terminal", "tout": "for a time",
            "runin": "until somebody may go out of core", "runout": "until somebody out of core can run"}
TICKS = {"u": "in a program", "k": "in the kernel", "i": "while nobody ran"}
PANICS = {"swap": "there is no room in the swap area", "zombie": "there is no block for a process that ended",
          "text": "there is no place in the table of texts"}
FEW = 12  # processes that a line names


def clicks(count):
    return f"{count} click" + "s" * (count != 1)


class Teller:
    """Says what a line tells, by the table before it. A program is named where it alone of the disk has image and text as large."""

    def __init__(self, table, programs=None):
        self.table, self.programs = table, programs or {}

    def who(self, slot):
        row = self.table.row(slot)
        if not slot:
            return "the swapper"
        names = self.programs.get(row.program, [])
        return f"process {row.number}" + (f" ({names[0]})" if len(names) == 1 else "")

    def all(self, slots, none="nobody"):
        named = [self.who(slot) for slot in slots[:FEW]]
        more = [f"{len(slots) - FEW} more"] if len(slots) > FEW else []
        return ", ".join(named + more) or none

    def channel(self, name):
        kind, _, number = name.partition(".")
        if kind in CHANNELS:
            return CHANNELS[kind] + (f" of line {number}" if number else "")
        if kind == "wait":
            row = self.table.rows.get(int(number))
            return f"for a child of {self.who(int(number))}" if row else f"for a child in entry {number}"
        if kind == "disk":
            row = self.table.rows.get(int(number))
            return f"for the disk, as {self.who(int(number))} does" if row else f"for the disk, in entry {number}"
        return f"for {'bytes' if kind == 'read' else 'room'} in the pipe of inode {number}"

    def place(self, entry):
        where, start = entry["place"]
        return f"at click {start}" if where == "at" else f"in the swap area at block {start}"

    def told(self, entry):
        return getattr(self, "tell_" + entry["word"])(entry)

    def tell_boot(self, entry):
        return f"the system begins, with {entry['C']} clicks of core, at {entry['TIME']} seconds"

    def tell_go(self, entry):
        return f"{self.who(entry['S'])} runs"

    def tell_idle(self, entry):
        return "nobody can run"

    def tell_trap(self, entry):
        return f"{self.who(entry['S'])} has left the kernel"

    def tell_tick(self, entry):
        is_last = (self.table.ticks + 1) % TICKS_OF_A_SECOND == 0
        return f"a tick {TICKS[entry['mode']]}" + (f"; second {self.table.second()} ends" if is_last else "")

    def tell_sleep(self, entry):
        own = entry["W"] == f"wait.{entry['S']}"
        what = "for a child" if own else "for the disk" if entry["W"].startswith("disk.") else self.channel(entry["W"])
        return f"{self.who(entry['S'])} waits {what}, at priority {entry['P']}"

    def tell_wake(self, entry):
        return f"wakes those that wait {self.channel(entry['W'])}: {self.all(self.table.sleepers(entry['W']), 'nobody waits')}"

    def tell_signal(self, entry):
        return f"{self.who(entry['S'])} gets signal {entry['X']}"

    def tell_nice(self, entry):
        return f"{self.who(entry['S'])} wants {entry['P']} added to its priority"

    def tell_time(self, entry):
        return f"the time is set to {entry['TIME']} seconds"

    def tell_size(self, entry):
        image = f"the image of {self.who(entry['S'])} becomes {entry['N']} clicks"
        return image + (f", {self.place(entry)}{self.without(entry)}" if "place" in entry else ", where it stands")

    def without(self, entry):
        """That a text leaves core with an image that goes to the swap area."""
        text = self.table.leaves_core(self.table.row(entry["S"])) if entry["place"].where == "swap" else None
        return "" if text is None else f"; text {text} leaves core"

    def tell_fork(self, entry):
        return (f"{self.who(entry['S'])} makes process {self.table.next_number()} in entry {entry['T']}, "
                f"{self.place(entry)}")

    def tell_drop(self, entry):
        row, is_last = self.table.row(entry["S"]), self.table.text(entry["K"]).users == 1
        left = "which leaves core" if self.table.leaves_core(row) == entry["K"] else ""
        if is_last:
            left = "which stays" if entry["kind"] == "sticky" else "which goes"
        return ", ".join(filter(None, [f"{self.who(entry['S'])} leaves text {entry['K']}", left]))

    def tell_bare(self, entry):
        return f"{self.who(entry['S'])} gives back its image for a new program"

    def tell_text(self, entry):
        return f"{self.who(entry['S'])} makes text {entry['K']} of {clicks(entry['N'])}, {self.place(entry)}"

    def tell_share(self, entry):
        return f"{self.who(entry['S'])} takes text {entry['K']}"

    def tell_image(self, entry):
        name = self.programs.get(self.table.program(self.table.row(entry["S"]), entry["N"]), [])
        what = f" of {name[0]}" if len(name) == 1 else ""
        return f"{self.who(entry['S'])} has its new image{what}, of {entry['N']} clicks, {self.place(entry)}"

    def tell_in(self, entry):
        text = self.table.row(entry["S"]).text
        first = text is not None and not self.table.text(text).loaded
        return f"{self.who(entry['S'])} comes into core at click {entry['C']}" + (f", text {text} first" if first else "")

    def tell_out(self, entry):
        return f"{self.who(entry['S'])} goes out of core, to block {entry['B']}{self.without(entry)}"

    def tell_exit(self, entry):
        return f"{self.who(entry['S'])} ends; block {entry['B']} keeps what its parent may ask for"

    def tell_reap(self, entry):
        return f"the parent of {self.who(entry['S'])} has waited for it"

    def tell_panic(self, entry):
        return f"the system stops, for {PANICS[entry['reason']]}"

    def tell_end(self, entry):
        return "the script has ended"
