"""Answers of reads that are known, by the bytes that an open file has given, and what they are when somebody else comes between."""
import types
import unittest
import unittest.mock

from tests.common import V6, Case, read, words

from v6.debug import walk as walk_module
from v6.debug.answers import Answers, Room
from v6.debug.stepper import Stepper
from v6.debug.walk import Sought, Walk
from v6.disk.volume import FILE_BYTES, PLAIN, ROOT, Volume
from v6.run.history import History
from v6.run.moments import Run, Script
from v6.run.openfiles import File, Open, OpenFiles, is_within, sought, target_of

# R4 has the descriptor of a file, R2 that of a new one. The buffer begins at address 4.
PROGRAM = """
	jmp	start
buffer:	.=.+520.
start:	sys	open; name; %d
	mov	r0,r4
	sys	creat; copy; 666
	mov	r0,r2
	%s
1:	%s
	br	1b
name:	<%s\\0>
copy:	</copy\\0>
tty:	</dev/tty8\\0>
line:	<%s\\0>
	.even
"""
BUFFER = 4, 6, 8  # words of it that are looked at
READ = "mov r4,r0; sys read; buffer%s; %d.; "
BYTE, WRITE = READ % ("", 1), "mov r2,r0; sys write; buffer; %d.; "
AGAIN = "tst r0; bne 2f; mov r4,r0; sys seek; %d.; %d.\n2:"
ONE, OTHERS = b"abcdefghijklmnopqrstuvwxyz.,", b"0123456789-+=:;&*?_[]/"
TEXT = bytes(byte for other in OTHERS for one in ONE for byte in (one, other))  # no two bytes of which stand there twice
OTHER = TEXT[:700] + b"another" + TEXT[707:]
FILES = (b"text", TEXT), (b"other", OTHER)


def round_of(does, before="", name="/text", mode=0, line="x"):
    return PROGRAM % (mode, before, does, name, line)


class Reads(Case):
    def walk(self, source, files, script=b"run 300\n", number=1, every=False):
        """The moments at which words of the buffer changed, and how often each call was answered here and memory was asked for."""
        volume = Volume(read(self.disk_of(self.put("reads.s", source.encode()), "-s")))
        for name, data, *holes in files:
            volume.write_file(volume.make(ROOT, name, PLAIN | 0o666, 0), data, 0, *holes)
        run = Run(V6, self.put("image", volume.image()), 1200, script, self.folder)
        walk = Walk(History(run), 2, Sought(number, words=dict.fromkeys(BUFFER)))
        is_due = (lambda count: True) if every else walk_module.is_due
        with unittest.mock.patch.object(Run, "memory", autospec=True, side_effect=Run.memory) as asked, \
                unittest.mock.patch.object(walk_module, "is_due", is_due):
            hits = list(walk.hits(walk.history.last))
            walk.check()
        return hits, walk.answered, asked.call_count

    def reads(self, source, files=FILES, **more):
        """How many reads were answered; the same is found where each answer is asked for, and compared."""
        hits, known, asked = self.walk(source, files, **more)
        if known:
            every = self.walk(source, files, **more, every=True)
            self.assertEqual((hits, known), every[:2])
            self.assertLess(asked, every[2] - sum(known.values()) // 2)
        self.assertTrue(hits)
        return known["read"]

    def test_reads(self):
        """Of a byte after the other, up to the end of the file and there, in the slots 8, 11 and so on: four reads tell the place. By an
        indirect call: as the first. Of blocks, to odd addresses, from the front again or from another place: two reads tell it, and where
        another file goes on as this one ends, the one there too."""
        self.assertEqual(self.reads(round_of(BYTE), [(b"text", TEXT[:60])]), 98 - 4)
        self.assertEqual(self.reads(round_of("mov r4,r0; sys indir; call").replace("line:", "call:\tsys\tread; buffer; 1\nline:")), 98 - 4)
        self.assertEqual(self.reads(round_of(READ % ("", 512) + AGAIN % (0, 0)), [(b"text", TEXT[:1100])]), 54 - 2)
        self.assertEqual(self.reads(round_of(READ % ("+1", 77) + AGAIN % (1, 3)), [(b"text", TEXT[:600]), (b"other", OTHER)]), 53 - 2 - 1)

    def test_copies(self):
        """What goes to another file, or to the terminal, changes nothing of the file that is read. The second write tells that."""
        self.assertEqual(self.reads(round_of(BYTE + WRITE % 1)), 59 - 4)
        self.assertEqual(self.reads(round_of(READ % ("", 9) + WRITE % 9, "sys open; tty; 1; mov r0,r2")), 59 - 2)

    def test_what_is_asked_for(self):
        """A file that is written meanwhile, also by another descriptor; a pipe that has a file's bytes; a terminal at which they were typed."""
        pipe = "sys pipe; mov r0,r4; mov r1,r0; sys write; line; 80."
        both = "sys open; name; 1; mov r0,r2"
        typed = b"run 8\ntype %s\nrun 30\ntype %s\nrun 100\n" % (TEXT[:100], TEXT[100:200])
        for source, more in ((round_of(BYTE + WRITE % 1, "mov r4,r2", mode=2), {}), (round_of(BYTE + WRITE % 1, both), {}),
                             (round_of(BYTE, pipe, line=TEXT[:80].decode()), {}),
                             (round_of(READ % ("", 10), name="/dev/tty8"), {"script": typed})):
            self.assertEqual(self.reads(source, **more), 0, source)

    def test_holes(self):
        """A read of a hole takes a block, so it is asked for: one of five reads in each round of 27 slots."""
        data = TEXT[:1024] + bytes(512) + TEXT[:300]
        self.assertEqual(self.reads(round_of(READ % ("", 512) + AGAIN % (0, 0)), [(b"text", data, [2])]), 55 - 11 - 2)

    def test_a_place_that_others_move(self):
        """Two processes read the same open file by turns."""
        self.assertGreater(self.reads(round_of(READ % ("", 9), "sys fork; br 1f"), script=b"clock 1\nrun 400\n"), 20)


class Files(unittest.TestCase):
    """By hand: inode 2 and those after it are the files, in their order; inode 1 is the root."""

    def volume(self, *files):
        volume = Volume.empty(200, 32, 0)
        for number, data in enumerate(files):
            volume.write_file(volume.make(ROOT, b"%d" % number, PLAIN | 0o666, 0), data, 0)
        return volume

    def then(self, volume, typed=b"", target=None):
        return types.SimpleNamespace(disk=volume.image, typed=lambda: typed, target=lambda: target)

    def read(self, volume, *reads, is_pipe=True, files=None, **more):
        """What entry 1 gave, and what is known of it then; each read is its bytes, or these and its count."""
        files = files or OpenFiles()
        for one in reads:
            data, count = one if isinstance(one, tuple) else (one, len(one))
            files.took(1, count, data, is_pipe, self.then(volume, **more))
        return files

    def test_seeks(self):
        """The table of docs/manual/calls.md, from place 1000 of a file of 5000 bytes, by 2 and by -2."""
        minus = 65534
        for mode, by_two, by_minus in ((0, 2, minus), (3, 1024, 512 * minus), (1, 1002, 998), (2, 5002, 4998), (4, 2024, 2**32 - 24),
                                       (5, 6024, 3976), (6, 6024, 3976), (0o77777, 6024, 3976), (0o100000, 5002, 4998),
                                       (0o177777, 5002, 4998)):
            self.assertEqual([sought(1000, 5000, offset, mode) for offset in (2, minus)], [by_two, by_minus], mode)
        self.assertEqual([sought(None, None, 7, mode) for mode in range(6)], [7, None, None, 3584, None, None])
        self.assertEqual(sought(2**32 - 1, 0, 3, 1), 2)

    def test_what_a_terminal_gives(self):
        """Keys in their order, of which some are lost, with what they stand for: docs/manual/terminal.md."""
        for data, typed, wanted in ((b"abc", b"xaxbxc", True), (b"abc", b"acb", False), (b"aa", b"a", False),
                                    (b"A{|}`~\n", b"\\a\\(\\!\\)\\'\\^\r", True),
                                    (b"a", b"\341", True), (b"\341", b"\341", False), (b"ab", b"AB", True), (b"", b"", True)):
            self.assertEqual(is_within(data, typed), wanted, data)

    def test_places(self):
        file = File(self.volume(b"aaab" + bytes(600)), 2)
        found = [file.places(b"aa", *more) for more in ((None, False), (3, False), (4, False), (3, True))]
        self.assertEqual(found, [[2, 3], [3], [], []])
        found = [file.places(bytes(600), *more) for more in ((None, True), (604, True), (604, False), (603, False))]
        self.assertEqual(found, [[604], [604], [604], []])
        self.assertEqual((file.answer(2, 2), file.answer(603, 5), file.answer(604, 5), file.answer(2**31, 5)), (b"ab", b"\0", b"", b""))

    def test_all_that_fit(self):
        """Two files with the same bytes may both be it; where they give another answer it isn't known, and what is read tells which it is."""
        files = self.read(self.volume(b"0123456789abcdef", b"xxxx0123456789abXY", b"another file"), b"01234", b"567")
        self.assertEqual([(file.number, place) for file, place in files.read[1].may_be], [(2, 8), (3, 12)])
        self.assertEqual([files.answer(1, count) for count in (2, 4, 5, 0)], [b"89", b"89ab", None, b""])
        files.took(1, 4, b"89ab", False, None)
        self.assertIsNone(files.answer(1, 1))
        self.read(Volume.empty(200, 32, 0), b"XY", files=files)
        self.assertEqual([files.answer(1, 9), [file.number for file, _ in files.read[1].may_be]], [b"", [3]])

    def test_where_a_file_ends(self):
        """A read that gave less than it might tells that the file has ended."""
        volume = self.volume(b"01234567012345670123")
        self.assertEqual(self.read(volume, b"0123", b"4567").answer(1, 9), None)
        self.assertEqual(self.read(volume, b"4567", (b"0123", 5)).answer(1, 9), b"")
        self.assertEqual(self.read(volume, b"4567", (b"0123", 5)).read[1].may_be[0][1], 20)

    def test_a_place_that_is_known(self):
        """A seek from the front tells it; others move those that are known."""
        volume, files = self.volume(b"0000000000", b"1000000000"), OpenFiles()
        files.took(1, 1, b"0", False, self.then(volume))
        files.moved(1, 1, 0)
        self.read(volume, *[b"0"] * 7, files=files)
        self.assertEqual([(file.number, place) for file, place in files.read[1].may_be], [(2, 8), (3, 8)])
        files.moved(1, 65528, 1)
        self.assertIsNone(files.answer(1, 1))
        self.read(volume, b"1", files=files)
        self.assertEqual([files.answer(1, 99), files.moved(1, 2, 2), files.answer(1, 1)], [b"000000000", None, b""])

    def test_when_it_is_looked_for(self):
        """After two reads of eight bytes in all, or four of fewer that are some; and not where the bytes stand in too many places."""
        volume = self.volume(b"z" * 1031, b"12345678" * 2)
        self.assertIsNone(self.read(volume, b"12345678").read[1].may_be)
        self.assertIsNone(self.read(volume, b"123", b"4").read[1].may_be)
        self.assertEqual(len(self.read(volume, b"1234", b"5678").read[1].may_be), 2)
        self.assertIsNone(self.read(volume, b"1", b"2", b"3").read[1].may_be)
        self.assertEqual(len(self.read(volume, b"1", b"2", b"3", b"4").read[1].may_be), 2)
        self.assertIsNone(self.read(volume, *[(b"", 5)] * 4).read[1].may_be)
        self.assertEqual(len(self.read(volume, b"zzzz", b"zzzz").read[1].may_be), 1024)
        self.assertIsNone(self.read(self.volume(b"z" * 1032), b"zzzz", b"zzzz").read[1].may_be)

    def test_what_it_may_be_else(self):
        """A terminal, or a pipe, whose inode has no link; and where the run doesn't come so far."""
        volume = self.volume(b"0123456789")
        self.assertIsNone(self.read(volume, b"0123", b"4567", typed=b"0123456789").answer(1, 1))
        self.assertEqual(self.read(volume, b"0123", b"4567", typed=b"12345670").answer(1, 1), b"8")
        number = volume.make(ROOT, b"pipe", PLAIN, 0)
        volume.link(number, -1)
        self.assertIsNone(self.read(volume, b"0123", b"4567").answer(1, 1))
        self.assertEqual(self.read(volume, b"0123", b"4567", is_pipe=False).answer(1, 1), b"8")
        self.assertIsNone(OpenFiles().found(Open(), False, types.SimpleNamespace(disk=lambda: None)))

    def test_directories(self):
        volume = self.volume(b"")
        root = volume.read(volume.inode(ROOT))
        self.assertEqual(self.read(volume, root[:16], root[16:32]).answer(1, 99), root[32:])

    def test_writes(self):
        """The second tells which file it changes; from then on what is read of others stays known. What isn't known changes all."""
        volume = self.volume(b"0123456789abcdef", b"written")
        files = self.read(volume, b"0123", b"4567")
        files.wrote(2, self.then(volume))
        self.assertIsNone(files.answer(1, 1))
        self.read(volume, b"89ab", files=files)
        files.wrote(2, self.then(volume, target=(3, b"written")))
        self.assertEqual(files.read[1].tail, b"")  # it may be of the file that was written
        files = self.read(volume, b"0123", b"4567")
        files.wrote(2, self.then(volume, target=(0, b"")))
        self.read(volume, b"89ab", files=files)
        files.wrote(2, self.then(volume, target=(0, b"")))
        self.assertEqual(files.read[1].tail, b"89ab")  # it went to the terminal

    def test_writes_to_others(self):
        for number, data, wanted in ((3, b"written", b"8"), (3, b"other", None), (2, b"0123456789", None), (4, b"", None)):
            volume, files = self.volume(b"0123456789", b"written and more"), OpenFiles()
            files.targets[2] = number, data
            self.read(volume, b"0123", b"4567", files=files)
            files.wrote(2, None)
            self.assertEqual(files.answer(1, 1), wanted, data)

    def test_what_may_be_the_file_that_is_written(self):
        """It isn't known until more was read, which then stands in the other one alone."""
        volume, files = self.volume(b"0123456789abcdef", b"01234567"), OpenFiles()
        files.targets[2] = 3, b"01234567"
        self.read(volume, b"0123", b"4567", files=files)
        files.wrote(2, None)
        self.assertEqual((files.answer(1, 1), files.read[1].tail), (None, b"01234567"))
        self.read(volume, b"89", b"ab", files=files)
        files.wrote(2, None)
        self.assertEqual(files.answer(1, 9), b"cdef")

    def test_a_file_that_is_read_and_written(self):
        """A write moves its place, so what is read after that doesn't follow on what was read before."""
        for target in ((0, b""), (3, b"")):
            files = self.read(self.volume(b"0123456789"), b"012")
            files.targets[1] = target
            files.wrote(1, None)
            self.assertEqual(files.read[1].tail, b"")

    def test_two_that_write_one_file(self):
        """A place may be written twice, so what was read of it may not be there any more; not where others write other files."""
        volume = self.volume(b"0123456789", b"written", b"other")
        for targets, wanted in (({2: (3, b"")}, b"8"), ({2: (3, b""), 5: (4, b"")}, b"8"), ({2: (3, b""), 5: (3, b"")}, None)):
            files = OpenFiles()
            files.targets = targets
            self.assertEqual(self.read(volume, b"0123", b"4567", files=files).answer(1, 1), wanted)

    def test_others(self):
        """What is read and what is written may have changed; a terminal stays one."""
        files = self.read(self.volume(b"0123456789"), b"0123", b"4567")
        files.targets, files.written[2] = {2: (0, b""), 5: (3, b"")}, 7
        files.others()
        self.assertEqual((files.answer(1, 1), files.targets, files.written[2]), (None, {2: (0, b"")}, 0))

    def test_files_that_are_written_no_more(self):
        """What was read of a file that isn't found yet may have been overwritten."""
        for does in (lambda files: files.closed(2), lambda files: files.moved(2, 0, 0)):
            files = OpenFiles()
            files.targets[2] = 3, b""
            self.read(self.volume(b"01234567"), b"012", files=files)
            does(files)
            self.assertEqual((files.read[1].tail, files.targets), (b"", {}))

    def test_what_a_write_has_changed(self):
        one, other, longer = (self.volume(b"a", data).image() for data in (b"b", b"c", b"bc"))
        self.assertEqual(target_of((one, b""), (longer, b"x")), (3, b"bc"))
        self.assertEqual(target_of((one, b""), (other, b"")), (3, b"c"))
        self.assertEqual(target_of((one, b""), (one, b"x")), (0, b""))
        self.assertIsNone(target_of((one, b"x"), (one, b"x")))
        self.assertIsNone(target_of((one, b""), (self.volume(b"b", b"c").image(), b"")))

    def test_typed(self):
        script = Script(b"byte 101\nrun 3\ntype bc\nrun 2\ntype\nrun 1\nbyte 012\n")
        self.assertEqual([script.typed(slots) for slots in (0, 2, 3, 4, 5, 6)], [b"A", b"A", b"Abc\r", b"Abc\r", b"Abc\r\r", b"Abc\r\r\n"])
        self.assertEqual([Script(text).is_paced for text in (b"run 3\n", b"run 3\npace 2\n")], [False, True])


class Others(unittest.TestCase):
    def at(self, text, r0=3):
        """A process at an instruction, with descriptor 3 of entry 7; from 0100 on it may store."""
        u = bytes(107) + b"\7" + bytes(916)
        process = types.SimpleNamespace(registers=[r0, 1, 0, 0, 0, 0, 0, 0], u=u, text=64, pending=0, data=words(text).ljust(256, b"\0"),
                                        parts=[(0, 64, 0), (64, 64, 64), (65472, 64, 128)], carry=0)
        return Stepper(process), process

    def test_others(self):
        """Whoever has been in the kernel may have filled the disk, and written what is read; that a file is no pipe stays so."""
        volume = Volume.empty(200, 32, 0)
        volume.write_file(volume.make(ROOT, b"file", PLAIN, 0), TEXT, 0)
        then = types.SimpleNamespace(disk=volume.image, typed=lambda: b"", target=lambda: None)
        write, read_, seek = (self.at(text)[0] for text in ("104404 000100 000001", "104403 000100 000004", "104423 000000 000000"))
        known = Answers()
        known.learn(seek, types.SimpleNamespace(carry=0), then)
        for number in range(4):
            known.learn(write, types.SimpleNamespace(carry=0, registers=[1]), then)
        for at in (0, 4):
            known.learn(read_, types.SimpleNamespace(carry=0, registers=[4], bytes=lambda _, count, at=at: TEXT[at : at + count]), then)
        self.assertEqual([known.of(one, 1, None)[2:4] for one in (write, seek)], [(1, 1), (3, 1)])
        self.assertEqual(known.of(read_, 1, None).data, TEXT[8:12])
        self.assertIsNone(known.of(self.at("104403 000074 000004")[0], 1, None))  # a part of the text isn't read into
        known.learn(seek, types.SimpleNamespace(carry=0), then)
        self.assertEqual(known.of(read_, 1, None).data, TEXT[:4])
        for number in range(4):
            known.learn(write, types.SimpleNamespace(carry=0, registers=[1]), then)
        known.others()
        self.assertEqual([known.of(one, 1, None) and 1 for one in (write, seek, read_)], [None, 1, None])
        for number in range(3):
            known.learn(write, types.SimpleNamespace(carry=0, registers=[1]), then)
        self.assertIsNone(known.of(write, 1, None))

    def test_seeks_and_room(self):
        """A file that is written at far places takes blocks for each of them; and how far the place is may not be known."""
        volume = Volume.empty(60, 16, 0)
        then = types.SimpleNamespace(disk=volume.image, typed=lambda: b"", target=lambda: None)
        write, seek, back = (self.at(text)[0] for text in ("104404 000100 000001", "104423 010000 000000", "104423 000000 000001"))
        known, free = Answers(), volume.count_free()
        known.learn(seek, types.SimpleNamespace(carry=0), then)
        for number in range(4):
            known.learn(write, types.SimpleNamespace(carry=0, registers=[1]), then)
        count = 0
        while count < free and (answer := known.of(write, 1, None)):
            known.go_on(self.at("104404 000100 000001")[0], answer)
            known.go_on(self.at("104423 010000 000000")[0], known.of(seek, 1, None))
            count += 1
        self.assertEqual(count, free // 8)  # a byte may lie in two blocks, with three others that lead to each

    def test_how_far_a_place_is(self):
        """After a seek from where the file stands, or to near the greatest size, it isn't known that there is room."""
        disk = Volume.empty(200, 32, 0).image()
        for place, wanted in ((None, False), (FILE_BYTES, False), (FILE_BYTES - 1, True), (0, True)):
            room = Room(disk, [7])
            room.moved(7, place)
            room.moved(8, None)  # one that isn't written
            self.assertEqual(room.take(7, 1), wanted, place)

    def test_bytes_of_an_answer(self):
        """To odd addresses too; not into a text, nor where nothing is."""
        one, process = self.at("104403 000101 000002")
        answer = types.SimpleNamespace(data=b"xy", words=[65, 2], name="read", r0=2, r1=1, carry=0, end=6)
        self.assertEqual(one.filled(answer), {64: 0x7800, 66: 0x0079})
        places = (64, 64), (65, 63), (64, 65), (63, 1), (62, 3), (126, 2), (128, 1), (65534, 2), (65534, 3)
        self.assertEqual([one.is_open(*place) for place in places],
                         [True, True, False, False, False, True, False, True, False])
        changed = {64: 0x7800, 66: 0x0079}
        process.registers = [2, 1, 0, 0, 0, 0, 0, 6]
        self.assertTrue(one.would_be(answer, process, changed))
        for other in ({}, {64: 0x7800}, {**changed, 68: 1}, {64: 0x7800, 66: 0x0179}):
            self.assertFalse(one.would_be(answer, process, other))
        one.store({64: 0x7800})
        self.assertTrue(one.would_be(answer, process, {66: 0x0079}))
        one.store({64: 0x0041, 66: 0x4200})
        self.assertEqual(one.filled(answer), {64: 0x7841, 66: 0x4279})
        one.store({64: 0, 66: 0})
        one.answered(answer)
        self.assertEqual((one.bytes(64, 4), one.registers[:2], one.pc), (b"\0xy\0", [2, 1], 6))
