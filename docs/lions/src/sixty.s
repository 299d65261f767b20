/ Writes sixty letters at once, and reads the terminal.
	sys	open; tty; 2
	sys	write; letters; 60.
	clr	r0
	sys	read; letters; 60.
	sys	exit
tty:	</dev/tty8\0>
letters: <abcdefghijklmnopqrstuvwxyzabcdefghijklmnopqrstuvwxyzabcdefgh>
