/ Reads a line of the terminal, and ends. It is assembled with a text that is shared.
	sys	open; tty; 0
	sys	read; line; 100.
	sys	exit
	.=.+1000.			/ that the text has some clicks
	.data
tty:	</dev/tty8\0>
	.bss
line:	.=.+100.
